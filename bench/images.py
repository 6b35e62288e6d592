"""Images for timing, laid out byte by byte: `python3 images.py FOLDER` writes them there."""

import os
import random
import struct
import sys

# The description: width, units of I M L P B, latencies of alu mul div load store io cmp pbr branch.
WIDE = (16, 8, 8, 8, 8, 8) + (1,) * 9

# A description with busy times, in the order of the latencies: products take two cycles, and keep their unit for both.
BUSY = (16, 8, 8, 8, 8, 8) + (1, 2) + (1,) * 7 + (1, 2) + (1,) * 7

UNITS = {"I": 0, "M": 1, "L": 2, "P": 3, "B": 4}


def word(opcode, unit, d=0, s=0, tail=0, head=True):
    """An operation word under the guard p0, without a pause."""
    return head << 63 | UNITS[unit] << 59 | opcode << 47 | d << 37 | s << 32 | tail


def add(d, s, t, head=True):
    return word(1, "I", d, s, t, head)


def addi(d, s, number, head=True):
    return word(17, "I", d, s, number, head)


def pbr(d, address, head=True):
    return word(33, "I", d, 0, address, head)


def mul(d, s, t, head=True):
    return word(40, "M", d, s, t, head)


def ldw(d, s, number, head=True):
    return word(48, "L", d, s, number, head)


def stw(d, s, number, head=True):
    return word(53, "L", d, s, number, head)


def bru(s, head=True):
    return word(80, "B", 0, s, 0, head)


def halt(s, head=True):
    return word(84, "B", 0, s, 0, head)


def image(pages, blocks, memory=0, init=b"", description=WIDE):
    """The file of an image that begins at its first block; a block is its entry and its words. With busy times in its
    description it is of version 2."""
    words = [0] * (512 * pages)
    for entry, block in blocks:
        words[entry : entry + len(block)] = block
    header = struct.pack(">4sHHIIII", b"TNKI", 1 if len(description) == 15 else 2, pages, len(blocks), blocks[0][0], memory, len(init))
    rows = b"".join(struct.pack(">IH", entry, len(block)) for entry, block in blocks)
    return header + bytes(description) + rows + init + struct.pack(f">{len(words)}Q", *words)


def loop():
    """A block of five operations that goes to itself, over the largest memory."""
    block = [addi(1, 1, 4), ldw(2, 1, 0), stw(2, 1, 0), pbr(1, 0), bru(1)]
    return image(1, [(0, block)], memory=1_048_576)


def ring():
    """256 pages of a block of five operations each, which goes to that of the next page; the last goes to the first."""
    blocks = []
    for n in range(256):
        block = [addi(1, 0, 4 * n), ldw(2, 1, 0), stw(2, 1, 4), pbr(1, 512 * (n + 1) % (512 * 256)), bru(1)]
        blocks.append((512 * n, block))
    return image(256, blocks, memory=1_048_576)


def long():
    """A block of 512 operations that goes to itself: sums, products, loads and stores, one in each MultiOp."""
    make = [lambda k: add(1 + k % 16, 17 + k % 8, 1 + k % 5), lambda k: mul(2 + k % 16, 18 + k % 8, 1 + k % 7),
            lambda k: ldw(3 + k % 16, 0, 4 * k), lambda k: stw(4 + k % 16, 0, 4 * k)]
    return image(1, [(0, [make[k % 4](k) for k in range(510)] + [pbr(1, 0), bru(1)])], memory=1_048_576)


def both():
    """Two pages that go to each other, each with a block of 500 operations beside the short one that runs."""
    draw = random.Random(2)
    rest = [add(draw.randrange(1, 32), draw.randrange(1, 32), draw.randrange(1, 32)) for _ in range(499)] + [halt(0)]
    short = lambda to: [pbr(1, to), bru(1)]
    return image(2, [(0, short(512)), (2, rest), (512, short(0)), (514, rest)])


def single_words(description=WIDE):
    """As many blocks as there can be, of one operation each, and as many bytes as an image can have."""
    return image(256, [(k, [halt(0)]) for k in range(131_072)], 1_048_576, bytes(1_048_576), description)


def full_pages(description=WIDE):
    """A block on each page that fills it, with eight operations in nearly each MultiOp."""
    adds = [addi(1 + k % 8, 9 + k % 16, k, head=k % 8 == 0) for k in range(511)]
    return image(256, [(512 * n, adds + [halt(0)]) for n in range(256)], 1_048_576, bytes(1_048_576), description)


def dense(count):
    """256 pages of blocks of so many operations, one in each MultiOp, over all registers: about one pair in four is ordered."""
    draw = random.Random(1)
    make = [
        lambda d, s, t: add(d, s, t),
        lambda d, s, t: addi(d, s, t),
        lambda d, s, t: mul(d, s, t),
        lambda d, s, t: ldw(d, s, 4 * t),
        lambda d, s, t: stw(d, s, 4 * t),
    ]
    blocks = []
    for entry in (512 * n + count * k for n in range(256) for k in range(512 // count)):
        block = [draw.choice(make)(*(draw.randrange(1, 32) for _ in range(3))) for _ in range(count - 1)]
        blocks.append((entry, block + [halt(0)]))
    return image(256, blocks, 1_048_576)


def main():
    images = {
        "loop": loop,
        "ring": ring,
        "long": long,
        "both": both,
        "single_words": single_words,
        "single_words_2": lambda: single_words(BUSY),
        "full_pages": full_pages,
        "full_pages_2": lambda: full_pages(BUSY),
        "dense": lambda: dense(500),
    }
    for count in (32, 64, 128, 256, 512):
        images[f"dense_{count}"] = lambda count=count: dense(count)
    for name, make in images.items():
        with open(os.path.join(sys.argv[1], name), "wb") as out:
            out.write(make())


if __name__ == "__main__":
    main()
