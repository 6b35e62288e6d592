"""Times the built program: `python3 bench/time.py [PROGRAM]`, after `rt ci` or `rt run` has built it. It wants `rustc`.

The first lines tell the command, the seconds of the quickest of five runs, and the most memory that it took (peak.rs) as a
multiple of its file. The next lines compare `check` and `resched` with plain.rs, plain Rust that does the search for orders
and the schedules alone, and by all pairs of a block's operations, over images of 256 pages of blocks of so many operations:
the nanoseconds for each operation, of the program and of plain.rs by turns, and how many times plain.rs's they are. Both
write the same file. The next lines compare `run` with run.rs, a machine in plain Rust, on the generation of the image, and tell
what it costs to load a page that is in no frame: to copy it, to reschedule it, and to restore it. The last lines are of a generated
image of 256 blocks of 500 operations: its making, its run beside run.rs, eight contexts of it that have their turns by rounds and by a
script, and pages that two generations of it take from each other in one frame.
"""

import os
import shutil
import subprocess
import sys
import tempfile
import time

RUNS = 5


def seconds(program, folder, words):
    """The seconds of the quickest run."""
    least = None
    for _ in range(RUNS):
        begun = time.perf_counter()
        subprocess.run([program, *words], cwd=folder, stdout=subprocess.DEVNULL, check=True)
        spent = time.perf_counter() - begun
        least = spent if least is None else min(least, spent)
    return least


def compiled(here, folder, name):
    out = os.path.join(folder, name)
    subprocess.run(["rustc", "--edition", "2024", "-O", "-o", out, os.path.join(here, f"{name}.rs")], check=True)
    return out


def measure(program, peak, folder, words):
    size = os.path.getsize(os.path.join(folder, words[1]))
    memory = int(subprocess.run([peak, program, *words], cwd=folder, stdout=subprocess.PIPE, check=True).stdout)
    print(f"{' '.join(words)}: {seconds(program, folder, words):.3f} s, {memory} bytes, {memory / size:.1f} times the file of {size}")


def same(folder, first, second):
    with open(os.path.join(folder, first), "rb") as one, open(os.path.join(folder, second), "rb") as other:
        return one.read() == other.read()


def compare(program, plain, folder):
    """`check` and `resched` beside plain.rs, as blocks grow."""
    print("operations a block; ns an operation of check, plain, ratio; of resched, plain, ratio")
    for name, count in [("dense_32", 32), ("dense_64", 64), ("dense_128", 128), ("dense_256", 256), ("dense", 500), ("dense_512", 512)]:
        operations = 256 * (512 // count) * count
        row = []
        for words in (["check", name], ["resched", name, "t2"]):
            times = [seconds(program, folder, words + ["ours"][: len(words) - 2]), seconds(plain, folder, words + ["theirs"][: len(words) - 2])]
            ours, theirs = (1e9 * spent / operations for spent in times)
            row.append(f"{ours:.0f}, {theirs:.0f}, {ours / theirs:.3f};")
        if not same(folder, "ours", "theirs"):
            sys.exit(f"{name}: the files differ")
        print(count, *row)


def beyond_one(program, folder, words, blocks, make):
    """The seconds of a run of so many blocks, less those of a run of one."""
    return seconds(program, folder, make(words, blocks)) - seconds(program, folder, make(words, 1))


def play(program, machine, folder):
    """`run` beside run.rs on the generation of the image, and what it costs to load a page in another one."""
    ours = lambda words, blocks: ["run", f"bound={blocks}", *words]
    theirs = lambda words, blocks: [words[-3], str(blocks)]
    print("millions of MultiOps a second of run, of run.rs, and how many times the time of run.rs")
    for words, blocks, multi_ops in [(["loop", "own", "-"], 200_000, 5), (["frames=256", "ring", "own", "-"], 1_000_000, 5), (["long", "own", "-"], 40_000, 512)]:
        times = [beyond_one(program, folder, words, blocks, ours), beyond_one(machine, folder, words, blocks, theirs)]
        speeds = [blocks * multi_ops / spent / 1e6 for spent in times]
        print(" ".join(words), f"{speeds[0]:.1f}, {speeds[1]:.1f}, {times[0] / times[1]:.2f}")
    print("microseconds for each page that is loaded, in one frame")
    for words in (["frames=1", "saved=0", "both", "own", "-"], ["frames=1", "saved=0", "both", "t2", "-"], ["frames=1", "saved=2", "both", "t2", "-"]):
        print(" ".join(words), f"{beyond_one(program, folder, words, 20_000, ours) / 20_000 * 1e6:.1f}")


def loaded(program, folder, words):
    """How many pages a run loads, by its own count."""
    text = subprocess.run([program, *words], cwd=folder, stdout=subprocess.PIPE, check=True).stdout
    return int(text.rsplit(b"pages loaded ", 1)[1].split()[0])


def interleave(program, machine, folder):
    """Eight contexts of a generated image, turn by turn."""
    print(f"gen 7 256 500 big: {seconds(program, folder, ['gen', '7', '256', '500', 'big']):.3f} s")
    ours = lambda words, blocks: ["run", f"bound={blocks}", *words]
    theirs = lambda words, blocks: ["big", str(blocks)]
    multi_ops = 255 * 500 + 1
    eight = ["big", "own", "-"] * 8
    plain = beyond_one(machine, folder, [], 256, theirs)
    print("millions of MultiOps a second of run, of run.rs, and how many times the time of run.rs")
    for name, words, contexts in [("one", eight[:3], 1), ("eight", eight, 8)]:
        spent = beyond_one(program, folder, words, 256, ours)
        print(f"{name} {contexts * multi_ops / spent / 1e6:.1f}, {multi_ops / plain / 1e6:.1f}, {spent / plain / contexts:.2f}")
    with open(os.path.join(folder, "turns"), "w") as script:
        script.write("".join(f"turn {c}\n" for _ in range(32 * 500) for c in range(8)))
    rounds, script = (seconds(program, folder, ours(words + eight, 32)) for words in ([], ["script=turns"]))
    print(f"128000 turns of eight contexts: {rounds:.3f} s by rounds, {script:.3f} s by the lines of a script")
    print("thousands of pages a second that are loaded, turn by turn in one frame: own ones, own and rescheduled ones, and restored ones")
    for words in (["saved=0", "big", "own", "-", "other", "own", "-"], ["saved=0", "big", "own", "-", "big", "t2", "-"], ["saved=2", "big", "own", "-", "big", "t2", "-"]):
        words = ["frames=1", *words]
        pages = loaded(program, folder, ours(words, 101)) - loaded(program, folder, ours(words, 1))
        spent = seconds(program, folder, ours(words, 101)) - seconds(program, folder, ours(words, 1))
        print(f"{' '.join(words)} {pages / spent / 1e3:.1f}, of {pages}")


def main():
    if shutil.which("rustc") is None:
        sys.exit("no rustc: plain.rs and peak.rs can't be compiled")
    here = os.path.dirname(os.path.abspath(__file__))
    program = os.path.abspath(sys.argv[1] if len(sys.argv) > 1 else os.path.join(here, "../crates/tinker/out/tinker"))
    with tempfile.TemporaryDirectory() as folder:
        subprocess.run([sys.executable, os.path.join(here, "images.py"), folder], check=True)
        plain, machine, peak = (compiled(here, folder, name) for name in ("plain", "run", "peak"))
        for name in ["single_words", "single_words_2", "full_pages", "full_pages_2", "dense"]:
            measure(program, peak, folder, ["check", name])
        measure(program, peak, folder, ["resched", "dense", "t2", "out"])
        measure(program, peak, folder, ["meaning", "loop", "-"])
        measure(program, peak, folder, ["run", "loop", "own", "-"])
        compare(program, plain, folder)
        play(program, machine, folder)
        subprocess.run([program, "gen", "8", "256", "500", "other"], cwd=folder, stdout=subprocess.DEVNULL, check=True)
        interleave(program, machine, folder)


main()
