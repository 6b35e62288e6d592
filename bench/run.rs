//! The machine of `run` in plain Rust without proofs: an image's operations are read once, page by page as a page is first
//! touched, and played MultiOp by MultiOp over a state and a wheel of what lands in the cycles to come. `bench/time.py` compiles
//! and times it beside the program, on the generation that the image was made for.
//! It knows the operations of bench/images.py and of `gen` alone, and no trap, and checks nothing.
//!
//! `run IMAGE BLOCKS`

use std::env;
use std::fs;

#[derive(Clone, Copy)]
enum Op {
    Add(u8, u8, u8),
    Sub(u8, u8, u8),
    Xor(u8, u8, u8),
    ShlImm(u8, u8, u32),
    Less(u8, u8, u8, u8),
    Outb(u8),
    AddImm(u8, u8, u32),
    Mul(u8, u8, u8),
    Load(u8, u8, u32),
    Store(u8, u8, u32),
    Pbr(u8, u32),
    Bru(u8),
    Halt(u8),
}

#[derive(Clone, Copy)]
struct Timed {
    op: Op,
    guard: u8,
    at: u32,
    latency: u32,
}

enum Landing {
    General(u8, u32),
    Predicate(u8, bool),
    Target(u8, u32),
    Word(u32, u32),
}

struct Machine {
    general: [u32; 32],
    predicates: [bool; 16],
    targets: [u32; 8],
    memory: Vec<u8>,
    output: Vec<u8>,
    wheel: Vec<Vec<Landing>>,
}

enum Answer {
    GoOn,
    GoTo(u32),
    Stop(u32),
}

fn number(bytes: &[u8]) -> usize {
    bytes.iter().fold(0, |n, byte| n << 8 | *byte as usize)
}

fn decode(word: u64) -> Op {
    let (d, s, tail) = ((word >> 37 & 31) as u8, (word >> 32 & 31) as u8, word as u32);
    match word >> 47 & 127 {
        1 => Op::Add(d, s, (tail & 31) as u8),
        2 => Op::Sub(d, s, (tail & 31) as u8),
        5 => Op::Xor(d, s, (tail & 31) as u8),
        22 => Op::ShlImm(d, s, tail),
        57 => Op::Outb(s),
        66 => Op::Less(d, (tail >> 11 & 31) as u8, s, (tail >> 16 & 31) as u8),
        17 => Op::AddImm(d, s, tail),
        33 => Op::Pbr(d & 7, tail),
        40 => Op::Mul(d, s, (tail & 31) as u8),
        48 => Op::Load(d, s, tail),
        53 => Op::Store(d, s, tail),
        80 => Op::Bru(s & 7),
        _ => Op::Halt(s),
    }
}

/// The operations of a page's blocks with their cycles, each block's from its place on, and the cycle in which each block ends.
struct Page {
    ops: Vec<Timed>,
    ends: Vec<u32>,
}

/// The place of an operation's latency among alu mul div load store io cmp pbr branch.
fn latency_kind(op: Op) -> usize {
    match op {
        Op::Mul(..) => 1,
        Op::Load(..) => 3,
        Op::Store(..) => 4,
        Op::Outb(_) => 5,
        Op::Less(..) => 6,
        Op::Pbr(..) => 7,
        Op::Bru(_) | Op::Halt(_) => 8,
        _ => 0,
    }
}

fn read(words: &[u64], rows: &[(u32, u16)], latencies: &[u8], n: u32) -> Page {
    let none = Timed { op: Op::Halt(0), guard: 0, at: 0, latency: 1 };
    let mut page = Page { ops: vec![none; 512], ends: vec![0; 512] };
    let first = rows.partition_point(|row| row.0 < 512 * n);
    for (entry, count) in rows[first..].iter().take_while(|row| row.0 < 512 * n + 512) {
        let (mut present, mut next) = (0, 0);
        for k in 0..*count as usize {
            let word = words[*entry as usize + k];
            if word >> 63 == 1 {
                present = next;
                next += 1 + (word >> 54 & 31) as u32;
            }
            let op = decode(word);
            let latency = latencies[latency_kind(op)] as u32;
            page.ops[*entry as usize % 512 + k] = Timed { op, guard: (word >> 42 & 31) as u8 & 15, at: present, latency };
        }
        page.ends[*entry as usize % 512] = next;
    }
    page
}

impl Machine {
    fn land(&mut self, cycle: u32) {
        let mut slot = std::mem::take(&mut self.wheel[cycle as usize % 32]);
        for landing in slot.drain(..) {
            match landing {
                Landing::General(d, value) => self.general[d as usize] = value,
                Landing::Predicate(p, value) => self.predicates[p as usize] = value,
                Landing::Target(d, value) => self.targets[d as usize] = value,
                Landing::Word(address, value) => self.memory[address as usize..address as usize + 4].copy_from_slice(&value.to_le_bytes()),
            }
        }
        self.general[0] = 0;
        self.predicates[0] = true;
        self.wheel[cycle as usize % 32] = slot;
    }

    fn issue(&mut self, timed: &Timed, answer: &mut Answer) {
        if !self.predicates[timed.guard as usize] {
            return;
        }
        let lands = (timed.at + timed.latency) as usize % 32;
        let general = |r: u8| self.general[r as usize & 31];
        let landing = match timed.op {
            Op::Add(d, s, t) => Landing::General(d, general(s).wrapping_add(general(t))),
            Op::Sub(d, s, t) => Landing::General(d, general(s).wrapping_sub(general(t))),
            Op::Xor(d, s, t) => Landing::General(d, general(s) ^ general(t)),
            Op::ShlImm(d, s, n) => Landing::General(d, general(s) << (n & 31)),
            Op::Less(p, q, s, t) => {
                let less = (general(s) as i32) < general(t) as i32;
                self.wheel[lands].push(Landing::Predicate(p & 15, less));
                Landing::Predicate(q & 15, !less)
            }
            Op::Outb(s) => {
                self.output.push(general(s) as u8);
                return;
            }
            Op::AddImm(d, s, n) => Landing::General(d, general(s).wrapping_add(n)),
            Op::Mul(d, s, t) => Landing::General(d, general(s).wrapping_mul(general(t))),
            Op::Load(d, s, n) => {
                let at = general(s).wrapping_add(n) as usize;
                Landing::General(d, u32::from_le_bytes(self.memory[at..at + 4].try_into().unwrap()))
            }
            Op::Store(d, s, n) => Landing::Word(general(s).wrapping_add(n), general(d)),
            Op::Pbr(d, to) => Landing::Target(d, to),
            Op::Bru(s) => {
                *answer = Answer::GoTo(self.targets[s as usize]);
                return;
            }
            Op::Halt(s) => {
                *answer = Answer::Stop(general(s));
                return;
            }
        };
        self.wheel[lands].push(landing);
    }

    fn block(&mut self, ops: &[Timed], end: u32) -> Answer {
        let (mut clock, mut k, mut answer) = (0, 0, Answer::GoOn);
        while k < ops.len() {
            while k < ops.len() && ops[k].at == clock {
                self.issue(&ops[k], &mut answer);
                k += 1;
            }
            let to = if k < ops.len() { ops[k].at } else { end };
            for cycle in clock + 1..=to {
                self.land(cycle);
            }
            clock = to;
        }
        answer
    }
}

fn main() {
    let words: Vec<String> = env::args().collect();
    let bytes = fs::read(&words[1]).unwrap();
    let bound: u32 = words[2].parse().unwrap();
    let (pages, count) = (number(&bytes[6..8]), number(&bytes[8..12]));
    let (entry, memory, init) = (number(&bytes[12..16]) as u32, number(&bytes[16..20]), number(&bytes[20..24]));
    let rows: Vec<(u32, u16)> = (0..count).map(|k| (number(&bytes[39 + 6 * k..43 + 6 * k]) as u32, number(&bytes[43 + 6 * k..45 + 6 * k]) as u16)).collect();
    let begin = 39 + 6 * count + init;
    let code: Vec<u64> = (0..512 * pages).map(|k| number(&bytes[begin + 8 * k..begin + 8 * k + 8]) as u64).collect();
    let mut data = bytes[39 + 6 * count..begin].to_vec();
    data.resize(memory, 0);
    let latencies = &bytes[30..39];
    let mut machine = Machine { general: [0; 32], predicates: [false; 16], output: Vec::new(), targets: [0; 8], memory: data, wheel: (0..32).map(|_| Vec::with_capacity(2048)).collect() };
    let mut read_pages: Vec<Option<Page>> = (0..pages).map(|_| None).collect();
    let (mut at, mut blocks, mut cycles) = (entry, 0, 0u64);
    while blocks < bound {
        let row = rows.binary_search_by_key(&at, |row| row.0).unwrap();
        let page = read_pages[at as usize / 512].get_or_insert_with(|| read(&code, &rows, latencies, at / 512));
        let (start, count) = (at as usize % 512, rows[row].1 as usize);
        let end = page.ends[start];
        let answer = machine.block(&page.ops[start..start + count], end);
        blocks += 1;
        cycles += end as u64;
        match answer {
            Answer::GoOn => at = rows[row + 1].0,
            Answer::GoTo(to) => at = to,
            Answer::Stop(code) => {
                println!("halted {code}");
                break;
            }
        }
    }
    let sum = machine.output.iter().fold(0u32, |sum, byte| sum.wrapping_mul(31).wrapping_add(*byte as u32));
    println!("{blocks} blocks, {cycles} cycles, r1 {}, output {} {sum}", machine.general[1], machine.output.len());
}
