//! What `check` and `resched` answer for each block's operations, in plain Rust without proofs and by all pairs of them: sets
//! of places, a table of delays, the search for an order and the list schedule over it. `bench/time.py` compiles and times it
//! beside the program, and compares the files that both write.
//! It knows the operations of `dense` in bench/images.py and the generation t2 alone, and looks at no other rule.
//!
//! `plain check IMAGE`; `plain resched IMAGE t2 OUT`

use std::cmp::Reverse;
use std::collections::BinaryHeap;
use std::env;
use std::fs;
use std::process::exit;

/// A generation: its width, units of I M L P B, latencies of alu mul div load store io cmp pbr branch.
struct Generation {
    width: u8,
    units: [u8; 5],
    latencies: [u8; 9],
}

const T2: Generation = Generation { width: 4, units: [2, 1, 1, 1, 1], latencies: [1, 2, 12, 3, 1, 1, 1, 1, 2] };

struct Node {
    reads: u128,
    writes: u128,
    plain: u128,
    ones: u128,
    zeros: u128,
    traps: bool,
    inputs: bool,
    unit: usize,
    kind: usize,
    at: u32,
    lands: u32,
}

const MEMORY: u128 = 1 << 72;

fn general(r: u64) -> u128 {
    if r == 0 { 0 } else { 1 << r }
}

fn predicate(p: u64) -> u128 {
    if p == 0 { 0 } else { 1 << (32 + p) }
}

/// The operation of a word that issues at a cycle, where all latencies are 1.
fn node(word: u64, at: u32) -> Option<Node> {
    let (d, s, t) = (word >> 37 & 31, word >> 32 & 31, word & 31);
    let guard = predicate(word >> 42 & 31);
    let mut node = Node {
        reads: guard,
        writes: 0,
        plain: 0,
        ones: 0,
        zeros: 0,
        traps: false,
        inputs: false,
        unit: 0,
        kind: 0,
        at,
        lands: at + 1,
    };
    match word >> 47 & 127 {
        1..=10 | 40 => {
            node.reads |= general(s) | general(t);
            node.plain = general(d);
        }
        17..=26 => {
            node.reads |= general(s);
            node.plain = general(d);
        }
        48..=52 => {
            node.reads |= general(s) | MEMORY;
            node.plain = general(d);
            node.traps = true;
            (node.unit, node.kind) = (2, 3);
        }
        53..=55 => {
            node.reads |= general(s) | general(d);
            node.writes = MEMORY;
            node.traps = true;
            (node.unit, node.kind) = (2, 4);
        }
        84 => {
            node.reads |= general(s);
            (node.unit, node.kind) = (4, 8);
        }
        _ => return None,
    }
    if word >> 47 & 127 == 40 {
        (node.unit, node.kind) = (1, 1);
    }
    node.writes |= node.plain;
    Some(node)
}

/// What stands between two operations, whatever their times: what the first writes and the second reads, the other way
/// round, what both write apart, and whether they keep the order of the list.
#[derive(Clone, Copy)]
struct Meeting {
    feeds: bool,
    fed: bool,
    both: bool,
    listed: bool,
}

fn keep_order(a: &Node, b: &Node) -> bool {
    a.traps & b.traps | a.inputs & b.inputs
}

fn are_strangers(a: &Node, b: &Node) -> bool {
    (a.writes & b.reads | a.writes & b.writes | a.reads & b.writes) == 0 && !keep_order(a, b)
}

fn meet(a: &Node, b: &Node) -> Meeting {
    Meeting {
        feeds: a.writes & b.reads != 0,
        fed: b.writes & a.reads != 0,
        both: a.plain & b.writes | a.writes & b.plain | a.ones & b.zeros | a.zeros & b.ones != 0,
        listed: keep_order(a, b),
    }
}

fn delay(meeting: Meeting, i: usize, a: &Node, j: usize, b: &Node, latencies: &[u8; 9]) -> Option<i8> {
    let Meeting { feeds, fed, both, listed } = meeting;
    let before = feeds & (a.lands <= b.at) | fed & (a.at < b.lands) | both & (a.lands < b.lands) | listed & (i < j);
    if !before {
        return None;
    }
    let (first, second) = (latencies[a.kind] as i8, latencies[b.kind] as i8);
    let mut delay = -31;
    if feeds {
        delay = delay.max(first);
    }
    if fed {
        delay = delay.max(1 - second);
    }
    if both {
        delay = delay.max(first - second + 1);
    }
    if listed {
        delay = delay.max(0);
    }
    Some(delay)
}

/// The delays of each pair, both ways.
fn delays(nodes: &[Node], latencies: &[u8; 9]) -> Vec<Option<i8>> {
    let n = nodes.len();
    let mut cells = vec![None; n * n];
    for (i, a) in nodes.iter().enumerate() {
        for (j, b) in nodes.iter().enumerate().skip(i + 1) {
            if are_strangers(a, b) {
                continue;
            }
            let meeting = meet(a, b);
            let turned = Meeting { feeds: meeting.fed, fed: meeting.feeds, ..meeting };
            cells[i * n + j] = delay(meeting, i, a, j, b, latencies);
            cells[j * n + i] = delay(turned, j, b, i, a, latencies);
        }
    }
    cells
}

fn order(n: usize, cells: &[Option<i8>]) -> Option<Vec<usize>> {
    let mut waits = vec![0u16; n];
    for row in cells.chunks(n) {
        for (wait, cell) in waits.iter_mut().zip(row) {
            *wait += cell.is_some() as u16;
        }
    }
    let mut placed = vec![false; n];
    let mut order = Vec::with_capacity(n);
    while let Some(i) = (0..n).find(|&i| !placed[i] && waits[i] == 0) {
        for (wait, cell) in waits.iter_mut().zip(&cells[i * n..(i + 1) * n]) {
            *wait -= cell.is_some() as u16;
        }
        placed[i] = true;
        order.push(i);
    }
    if order.len() == n { Some(order) } else { None }
}

/// The nodes of a block's words.
fn nodes(words: &[u64]) -> Option<Vec<Node>> {
    let mut nodes: Vec<Node> = Vec::with_capacity(words.len());
    let mut at = 0;
    for (k, word) in words.iter().enumerate() {
        if k > 0 && word >> 63 == 1 {
            at += 1;
        }
        nodes.push(node(*word, at)?);
    }
    Some(nodes)
}

/// The issue cycles, the order of placing and the end of a list schedule.
fn schedule(nodes: &[Node], cells: &[Option<i8>], order: &[usize], g: &Generation) -> (Vec<u32>, Vec<usize>, u32) {
    let n = nodes.len();
    let latency = |i: usize| u32::from(g.latencies[nodes[i].kind]);
    let links: Vec<Vec<(usize, i8)>> =
        cells.chunks(n).map(|row| row.iter().enumerate().filter_map(|(j, cell)| cell.map(|d| (j, d))).collect()).collect();
    let mut heights = vec![0u32; n];
    for &i in order.iter().rev() {
        let climbs = links[i].iter().map(|&(j, d)| i64::from(d) + i64::from(heights[j]));
        heights[i] = climbs.fold(i64::from(latency(i)), i64::max) as u32;
    }
    let mut waits = vec![0u32; n];
    for &(j, _) in links.iter().flatten() {
        waits[j] += 1;
    }
    let is_branch = |i: usize| nodes[i].unit == 4;
    let mut ready: BinaryHeap<_> =
        (0..n).filter(|&i| waits[i] == 0 && !is_branch(i)).map(|i| (heights[i], Reverse(i))).collect();
    let (mut least, mut cycle) = (vec![0u32; n], vec![0u32; n]);
    let (mut issued, mut busy) = (vec![0u8; 32 * n], vec![[0u8; 5]; 32 * n]);
    let (mut placed, mut end) = (Vec::with_capacity(n), 0);
    while placed.len() < n {
        let i = match ready.pop() {
            Some((_, Reverse(i))) => i,
            None => (0..n).find(|&i| is_branch(i)).unwrap(),
        };
        let from = if is_branch(i) { least[i].max(end - latency(i).min(end)) } else { least[i] };
        let unit = nodes[i].unit;
        let free = |c: &u32| issued[*c as usize] < g.width && busy[*c as usize][unit] < g.units[unit];
        let c = (from..).find(free).unwrap();
        issued[c as usize] += 1;
        busy[c as usize][unit] += 1;
        cycle[i] = c;
        placed.push(i);
        end = end.max(c + latency(i));
        for &(j, d) in &links[i] {
            least[j] = i64::from(least[j]).max(i64::from(c) + i64::from(d)) as u32;
            waits[j] -= 1;
            if waits[j] == 0 && !is_branch(j) {
                ready.push((heights[j], Reverse(j)));
            }
        }
    }
    (cycle, placed, end)
}

/// The words of a block in the order of its schedule, with their head marks and pauses.
fn form(words: &[u64], cycle: &[u32], placed: &[usize], end: u32) -> Vec<u64> {
    let mut listed = placed.to_vec();
    listed.sort_by_key(|&i| cycle[i]);
    let mut out: Vec<u64> = listed.iter().map(|&i| words[i] & !(1 << 63 | 31 << 54)).collect();
    let mut next = end;
    for k in (0..listed.len()).rev() {
        let here = cycle[listed[k]];
        if k == 0 || cycle[listed[k - 1]] != here {
            out[k] |= 1 << 63 | u64::from(next - here - 1) << 54;
            next = here;
        }
    }
    out
}

fn number(bytes: &[u8]) -> usize {
    bytes.iter().fold(0, |n, byte| n << 8 | *byte as usize)
}

/// The words of a block in form for t2; None where it has no order.
fn moved(words: &[u64]) -> Option<Vec<u64>> {
    let nodes = nodes(words)?;
    let cells = delays(&nodes, &T2.latencies);
    let order = order(nodes.len(), &cells)?;
    let (cycle, placed, end) = schedule(&nodes, &cells, &order, &T2);
    Some(form(words, &cycle, &placed, end))
}

fn main() {
    let words: Vec<String> = env::args().skip(1).collect();
    let bytes = fs::read(&words[1]).expect("a file");
    let blocks = number(&bytes[8..12]);
    let first = 39 + 6 * blocks + number(&bytes[20..24]);
    let mut code: Vec<u64> = bytes[first..].chunks(8).map(|word| u64::from_be_bytes(word.try_into().unwrap())).collect();
    for row in bytes[39..39 + 6 * blocks].chunks(6) {
        let (entry, count) = (number(&row[..4]), number(&row[4..]));
        let block = &mut code[entry..entry + count];
        let ordered = nodes(block).and_then(|nodes| order(count, &delays(&nodes, &[1; 9])));
        if ordered.is_none() {
            exit(1);
        }
        if words[0] == "resched" {
            match moved(block) {
                Some(new) => block.copy_from_slice(&new),
                None => exit(1),
            }
        }
    }
    if words[0] == "resched" {
        let mut out = bytes[..first].to_vec();
        out[24] = T2.width;
        out[25..30].copy_from_slice(&T2.units);
        out[30..39].copy_from_slice(&T2.latencies);
        out.extend(code.iter().flat_map(|word| word.to_be_bytes()));
        fs::write(&words[3], out).expect("a place for the file");
    }
}
