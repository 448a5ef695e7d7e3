//! Memories and frames that were not made by a run: well formed, with codes, protectors and entries drawn by
//! chance. They reach what no run does, such as an end call that is refused.

use crate::deep::{self, Style};
use crate::random::Random;
use crate::reference::{last_address, Alloc, Node, Reference};
use crate::width::Widths;
use crate::words::{self, Words};

/// A start and a list of requests for it.
pub fn start(widths: Widths, seed: u64, index: u64) -> (Reference, Vec<Words>) {
    let mut r = Random::new(seed, index);
    let width = widths.draw(&mut r);
    let memory = memory(&mut r, width);
    let requests = requests(&mut r, &memory, widths);
    (memory, requests)
}

fn memory(r: &mut Random, width: u32) -> Reference {
    let mut m = Reference { width, ..Reference::new() };
    let below_last = if width == 64 { 1000 } else { 40 };
    let mut address = r.pick(&[1, 16, last_address(width) - below_last]);
    for _ in 0..r.range(1, 3) {
        let exponent = r.below(3) as u32;
        address = address.next_multiple_of(1 << exponent);
        let size = r.below(5);
        m.allocs.push(alloc(r, address, exponent, size as usize));
        address += size.max(1) + r.below(2);
    }
    for allocation in 0..m.allocs.len() {
        for byte in 0..m.allocs[allocation].words.len() {
            m.allocs[allocation].words[byte] = word(r, width);
        }
    }
    for frame in 0..4 {
        if r.one_in(2) {
            m.frames[frame] = Some(entries(r, &m));
        }
    }
    m
}

fn word(r: &mut Random, width: u32) -> u32 {
    match r.below(3) {
        0 => 0,
        1 => words::byte(r.next() as u8),
        _ => {
            let (value, position) = (r.next() as u8, r.below(width as u64 / 8) as u32);
            words::fragment(value, position, r.below(4) as u32, r.below(6) as u32)
        }
    }
}

fn alloc(r: &mut Random, address: u64, exponent: u32, size: usize) -> Alloc {
    let live = !r.one_in(5);
    let root = Node { parent: 0, protector: 0, codes: codes(r, live, 0, size) };
    let mut nodes = vec![root];
    for node in 1..r.range(1, 6) as usize {
        let protector = r.pick(&[0, 0, 1, 2, 2]);
        nodes.push(Node { parent: r.index(node), protector, codes: codes(r, live, protector, size) });
    }
    Alloc { live, kind: r.below(5) as u32, exponent, address, words: vec![0; size], nodes }
}

/// On a live allocation codes 6 to 14 exactly where the node is protected; on a dead one any, now and then. A
/// row favours one code, so that accesses get somewhere.
fn codes(r: &mut Random, live: bool, protector: u8, size: usize) -> Vec<u8> {
    let (low, high) = match (live || !r.one_in(3), protector) {
        (true, 0) => (0, 5),
        (true, _) => (6, 14),
        (false, _) => (0, 14),
    };
    let favoured = r.range(low, high) as u8;
    (0..size).map(|_| if r.one_in(3) { r.range(low, high) as u8 } else { favoured }).collect()
}

/// Mostly protected nodes, each once; now and then any node, or one never made.
fn entries(r: &mut Random, m: &Reference) -> Vec<(usize, usize)> {
    let mut protected: Vec<(usize, usize)> = Vec::new();
    for (a, alloc) in m.allocs.iter().enumerate() {
        protected.extend((0..alloc.nodes.len()).filter(|&n| alloc.nodes[n].protector > 0).map(|n| (a, n)));
    }
    let mut entries = Vec::new();
    let wrong = r.pick(&[3, 20, 1000]);
    let count = if r.one_in(60) { r.range(60, 64) } else { r.below(5) };
    for _ in 0..count {
        if r.one_in(wrong) {
            let allocation = r.index(m.allocs.len() + 1);
            entries.push((allocation, r.index(7)));
        } else if !protected.is_empty() {
            let at = r.index(protected.len());
            entries.push(if count > 10 { protected[at] } else { protected.swap_remove(at) });
        }
    }
    entries
}

fn requests(r: &mut Random, start: &Reference, widths: Widths) -> Vec<Words> {
    let mut style = Style::draw(r);
    style.empties = widths.empties(r);
    style.wild = 40;
    style.kinds = [1, 3, 5, 5, 5, 1, 8, 1, 1, 1];
    let mut m = start.clone();
    let mut requests = Vec::new();
    for _ in 0..r.range(1, 6) {
        let request = deep::candidate(r, &m, &style);
        m.step(Some(&request));
        requests.push(request);
    }
    requests
}
