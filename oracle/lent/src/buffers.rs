//! The five lent buffers and the width: how they hold a memory, and whether they hold one. Both are written from document 01 and
//! from the table of buffers in the project's decisions, not from the library.

use runs::reference::{Alloc, Node, Reference};
use tree_borrows::Buffers;

/// Numbers of a record: state, kind, exponent, address, size, number of nodes, first word, first node, first code.
pub const RECORD: usize = 9;
pub const ALLOCS: usize = 128 * RECORD;
pub const NODES: usize = 1024;
pub const WORDS: usize = 4096;
pub const CODES: usize = 32768;

/// One allocation's part after the other's, and zeros behind the last.
pub fn encode(m: &Reference) -> Buffers {
    let width = m.width as u64;
    let mut b =
        Buffers { allocs: vec![], parents: vec![], protectors: vec![], words: vec![], codes: vec![], width };
    for a in &m.allocs {
        let state = if a.live { 1 } else { 2 };
        let (size, nodes) = (a.words.len() as u64, a.nodes.len() as u64);
        let starts = [b.words.len() as u64, b.parents.len() as u64, b.codes.len() as u64];
        b.allocs.extend([state, a.kind as u64, a.exponent as u64, a.address, size, nodes]);
        b.allocs.extend(starts);
        b.words.extend(&a.words);
        for node in &a.nodes {
            b.parents.push(node.parent as u16);
            b.protectors.push(node.protector);
            b.codes.extend(&node.codes);
        }
    }
    b.allocs.resize(ALLOCS, 0);
    b.parents.resize(NODES, 0);
    b.protectors.resize(NODES, 0);
    b.words.resize(WORDS, 0);
    b.codes.resize(CODES, 0);
    b
}

pub fn have_lengths(b: &Buffers) -> bool {
    let lengths = [b.allocs.len(), b.parents.len(), b.protectors.len(), b.words.len(), b.codes.len()];
    lengths == [ALLOCS, NODES, NODES, WORDS, CODES]
}

pub fn has_width(b: &Buffers) -> bool {
    [16, 32, 64].contains(&b.width)
}

/// The memory that the buffers hold, if they are well formed.
pub fn decode(b: &Buffers) -> Option<Reference> {
    if !have_lengths(b) || !has_width(b) {
        return None;
    }
    let mut m = Reference { width: b.width as u32, ..Reference::new() };
    let (mut nodes, mut words, mut codes) = (0, 0, 0);
    for record in b.allocs.chunks_exact(RECORD).take_while(|record| record[0] != 0) {
        let &[state, kind, exponent, address, size, count, word, node, code] = record else { unreachable!() };
        let room = size <= (WORDS - words) as u64 && count <= (NODES - nodes) as u64;
        if !record_in_lists(state, kind, exponent, address, size, b.width) || !room || count == 0 {
            return None;
        }
        // "ranges consecutive": each starts where the one before ends
        if [word, node, code] != [words as u64, nodes as u64, codes as u64] {
            return None;
        }
        let (size, count) = (size as usize, count as usize);
        if count * size > CODES - codes {
            return None;
        }
        let rows = |node: usize| Node {
            parent: b.parents[nodes + node] as usize,
            protector: b.protectors[nodes + node],
            codes: b.codes[codes + node * size..codes + (node + 1) * size].to_vec(),
        };
        m.allocs.push(Alloc {
            live: state == 1,
            kind: kind as u32,
            exponent: exponent as u32,
            address,
            words: b.words[words..words + size].to_vec(),
            nodes: (0..count).map(rows).collect(),
        });
        (nodes, words, codes) = (nodes + count, words + size, codes + count * size);
    }
    // nothing stands behind what was read
    let rest_is_zero = b.allocs[RECORD * m.allocs.len()..].iter().all(|&x| x == 0)
        && b.parents[nodes..].iter().all(|&x| x == 0)
        && b.protectors[nodes..].iter().all(|&x| x == 0)
        && b.words[words..].iter().all(|&x| x == 0)
        && b.codes[codes..].iter().all(|&x| x == 0);
    (rest_is_zero && m.allocs.iter().all(|a| allocation_fits(a, m.width)) && !overlapping(&m)).then_some(m)
}

/// "addresses `pick` could have accepted", and fields in their lists.
fn record_in_lists(state: u64, kind: u64, exponent: u64, address: u64, size: u64, width: u64) -> bool {
    let known = (state == 1 || state == 2) && kind < 5 && exponent < 30;
    known && address > 0 && address % (1 << exponent) == 0 && address as u128 + (size as u128) < 1 << width
}

/// Parents earlier, root unprotected, valid words and codes; on a live allocation, codes 6 to e exactly in protected
/// rows.
fn allocation_fits(a: &Alloc, width: u32) -> bool {
    let root = a.nodes[0].parent == 0 && a.nodes[0].protector == 0;
    let nodes = a.nodes.iter().enumerate().all(|(number, node)| {
        let codes = match (a.live, node.protector) {
            (false, _) => 0..=14,
            (true, 0) => 0..=5,
            (true, _) => 6..=14,
        };
        let earlier = number == 0 || node.parent < number;
        earlier && node.protector < 3 && node.codes.iter().all(|code| codes.contains(code))
    });
    root && nodes && a.words.iter().all(|&word| valid_word(word, width))
}

/// "An uninitialised byte is 0; without provenance the middle fields are 0." A position is one of a pointer's bytes.
pub fn valid_word(word: u32, width: u32) -> bool {
    match word >> 30 {
        0 | 1 => word == 0,
        2 => word << 2 >> 10 == 0,
        _ => (word >> 27 & 7) < width / 8,
    }
}

/// "Touching ranges don't overlap unless they start equal, even at size 0."
fn overlapping(m: &Reference) -> bool {
    let end = |a: &Alloc| a.address as u128 + a.words.len() as u128;
    let live: Vec<&Alloc> = m.allocs.iter().filter(|a| a.live).collect();
    let clash = |a: &Alloc, b: &Alloc| {
        a.address == b.address || (a.address as u128) < end(b) && (b.address as u128) < end(a)
    };
    (0..live.len()).any(|i| live[i + 1..].iter().any(|b| clash(live[i], b)))
}
