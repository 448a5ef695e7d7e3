//! Runs at other widths than the 64 bits that a run starts with: how they begin, and scenes at the edges of a width.

use crate::limits::{around, at, in_frame, nowhere, sized, PLAIN};
use crate::random::Random;
use crate::reference::{last_address, Reference};
use crate::words::*;

/// The widths that generated runs have.
#[derive(Clone, Copy, PartialEq)]
pub enum Widths {
    /// 64 bits from the start on. Nothing is emptied, but by a damaged word.
    Start,
    /// So many bits: the first request empties the memory.
    First(u32),
    /// Emptied now and then, to any width.
    Any,
}

impl Widths {
    pub fn named(name: &str) -> Option<Widths> {
        match name {
            "16" => Some(Widths::First(16)),
            "32" => Some(Widths::First(32)),
            "64" => Some(Widths::Start),
            "any" => Some(Widths::Any),
            _ => None,
        }
    }

    /// The requests that a run begins with, and the memory that they leave.
    pub fn begin(self, r: &mut Random) -> (Vec<Words>, Reference) {
        let requests = match self {
            Widths::Start => Vec::new(),
            Widths::First(width) => vec![empty(width)],
            Widths::Any if r.one_in(4) => Vec::new(),
            Widths::Any => vec![empty(some_width(r))],
        };
        let mut m = Reference::new();
        requests.iter().for_each(|request| drop(m.step(Some(request))));
        (requests, m)
    }

    /// A width of these.
    pub fn draw(self, r: &mut Random) -> u32 {
        match self {
            Widths::Start => 64,
            Widths::First(width) => width,
            Widths::Any => some_width(r),
        }
    }

    /// One in so many requests empties the memory; 0 for none.
    pub fn empties(self, r: &mut Random) -> u64 {
        if self == Widths::Any {
            r.pick(&[6, 15, 40])
        } else {
            0
        }
    }
}

/// A width, mostly a narrow one.
fn some_width(r: &mut Random) -> u32 {
    r.pick(&[16, 16, 32, 32, 64])
}

/// A request that empties the memory, or has one field that is not so.
pub fn some_empty(r: &mut Random) -> Words {
    let mut request = empty(some_width(r));
    if r.one_in(6) {
        match r.below(4) {
            0 => request[0] = 15 << 28 | r.range(3, 7) as u32,
            // allocation, node, has provenance, exponent
            1 => request[0] |= 1 << r.range(3, 27),
            2 => request[r.range(1, 3) as usize] = 1 << r.below(32),
            _ => request[r.range(1, 3) as usize] = r.next() as u32,
        }
    }
    request
}

/// A scene at a width. A run stops at its first refusal, which is at the end of it mostly; a list goes on.
pub fn scene(r: &mut Random, width: u32) -> Vec<Words> {
    let mut requests = vec![empty(width)];
    requests.extend(match r.below(9) {
        0 => ends(r, width),
        1 => nothing(r, width),
        2 => positions(r, width),
        3 => exponents(r, width),
        4 => half_the_addresses(r, width),
        5 => emptied(r, width),
        6 => names_after(r, width),
        7 => signed_lengths(r, width),
        _ => pointers(r, width),
    });
    requests
}

/// From two below the last address to two above, where there are such addresses.
fn beside_last(r: &mut Random, width: u32) -> u64 {
    last_address(width).saturating_add(r.below(5)).saturating_sub(2)
}

/// Allocations that end just below, at and above 2^width - 1, and what is next to them.
fn ends(r: &mut Random, width: u32) -> Vec<Words> {
    let size = r.below(6);
    let address = (last_address(width) - size).saturating_add(r.below(4)).saturating_sub(2);
    let mut requests = vec![allocate(r.below(5) as u32, 0, address, size as u32)];
    let p = at(address.saturating_add(r.below(size + 2)), 0, 0);
    requests.push(match r.below(5) {
        0 => load(p, 0, r.below(size + 2) as u32),
        1 => store(p, 0, &vec![byte(1); r.below(size + 2) as usize]),
        2 => retag(p, r.below(3) as u32, PLAIN, &sized(r.below(size + 2) as u32)),
        3 => dereferenceable(p, r.below(size + 2) as u32),
        _ => allocate(1, 0, beside_last(r, width), r.below(2) as u32),
    });
    requests
}

/// Requests of length zero beside the last address, with and without provenance: only the address is too big.
fn nothing(r: &mut Random, width: u32) -> Vec<Words> {
    let mut requests = vec![allocate(1, 0, 16, 2), new_call(0)];
    if r.one_in(3) {
        requests.push(deallocate(at(16, 0, 0), 1, 0, 2));
    }
    let address = beside_last(r, width);
    let p = r.pick(&[at(address, 0, 0), nowhere(address)]);
    let flags = r.pick(&[PLAIN, in_frame(0)]);
    requests.push(match r.below(6) {
        0 => load(p, 0, 0),
        1 => store(p, 0, &[]),
        2 => dereferenceable(p, 0),
        3 => signed_dereferenceable(p, 0),
        4 => retag(p, r.below(3) as u32, flags, &sized(0)),
        _ => retag_unsafe(p, r.range(3, 5) as u32),
    });
    requests
}

/// Every request with an address beside the last one, right in all else as far as it may be.
fn pointers(r: &mut Random, width: u32) -> Vec<Words> {
    let start = last_address(width) - 1;
    let mut requests = vec![allocate(1, 0, start, 1)];
    let address = beside_last(r, width);
    let p = r.pick(&[at(address, 0, 0), at(address, 0, 1), nowhere(address)]);
    let len = r.below(2) as u32;
    let pinned = Flags { frame: None, unpin: false, freeze: r.one_in(2) };
    requests.push(match r.below(8) {
        0 => allocate(1, 0, address, len),
        1 => deallocate(p, 1, 0, 1),
        2 => load(p, 0, len),
        3 => store(p, 0, &vec![byte(2); len as usize]),
        4 => retag(p, 1, pinned, &[]),
        5 => retag(p, r.below(3) as u32, PLAIN, &sized(len)),
        6 => dereferenceable(p, len),
        _ => retag_unsafe(p, r.range(3, 5) as u32),
    });
    requests
}

/// Fragments up to the width's last position and beyond it, at any place of a store, also of one that is refused for
/// more.
fn positions(r: &mut Random, width: u32) -> Vec<Words> {
    let mut requests = vec![allocate(1, 0, 16, 4)];
    let last = width / 8 - 1;
    let mut bytes = vec![fragment(1, last, 0, 0), byte(2), 0, fragment(3, 0, 127, 4095)];
    bytes[r.index(4)] = fragment(4, (last + r.below(3) as u32).min(7), r.below(2) as u32, 0);
    let p = r.pick(&[at(16, 0, 0), at(16, 0, 0), at(16, 0, 1), at(17, 0, 0), nowhere(16)]);
    requests.push(store(p, r.pick(&[0, 0, 2, 5]), &bytes));
    requests.push(load(at(16, 0, 0), 0, 4));
    requests
}

/// Alignments that few addresses of the width have, or none but 0.
fn exponents(r: &mut Random, width: u32) -> Vec<Words> {
    let exponent = r.pick(&[14, 15, 16, 17, 29, 30]);
    let address = r.pick(&[0, 1 << 14, 1 << 15, 1 << 16, 1 << 29, 1 << 31, last_address(width)]);
    let (p, len) = (r.pick(&[nowhere(address), at(address, 0, 0)]), r.below(2) as u32);
    let mut requests = vec![allocate(1, r.pick(&[0, 15]), 1 << 15, 2)];
    requests.push(match r.below(4) {
        0 => load(p, exponent, len),
        1 => store(p, exponent, &vec![byte(1); len as usize]),
        2 => deallocate(at(1 << 15, 0, 0), 1, exponent, 2),
        _ => allocate(0, exponent, address, len),
    });
    requests
}

/// Sizes around half of the address space, where the Rust finds them too large, and around all of it.
fn half_the_addresses(r: &mut Random, width: u32) -> Vec<Words> {
    let bound = r.pick(&[1 << (width.min(33) - 1), last_address(width.min(32))]);
    let size = around(r, bound).min(u32::MAX as u64);
    let address = match r.below(4) {
        0 => r.below(3),
        1 => last_address(width) - size.min(last_address(width)),
        2 => (last_address(width) - size.min(last_address(width))).saturating_add(r.below(3)),
        _ => beside_last(r, width),
    };
    let mut requests = Vec::new();
    if r.one_in(3) {
        requests.push(allocate(1, 0, 1 << 15, 2));
    }
    requests.push(allocate(1, r.pick(&[0, 0, 1, 15]), address, size as u32));
    requests
}

/// A memory with open frames, entries in them and a leak, emptied; and what shows that nothing of it is left.
fn emptied(r: &mut Random, width: u32) -> Vec<Words> {
    let mut requests = vec![allocate(1, 0, 16, 2), new_call(0), new_call(31)];
    requests.push(retag(at(16, 0, 0), r.below(3) as u32, in_frame(r.pick(&[0, 31])), &sized(2)));
    if r.one_in(3) {
        requests.push(leak_check());
    }
    requests.push(some_empty(r));
    requests.push(match r.below(8) {
        0 => leak_check(),
        1 => new_call(r.pick(&[0, 31, 5])),
        2 => end_call(r.pick(&[0, 31, 5])),
        3 => load(at(16, 0, 0), 0, 1),
        4 => retag(nowhere(16), 0, in_frame(0), &sized(0)),
        5 => store(nowhere(16), 0, &[]),
        6 => load(nowhere(beside_last(r, width)), 0, 0),
        _ => allocate(0, 0, 16, 1),
    });
    requests.push(allocate(1, 0, 17, 1));
    requests.push(load(at(17, 0, 0), 0, 1));
    requests
}

/// Several emptyings, each followed by an allocation at the same place: its number starts again.
fn names_after(r: &mut Random, width: u32) -> Vec<Words> {
    let mut requests = Vec::new();
    for count in 0..r.range(2, 4) {
        requests.push(if count == 0 { empty(width) } else { some_empty(r) });
        requests.extend((0..r.range(1, 3)).map(|i| allocate(1, 0, 16 + 4 * i, 4)));
        requests.push(new_call(r.below(2) as u32));
        requests.push(retag(at(16, r.index(2), 0), r.below(3) as u32, PLAIN, &sized(4)));
    }
    requests
}

/// Signed lengths down to 0 and up to the last address; they do not wrap.
fn signed_lengths(r: &mut Random, width: u32) -> Vec<Words> {
    let top = last_address(width) - 3;
    let start = r.pick(&[1, top]);
    let p = at((start + r.below(6)).saturating_sub(1), 0, 0);
    let len = r.pick(&[-4, -3, -1, 0, 1, 3, 4, i32::MIN, i32::MAX]);
    vec![allocate(2, 0, start, 3), signed_dereferenceable(p, len)]
}
