//! Candidates for the next request of a run, drawn with the memory in view so that most are accepted.

use crate::random::Random;
use crate::reference::{last_address, Alloc, Reference};
use crate::width;
use crate::words::{self, Flags, Ptr, Words};

/// How a run's candidates are drawn: which kinds of requests, and how large its allocations are.
#[derive(Clone)]
pub struct Style {
    /// Weights of kinds 0 to 9.
    pub kinds: [u64; 10],
    pub most_bytes: u64,
    pub most_allocations: usize,
    /// One in so many fields is drawn without regard for the memory.
    pub wild: u64,
    /// Where addresses of allocations are drawn from.
    pub base: u64,
    /// One in so many requests empties the memory; 0 for none.
    pub empties: u64,
}

impl Style {
    pub fn draw(r: &mut Random) -> Style {
        let kinds = match r.below(5) {
            0 => [6, 1, 20, 20, 30, 3, 3, 2, 2, 1],
            1 => [8, 6, 10, 10, 20, 6, 8, 3, 3, 3],
            2 => [3, 1, 30, 40, 20, 4, 4, 1, 1, 0],
            3 => [4, 3, 8, 12, 50, 8, 8, 1, 1, 0],
            _ => [12, 10, 10, 10, 20, 5, 5, 10, 10, 4],
        };
        let most_bytes = r.pick(&[1, 2, 4, 8, 16, 16, 24, 60]);
        let base = match r.below(8) {
            0 => u64::MAX - 4000,
            1 => 1,
            2 => 0xffff_f000,
            _ => 16,
        };
        Style { kinds, most_bytes, most_allocations: r.range(1, 9) as usize, wild: 24, base, empties: 0 }
    }
}

/// One candidate.
pub fn candidate(r: &mut Random, m: &Reference, style: &Style) -> Words {
    if style.empties > 0 && r.one_in(style.empties) {
        return width::some_empty(r);
    }
    let live = m.allocs.iter().filter(|a| a.live).count();
    let kind = if m.allocs.is_empty() && !r.one_in(20) { 0 } else { r.weighted(&style.kinds) };
    match kind {
        0 if live >= style.most_allocations && !r.one_in(8) => load(r, m, style),
        0 => allocate(r, m, style),
        1 => deallocate(r, m, style),
        2 => load(r, m, style),
        3 => store(r, m, style),
        4 => retag(r, m, style),
        5 => words::new_call(frame(r, m, false)),
        6 => words::end_call(frame(r, m, true)),
        7 => dereference(r, m, style),
        8 => signed_dereference(r, m, style),
        _ => words::leak_check(),
    }
}

fn allocate(r: &mut Random, m: &Reference, style: &Style) -> Words {
    let exponent = if r.one_in(10) { r.below(30) } else { r.below(4) } as u32;
    let size = match r.below(8) {
        0 => 0,
        1 => 1,
        _ => r.range(0, style.most_bytes),
    };
    let mut address = match r.below(4) {
        0 if !m.allocs.is_empty() => near(r, m),
        1 if !m.allocs.is_empty() => {
            let top = m.allocs.iter().map(|a| a.address.wrapping_add(a.words.len() as u64)).max();
            top.unwrap_or(16).wrapping_add(r.below(3))
        }
        2 if m.width < 64 => (last_address(m.width) - size).wrapping_add(r.below(4)).wrapping_sub(2),
        _ => style.base.min(last_address(m.width) - 1500).wrapping_add(r.below(3000)),
    };
    if !r.one_in(style.wild) {
        let align = 1u64 << exponent;
        address = address.checked_next_multiple_of(align).unwrap_or(address).max(align);
    }
    words::allocate(r.below(5) as u32, exponent, address, size as u32)
}

/// An address at or beside a border of an allocation.
fn near(r: &mut Random, m: &Reference) -> u64 {
    let a = &m.allocs[r.index(m.allocs.len())];
    let border = if r.one_in(2) { a.address } else { a.address.wrapping_add(a.words.len() as u64) };
    border.wrapping_add(r.below(4)).wrapping_sub(r.below(4))
}

/// An allocation's number: mostly a live one.
fn some_allocation(r: &mut Random, m: &Reference) -> Option<usize> {
    if m.allocs.is_empty() {
        return None;
    }
    let live: Vec<usize> = (0..m.allocs.len()).filter(|&i| m.allocs[i].live).collect();
    if live.is_empty() || r.one_in(16) {
        return Some(r.index(m.allocs.len()));
    }
    Some(live[r.index(live.len())])
}

/// A node: mostly one of the last made.
fn some_node(r: &mut Random, a: &Alloc) -> usize {
    let count = a.nodes.len();
    match r.below(3) {
        0 => r.index(count),
        _ => count - 1 - r.index(count.min(5)),
    }
}

struct Spot {
    at: Ptr,
    /// Bytes from the address to the allocation's end.
    room: u64,
    allocation: usize,
}

/// A pointer into some allocation. Wild ones lie beside it, have no provenance or name what was never made.
fn spot(r: &mut Random, m: &Reference, style: &Style) -> Spot {
    let Some(allocation) = some_allocation(r, m) else {
        return Spot { at: Ptr { address: r.below(64), provenance: None }, room: 0, allocation: 0 };
    };
    let a = &m.allocs[allocation];
    let size = a.words.len() as u64;
    let offset = if r.one_in(3) { 0 } else { r.range(0, size) };
    let mut at =
        Ptr { address: a.address.wrapping_add(offset), provenance: Some((allocation, some_node(r, a))) };
    if r.one_in(style.wild) {
        match r.below(5) {
            0 => at.provenance = None,
            1 => at.provenance = Some((r.index(128), r.index(8))),
            2 => at.provenance = Some((allocation, r.index(4096))),
            3 => at.address = any_address(r, m),
            _ => at.address = near(r, m),
        }
    }
    Spot { at, room: size - offset, allocation }
}

/// Any address, and at a narrow width one beside its last.
fn any_address(r: &mut Random, m: &Reference) -> u64 {
    if m.width == 64 || r.one_in(4) {
        return r.next();
    }
    last_address(m.width) - 1 + r.below(4)
}

/// A length that fits, most of the time.
fn length(r: &mut Random, room: u64, style: &Style) -> u64 {
    if r.one_in(style.wild) {
        return match r.below(4) {
            0 => room + 1,
            1 => r.below(5000),
            2 => u32::MAX as u64 - r.below(3),
            _ => 1 << r.below(32),
        };
    }
    match r.below(4) {
        0 => room,
        1 => room.min(1),
        _ => r.range(0, room),
    }
}

fn fitting_exponent(r: &mut Random, address: u64, style: &Style) -> u32 {
    if r.one_in(style.wild) {
        return r.below(31) as u32;
    }
    r.below(address.trailing_zeros().min(29) as u64 + 1) as u32
}

fn load(r: &mut Random, m: &Reference, style: &Style) -> Words {
    let spot = spot(r, m, style);
    let exponent = fitting_exponent(r, spot.at.address, style);
    words::load(spot.at, exponent, length(r, spot.room, style) as u32)
}

fn store(r: &mut Random, m: &Reference, style: &Style) -> Words {
    let spot = spot(r, m, style);
    let exponent = fitting_exponent(r, spot.at.address, style);
    let len = length(r, spot.room, style).min(4200);
    let bytes: Words = (0..len).map(|_| some_byte(r, m, style)).collect();
    words::store(spot.at, exponent, &bytes)
}

fn some_byte(r: &mut Random, m: &Reference, style: &Style) -> u32 {
    match r.below(6) {
        0 => 0,
        1 => {
            words::fragment(r.next() as u8, position(r, m, style), r.below(128) as u32, r.below(4096) as u32)
        }
        2 => {
            let allocation = r.index(m.allocs.len().max(1));
            let node = m.allocs.get(allocation).map_or(0, |a| r.index(a.nodes.len()));
            words::fragment(r.next() as u8, position(r, m, style), allocation as u32, node as u32)
        }
        3 if r.one_in(style.wild * 20) => r.next() as u32,
        _ => words::byte(r.next() as u8),
    }
}

/// A position that a pointer of the width has, mostly.
fn position(r: &mut Random, m: &Reference, style: &Style) -> u32 {
    if m.width < 64 && r.one_in(style.wild * 5) {
        return (m.width / 8 + r.below(2) as u32).min(7);
    }
    r.below(m.width as u64 / 8) as u32
}

fn deallocate(r: &mut Random, m: &Reference, style: &Style) -> Words {
    let spot = spot(r, m, style);
    let Some(a) = m.allocs.get(spot.allocation) else {
        return words::deallocate(spot.at, 0, 0, 0);
    };
    let mut at = spot.at;
    if !r.one_in(style.wild) {
        at.address = a.address;
    }
    let kind = if r.one_in(style.wild) { r.below(6) as u32 } else { a.kind };
    let exponent = if r.one_in(style.wild) { r.below(32) as u32 } else { a.exponent };
    let size = if r.one_in(style.wild) { r.below(40) as u32 } else { a.words.len() as u32 };
    words::deallocate(at, kind, exponent, size)
}

fn dereference(r: &mut Random, m: &Reference, style: &Style) -> Words {
    let spot = spot(r, m, style);
    words::dereferenceable(spot.at, length(r, spot.room, style) as u32)
}

fn signed_dereference(r: &mut Random, m: &Reference, style: &Style) -> Words {
    let spot = spot(r, m, style);
    let before = m.allocs.get(spot.allocation).map_or(0, |a| spot.at.address.wrapping_sub(a.address));
    let len = if r.one_in(2) {
        length(r, spot.room, style) as i32
    } else {
        (length(r, before.min(5000), style) as i32).wrapping_neg()
    };
    words::signed_dereferenceable(spot.at, len)
}

/// A frame's number: an open one if asked for, else a closed one, mostly.
fn frame(r: &mut Random, m: &Reference, open: bool) -> u32 {
    let fitting: Vec<u32> = (0..32).filter(|&i| m.frames[i as usize].is_some() == open).collect();
    if fitting.is_empty() || r.one_in(40) {
        return r.below(33) as u32;
    }
    // Few frames, so that each gathers entries.
    let few = if open { fitting.len() } else { fitting.len().min(4) };
    fitting[r.index(few)]
}

fn retag(r: &mut Random, m: &Reference, style: &Style) -> Words {
    let spot = spot(r, m, style);
    let extra =
        if r.one_in(style.wild) { r.below(8) } else { [0, 0, 0, 1, 1, 1, 1, 2, 2, 3, 4, 5][r.index(12)] }
            as u32;
    if extra >= 3 {
        return words::retag_unsafe(spot.at, extra);
    }
    let open: Vec<u32> = (0..32).filter(|&i| m.frames[i as usize].is_some()).collect();
    let frame = match open.len() {
        0 => None,
        len => (!r.one_in(2)).then(|| open[r.index(len)]),
    };
    let frame = if r.one_in(style.wild * 4) { Some(r.below(32) as u32) } else { frame };
    let flags = Flags { frame, unpin: !r.one_in(5), freeze: r.one_in(2) };
    let mut layout = layout(r, spot.room, style);
    if r.one_in(style.wild * 4) {
        damage_layout(r, &mut layout);
    }
    let mut request = words::retag(spot.at, extra, flags, &layout);
    if r.one_in(style.wild * 8) {
        request[3] ^= 1 << r.below(32);
    }
    request
}

/// Layout words whose mask has at most `room` bytes, most of the time.
pub fn layout(r: &mut Random, room: u64, style: &Style) -> Words {
    let wild = r.one_in(style.wild);
    let mut left = if wild { room + r.below(3) } else { room };
    let tuples = match r.below(6) {
        0 => r.range(1, 3),
        1 => r.range(1, if wild { 9 } else { 8 }),
        _ => 0,
    };
    let mut words = Words::new();
    for _ in 0..tuples {
        let size = r.range(0, left.min(8));
        left -= size;
        words.extend(words::header(3, size as u32, &cells(r, size)));
    }
    let metadata = match r.below(4) {
        0 | 1 => sized_tail(r, left, &mut words),
        2 => slice_tail(r, left, &mut words),
        _ => {
            let size = r.range(0, left);
            words.extend(words::header(2, size as u32, &cells(r, size)));
            words::metadata(2, 0)
        }
    };
    words.insert(0, metadata);
    words
}

/// A sized layout takes any metadata.
fn sized_tail(r: &mut Random, left: u64, words: &mut Words) -> u32 {
    let size = if r.one_in(3) { left } else { r.range(0, left) };
    words.extend(words::header(0, size as u32, &cells(r, size)));
    match r.below(8) {
        0 => words::metadata(1, r.below(1 << 30) as u32),
        1 => words::metadata(2, 0),
        _ => words::metadata(0, 0),
    }
}

fn slice_tail(r: &mut Random, left: u64, words: &mut Words) -> u32 {
    let element = r.range(0, left.min(6));
    let most = if element == 0 { r.pick(&[0, 1, 3, 1000, (1 << 30) - 1]) } else { left / element };
    let count = if r.one_in(2) { most } else { r.range(0, most) };
    words.extend(words::header(1, element as u32, &cells(r, element)));
    words::metadata(1, count as u32)
}

/// Cells in order, not overlapping and within the size.
fn cells(r: &mut Random, size: u64) -> Vec<(u32, u32)> {
    let mut cells = Vec::new();
    let mut at = 0;
    if r.one_in(2) {
        return cells;
    }
    for _ in 0..r.range(1, 3) {
        let offset = r.range(at, size.min(0xffff));
        let len = r.range(0, (size - offset).min(0xffff));
        cells.push((offset as u32, len as u32));
        at = offset + len;
    }
    cells
}

fn damage_layout(r: &mut Random, layout: &mut Words) {
    match r.below(4) {
        0 => layout.truncate(r.index(layout.len())),
        1 => layout.push(r.next() as u32),
        _ => {
            let at = r.index(layout.len());
            layout[at] ^= 1 << r.below(32);
        }
    }
}
