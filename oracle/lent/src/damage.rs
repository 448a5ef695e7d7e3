//! Damage to what is lent: one number of a buffer or its length, the width, or what is wrong with a frame. Each kind has a name.

use crate::buffers::{valid_word, RECORD};
use crate::call::Call;
use crate::lent::{Lent, AREA, PLACES};
use runs::random::Random;
use runs::reference::{last_address, Reference};
use runs::words;
use tree_borrows::raw::Entry;
use tree_borrows::Buffers;

/// Damages the buffers, which hold the memory, and says how.
pub fn damage(r: &mut Random, m: &Reference, b: &mut Buffers) -> String {
    loop {
        let before = b.clone();
        let name = match r.below(11) {
            0 => Some(length(r, b)),
            1 | 2 => record(r, m, b),
            8 => start(r, m, b),
            9 => Some(width(r, b)),
            10 => position(r, m, b),
            3 => node(r, m, b),
            4 => code(r, m, b),
            5 => word(r, m, b),
            6 => Some(behind(r, m, b)),
            _ => records(r, m, b),
        };
        match name {
            Some(name) if *b != before => return name,
            _ => *b = before,
        }
    }
}

/// A width that there is not, or another one: then addresses or positions may be too big for it.
fn width(r: &mut Random, b: &mut Buffers) -> String {
    let none = [0, 1, 8, 15, 17, 24, 31, 33, 63, 65, 128, (1 << 32) + 16, (1 << 32) + 64, u64::MAX];
    let (name, value) = match r.below(3) {
        0 => ("another", r.pick(&[16, 32, 64])),
        _ => ("none of the three", r.pick(&none)),
    };
    b.width = value;
    format!("width: {name}")
}

fn length(r: &mut Random, b: &mut Buffers) -> String {
    fn change<T: Copy + Default>(how: usize, buffer: &mut Vec<T>) {
        match how {
            0 => buffer.truncate(buffer.len() - 1),
            1 => buffer.push(T::default()),
            _ => buffer.clear(),
        }
    }
    let how = r.index(3);
    let which = r.index(5);
    match which {
        0 => change(how, &mut b.allocs),
        1 => change(how, &mut b.parents),
        2 => change(how, &mut b.protectors),
        3 => change(how, &mut b.words),
        _ => change(how, &mut b.codes),
    }
    format!("length of {}: {}", NAMES[which], ["one less", "one more", "0"][how])
}

const NAMES: [&str; 5] = ["allocs", "parents", "protectors", "words", "codes"];

/// One number of the record of a made allocation.
fn record(r: &mut Random, m: &Reference, b: &mut Buffers) -> Option<String> {
    if m.allocs.is_empty() {
        return None;
    }
    let number = r.index(m.allocs.len());
    let a = &m.allocs[number];
    let held = &mut b.allocs[RECORD * number..RECORD * (number + 1)];
    let (size, nodes) = (held[4], held[5]);
    let field = r.index(6);
    let way = r.index(if field == 3 { 6 } else { 4 });
    let huge = r.pick(&[1 << 16, 1 << 32, 1 << 62, 1 << 63, u64::MAX]);
    let (name, value) = match (field, way) {
        (0, 0) => ("never made", 0),
        (0, 1) => ("live for dead or dead for live", 3 - held[0]),
        (0, _) => ("no state", r.pick(&[3, 4, 257, 258, (1 << 32) + 1, u64::MAX])),
        (1, 0) => ("another", r.below(5)),
        (1, _) => ("none of the five", r.pick(&[5, 6, 255, 256, 1 << 32, u64::MAX])),
        (2, 0) => ("another", r.below(30)),
        (2, _) => ("above 29", r.pick(&[30, 31, 32, 63, 64, 65, 256, 1 << 32, u64::MAX])),
        (3, 0) => ("0", 0),
        (3, 1) => ("not aligned or beside", a.address.wrapping_add(r.range(1, 3))),
        (3, 2) => ("end near 2^64", (u64::MAX - size).wrapping_add(r.below(4)).wrapping_sub(1)),
        (3, 3 | 4) => (
            if a.live { "end near 2^width, live" } else { "end near 2^width, dead" },
            (last_address(m.width) - size).wrapping_add(r.below(4)).wrapping_sub(1),
        ),
        (3, _) => ("any", r.next()),
        (4, 0) => ("one less", size.wrapping_sub(1)),
        (4, 1) => ("one more", size + 1),
        (4, 2) if nodes > 1 => ("so large that a product wraps", u64::MAX / nodes + 1 + r.below(4)),
        (4, _) => ("huge", huge.saturating_add(r.below(5))),
        (_, 0) => ("none", 0),
        (_, 1) => ("one less", nodes - 1),
        (_, 2) => ("one more", nodes + 1),
        (_, _) => ("huge", huge.saturating_add(r.below(5))),
    };
    held[field] = value;
    let fields = ["state", "kind", "exponent", "address", "size", "number of nodes"];
    Some(format!("{}: {name}", fields[field]))
}

/// One of the three starts of a record: of any allocation, of a dead one or of the last.
fn start(r: &mut Random, m: &Reference, b: &mut Buffers) -> Option<String> {
    if m.allocs.is_empty() {
        return None;
    }
    let dead: Vec<usize> = (0..m.allocs.len()).filter(|&i| !m.allocs[i].live).collect();
    let (whose, number) = match r.below(3) {
        0 => ("an allocation", r.index(m.allocs.len())),
        1 if !dead.is_empty() => ("a dead allocation", dead[r.index(dead.len())]),
        _ => ("the last allocation", m.allocs.len() - 1),
    };
    let which = r.index(3);
    let held = &mut b.allocs[RECORD * number + 6 + which];
    let by = r.pick(&[1, 1, 2, 8, 64]);
    let huge = r.pick(&[1 << 16, 1 << 32, 1 << 62, 1 << 63, u64::MAX]);
    let (name, value) = match r.below(5) {
        0 | 1 => ("too small", held.saturating_sub(by)),
        2 | 3 => ("too large", *held + by),
        _ => ("huge", huge),
    };
    *held = value;
    Some(format!("first {} of {whose}: {name}", ["word", "node", "code"][which]))
}

/// The places of an allocation's nodes, words and codes.
fn starts(m: &Reference, number: usize) -> (usize, usize, usize) {
    let before = &m.allocs[..number];
    let nodes = before.iter().map(|a| a.nodes.len()).sum();
    let words = before.iter().map(|a| a.words.len()).sum();
    (nodes, words, before.iter().map(|a| a.nodes.len() * a.words.len()).sum())
}

/// A node's parent or protector.
fn node(r: &mut Random, m: &Reference, b: &mut Buffers) -> Option<String> {
    if m.allocs.is_empty() {
        return None;
    }
    let number = r.index(m.allocs.len());
    let a = &m.allocs[number];
    let node = r.index(a.nodes.len());
    let at = starts(m, number).0 + node;
    let parent = &mut b.parents[at];
    let protector = &mut b.protectors[at];
    let name = match (r.below(4), node) {
        (0, 0) | (1, 0) => {
            *parent = r.pick(&[1, 2, 255, 256, 1023, u16::MAX]);
            "parent: the root has one"
        }
        (0, _) => {
            let later = r.range(0, a.nodes.len() as u64) as u16;
            *parent = (node as u16).saturating_add(r.pick(&[0, 0, 1, later, 1024, u16::MAX]));
            "parent: not earlier"
        }
        (1, _) => {
            *parent = r.index(node) as u16;
            "parent: another earlier one"
        }
        (2, _) => {
            *protector = r.pick(&[3, 4, 128, 254, 255]);
            "protector: no such number"
        }
        (_, 0) => {
            *protector = r.range(1, 2) as u8;
            "protector: the root has one"
        }
        _ => {
            *protector = r.below(3) as u8;
            "protector: another"
        }
    };
    Some(name.into())
}

fn code(r: &mut Random, m: &Reference, b: &mut Buffers) -> Option<String> {
    let filled: Vec<usize> = (0..m.allocs.len()).filter(|&i| !m.allocs[i].words.is_empty()).collect();
    if filled.is_empty() {
        return None;
    }
    let number = filled[r.index(filled.len())];
    let a = &m.allocs[number];
    let node = r.index(a.nodes.len());
    let at = starts(m, number).2 + node * a.words.len() + r.index(a.words.len());
    let marked = a.nodes[node].protector > 0;
    let state = if a.live { "live" } else { "dead" };
    let (low, high, name) = match (r.below(4), marked) {
        (0, _) => (15, 255, "above e"),
        (1, true) | (2, true) => (0, 5, "unprotected in a protected row"),
        (1, false) | (2, false) => (6, 14, "protected in an unprotected row"),
        (_, true) => (6, 14, "another protected one"),
        (_, false) => (0, 5, "another unprotected one"),
    };
    b.codes[at] = if low == 15 { r.pick(&[15, 16, 31, 128, 255]) } else { r.range(low, high) as u8 };
    Some(format!("code, {state}: {name}"))
}

fn word(r: &mut Random, m: &Reference, b: &mut Buffers) -> Option<String> {
    let used: usize = m.allocs.iter().map(|a| a.words.len()).sum();
    if used == 0 {
        return None;
    }
    let at = r.index(used);
    let (word, name) = match r.below(4) {
        0 => (r.next() as u32 >> 1, "not initialised and not 0"),
        1 => (1 << r.below(31), "not initialised, one bit"),
        2 => (1 << 31 | 1 << r.range(8, 29) | r.next() as u32 & 255, "without provenance, a middle field"),
        _ => (r.next() as u32, "any"),
    };
    b.words[at] = word;
    let name = if name == "any" && valid_word(word, m.width) { "another valid one" } else { name };
    Some(format!("word: {name}"))
}

/// A byte of a pointer at its last position or beyond, of a live or of a dead allocation.
fn position(r: &mut Random, m: &Reference, b: &mut Buffers) -> Option<String> {
    let filled: Vec<usize> = (0..m.allocs.len()).filter(|&i| !m.allocs[i].words.is_empty()).collect();
    let &number = filled.get(r.index(filled.len().max(1)))?;
    let a = &m.allocs[number];
    let last = m.width / 8 - 1;
    let at = r.pick(&[last, last + 1, last + 1, 7]).min(7);
    let word = words::fragment(r.next() as u8, at, r.below(128) as u32, r.below(4096) as u32);
    b.words[starts(m, number).1 + r.index(a.words.len())] = word;
    let state = if a.live { "live" } else { "dead" };
    Some(format!("word, {state}: {}", if at > last { "position too big" } else { "the last position" }))
}

/// A number behind a buffer's used part: the first, the last or any.
fn behind(r: &mut Random, m: &Reference, b: &mut Buffers) -> String {
    fn set<T: Copy>(r: &mut Random, used: usize, buffer: &mut [T], value: T) {
        if used < buffer.len() {
            let at = match r.below(3) {
                0 => used,
                1 => buffer.len() - 1,
                _ => used + r.index(buffer.len() - used),
            };
            buffer[at] = value;
        }
    }
    let (nodes, words, codes) = starts(m, m.allocs.len());
    let small = r.pick(&[1, 2, 3, 5, 6, 16, 255]);
    let wide = r.pick(&[1, 2, 1 << 30, 1 << 31, 0x8000_0007, u32::MAX]);
    let which = r.index(5);
    match which {
        0 => set(r, RECORD * m.allocs.len(), &mut b.allocs, wide as u64),
        1 => set(r, nodes, &mut b.parents, small as u16),
        2 => set(r, nodes, &mut b.protectors, small),
        3 => set(r, words, &mut b.words, wide),
        _ => set(r, codes, &mut b.codes, small),
    }
    format!("behind the used part of {}", NAMES[which])
}

/// Records that fit together no more: a live one moved onto another, or one behind a never-made one.
fn records(r: &mut Random, m: &Reference, b: &mut Buffers) -> Option<String> {
    let made = m.allocs.len();
    if made == 0 {
        return None;
    }
    match r.below(3) {
        0 => {
            let at = made + r.range(1, 3) as usize;
            *b.allocs.get_mut(RECORD * at)? = r.range(1, 2);
            Some("state of a record behind a never-made one".into())
        }
        1 => {
            let (from, to) = (RECORD * (made - 1), RECORD * (made + r.index(3)));
            if to + RECORD > b.allocs.len() {
                return None;
            }
            b.allocs.copy_within(from..from + RECORD, to);
            b.allocs[from..from + RECORD].fill(0);
            Some("the last record behind a never-made one (all its numbers)".into())
        }
        _ => {
            let live: Vec<usize> = (0..made).filter(|&i| m.allocs[i].live).collect();
            if live.len() < 2 {
                return None;
            }
            let (one, other) = (live[r.index(live.len())], live[r.index(live.len())]);
            let (own, target) = (&m.allocs[one], &m.allocs[other]);
            let size = own.words.len() as u64;
            // from where both just touch to where they just touch again
            let reach = size + target.words.len() as u64;
            let address = target.address.wrapping_sub(size).wrapping_add(r.range(0, reach));
            b.allocs[RECORD * one + 3] = address >> own.exponent << own.exponent;
            Some("address: on or beside another live allocation".into())
        }
    }
}

/// Makes something wrong of what an end call or a retag is lent beside the memory, and says what.
pub fn wrong_frame(r: &mut Random, m: &Reference, call: &Call, lent: &mut Lent) -> String {
    let name = match call {
        Call::EndCall if r.one_in(4) => wrong_area(r, &mut lent.area),
        Call::EndCall if !r.one_in(3) => wrong_entry(r, m, lent),
        _ => wrong_list(r, lent),
    };
    format!("{}: {name}", call.name())
}

fn wrong_area(r: &mut Random, area: &mut Vec<u8>) -> &'static str {
    match r.below(4) {
        0 => {
            area.resize(r.pick(&[32767, 4096, 1, 0]), 0);
            "working area too short"
        }
        1 => {
            area.resize(r.pick(&[32769, 65536]), 0);
            "working area too long"
        }
        2 => {
            area.fill(0);
            area[r.index(AREA)] = r.range(1, 255) as u8;
            "working area with one number"
        }
        _ => {
            area.fill(r.range(1, 255) as u8);
            "working area full"
        }
    }
}

fn wrong_entry(r: &mut Random, m: &Reference, lent: &mut Lent) -> &'static str {
    let all = m.allocs.iter().enumerate().flat_map(|(a, x)| (0..x.nodes.len()).map(move |n| (a, n)));
    let (marked, unmarked): (Vec<_>, Vec<_>) = all.partition(|&(a, n)| m.allocs[a].nodes[n].protector > 0);
    let mut entries = lent.frame.entries();
    let at = r.index(entries.len() + 1);
    let name = match r.below(6) {
        0 => {
            entries.insert(at, (m.allocs.len() + r.index(3), r.index(3)));
            "entry of an allocation never made"
        }
        1 if !unmarked.is_empty() => {
            let (a, _) = unmarked[r.index(unmarked.len())];
            entries.insert(at, (a, m.allocs[a].nodes.len() + r.index(3)));
            "entry of a node never made"
        }
        2 => {
            let beyond = r.pick(&[128, 4096, 65536, 1 << 31, u32::MAX]) as usize;
            entries.insert(at, if r.one_in(2) { (beyond, 0) } else { (0, beyond.max(1024)) });
            "entry with a number beyond every bound"
        }
        3 if !marked.is_empty() => {
            let twice = marked[r.index(marked.len())];
            entries.insert(at, twice);
            entries.insert(r.index(entries.len() + 1), twice);
            "the same node twice"
        }
        _ if !unmarked.is_empty() => {
            entries.insert(at, unmarked[r.index(unmarked.len())]);
            "entry of a node not protected"
        }
        _ => "no entry to make wrong",
    };
    entries.truncate(PLACES);
    lent.frame.write(&entries);
    name
}

pub fn wrong_list(r: &mut Random, lent: &mut Lent) -> &'static str {
    let frame = &mut lent.frame;
    match r.below(5) {
        0 => {
            frame.count = r.pick(&[65, 66, 128, 1 << 16, 1 << 32, usize::MAX]);
            "count above 64"
        }
        1 => {
            frame.places.truncate(r.pick(&[63, 63, 32, 1, 0]));
            "list of fewer places"
        }
        2 => {
            frame.places.resize(r.pick(&[65, 66, 128]), Entry { allocation: 0, node: 0 });
            "list of more places"
        }
        3 => {
            frame.count = PLACES;
            "list that is full"
        }
        _ => {
            frame.fill_behind(r);
            "places behind the entries not zero"
        }
    }
}
