//! Runs at the edges: every bound of document 01, one below it, at it and one above; and its starred cases.

use crate::deep::{self, Style};
use crate::random::Random;
use crate::reference::Reference;
use crate::words::*;

pub const PLAIN: Flags = Flags { frame: None, unpin: true, freeze: true };

/// The number of scenes that `run` draws from.
pub const SCENES: u64 = 20;

pub fn run(r: &mut Random) -> Vec<Words> {
    let scene = r.below(SCENES);
    scene_run(r, scene)
}

pub fn scene_run(r: &mut Random, scene: u64) -> Vec<Words> {
    match scene {
        0 => many_allocations(r),
        1 => many_words(r),
        2 => many_nodes(r),
        3 => many_codes(r),
        4 => many_entries(r),
        5 => many_frames(r),
        6 => high_addresses(r),
        7 => long_lengths(r),
        8 => large_masks(r),
        9 => nested_tuples(r),
        10 => long_requests(r),
        11 => dead_allocations(r),
        12 => strong_protectors(r),
        13 => below_the_start(r),
        14 => beside_sixteen(r),
        15 => signed_lengths(r),
        16 => deep_tree(r),
        17 => field_lists(r),
        18 => starred_codes(r),
        _ => odd_cells(r),
    }
}

pub fn at(address: u64, allocation: usize, node: usize) -> Ptr {
    Ptr { address, provenance: Some((allocation, node)) }
}

pub fn nowhere(address: u64) -> Ptr {
    Ptr { address, provenance: None }
}

pub fn sized(size: u32) -> Words {
    let mut words = vec![metadata(0, 0)];
    words.extend(header(0, size, &[]));
    words
}

pub fn in_frame(frame: u32) -> Flags {
    Flags { frame: Some(frame), ..PLAIN }
}

/// One below, at or above a bound.
pub fn around(r: &mut Random, bound: u64) -> u64 {
    bound - 1 + r.below(3)
}

/// Accepted requests after a scene, so that the full memory is used as well.
fn go_on(r: &mut Random, requests: &mut Vec<Words>) {
    let mut m = Reference::new();
    for request in requests.iter() {
        if m.step_in_run(Some(request)).refusal != 0 {
            return;
        }
    }
    let style = Style {
        kinds: [1, 2, 8, 8, 6, 2, 2, 1, 1, 1],
        most_bytes: 8,
        most_allocations: 200,
        wild: 30,
        base: 90000,
        empties: 0,
    };
    for _ in 0..r.below(12) {
        let request = deep::candidate(r, &m, &style);
        let refused = m.step_in_run(Some(&request)).refusal != 0;
        requests.push(request);
        if refused {
            return;
        }
    }
}

fn many_allocations(r: &mut Random) -> Vec<Words> {
    let size = r.below(3);
    let mut requests = Vec::new();
    for i in 0..around(r, 128) {
        requests.push(allocate(r.below(5) as u32, 0, 16 + 4 * i, size as u32));
        if r.one_in(10) {
            let (kind, address) = (requests.last().unwrap()[0] & 7, 16 + 4 * i);
            requests.push(deallocate(at(address, i as usize, 0), kind, 0, size as u32));
        }
    }
    go_on(r, &mut requests);
    requests
}

fn many_words(r: &mut Random) -> Vec<Words> {
    let pieces = r.pick(&[1, 2, 5]);
    let total = around(r, 4096);
    let mut requests = Vec::new();
    for i in 0..pieces {
        let size = if i + 1 == pieces { total - (pieces - 1) * 700 } else { 700 };
        requests.push(allocate(1, 0, 10000 * (i + 1), size as u32));
    }
    requests.push(allocate(0, 0, 7, r.below(2) as u32));
    go_on(r, &mut requests);
    requests
}

fn many_nodes(r: &mut Random) -> Vec<Words> {
    let size = r.pick(&[0, 1, 2, 31]);
    let mut requests = vec![allocate(1, 0, 4096, size)];
    let wide = r.one_in(2);
    for i in 1..around(r, 1024) {
        let parent = if wide { r.below(4.min(i)) } else { i - 1 - r.below(3.min(i)) };
        // Most retags are empty: they make a node and visit none.
        let len = if r.one_in(60) { size.min(1) } else { 0 };
        let extra = r.pick(&[0, 1, 1, 2]);
        requests.push(retag(at(4096, 0, parent as usize), extra, PLAIN, &sized(len)));
    }
    if r.one_in(2) {
        requests.push(allocate(0, 0, 7, 0));
    }
    go_on(r, &mut requests);
    requests
}

fn many_codes(r: &mut Random) -> Vec<Words> {
    let (size, nodes) = r.pick(&[(4096u64, 8u64), (2048, 16), (1024, 32), (33, 992), (4095, 8), (300, 109)]);
    let mut requests = vec![allocate(1, 0, 8192, size as u32)];
    for i in 1..around(r, nodes) + r.below(2) {
        let whole = i % 64 == 5 || size == 4096 && r.one_in(4);
        let len = if whole { size as u32 } else { r.below(2) as u32 };
        requests.push(retag(at(8192, 0, r.below(i) as usize), 1, PLAIN, &sized(len)));
    }
    if r.one_in(2) {
        requests.push(allocate(0, 0, 7, 1));
    }
    go_on(r, &mut requests);
    requests
}

fn many_entries(r: &mut Random) -> Vec<Words> {
    let frame = r.below(32) as u32;
    let mut requests = vec![allocate(1, 0, 64, 4), new_call(frame)];
    for i in 0..around(r, 64) {
        let extra = r.pick(&[0, 2]);
        let len = r.below(3) as u32;
        requests.push(retag(at(64, 0, r.below(i + 1) as usize), extra, in_frame(frame), &sized(len)));
    }
    if r.one_in(2) {
        requests.push(end_call(frame));
    }
    go_on(r, &mut requests);
    requests
}

fn many_frames(r: &mut Random) -> Vec<Words> {
    let mut requests: Vec<Words> = (0..32).map(new_call).collect();
    requests.push(allocate(0, 0, 100, 2));
    for frame in 0..32 {
        if r.one_in(2) {
            requests.push(retag(at(100, 0, 0), 0, in_frame(frame), &sized(1)));
        }
    }
    match r.below(4) {
        0 => requests.push(new_call(32)),
        1 => requests.push(new_call(r.below(32) as u32)),
        2 => {
            requests.extend((0..32).map(end_call));
            requests.push(end_call(r.below(33) as u32));
        }
        _ => requests.push(end_call(u32::MAX)),
    }
    requests
}

fn high_addresses(r: &mut Random) -> Vec<Words> {
    let size = r.below(6);
    let top = u64::MAX - size;
    let address = top.wrapping_add(r.below(3)).wrapping_sub(1);
    let mut requests = vec![allocate(1, 0, address, size as u32)];
    if r.one_in(3) {
        requests = vec![allocate(1, r.range(0, 29) as u32, u64::MAX - (1 << 29) + 1, (1 << 29) - 1)];
    }
    requests.push(load(at(u64::MAX - r.below(4), 0, 0), 0, r.below(6) as u32));
    requests.push(dereferenceable(at(u64::MAX, 0, 0), u32::MAX));
    requests
}

fn long_lengths(r: &mut Random) -> Vec<Words> {
    let long = u32::MAX - r.below(3) as u32;
    let mut requests = vec![allocate(1, 0, 16, 3)];
    let p = r.pick(&[at(16, 0, 0), at(19, 0, 0), at(0, 0, 0), nowhere(16), at(u64::MAX, 0, 0)]);
    requests.push(match r.below(6) {
        0 => allocate(0, 0, r.below(3), long),
        1 => allocate(0, 0, r.next(), long),
        2 => load(p, 0, long),
        3 => dereferenceable(p, long),
        4 => signed_dereferenceable(p, r.pick(&[i32::MIN, i32::MAX, -1, 1 - i32::MAX])),
        _ => deallocate(p, 1, 0, long),
    });
    requests
}

fn large_masks(r: &mut Random) -> Vec<Words> {
    let size = r.pick(&[0, 1, 4096]);
    let mut requests = vec![allocate(1, 0, 16, size)];
    let (element, count) = r.pick(&[
        (0u32, (1 << 30) - 1),
        (1, 4096),
        (1, 4097),
        (4096, 1),
        (4097, 1),
        (4097, 0),
        (64, 64),
        (64, 65),
        (4194303, 0),
        (4194303, (1 << 30) - 1),
        (2, 2048),
        (0, 0),
    ]);
    let head = r.pick(&[None, None, Some(0), Some(1)]);
    let mut layout = vec![metadata(1, count)];
    if let Some(head) = head {
        layout.extend(header(3, head, &[]));
    }
    layout.extend(header(1, element, &[]));
    let p = r.pick(&[at(16, 0, 0), nowhere(0)]);
    requests.push(retag(p, r.below(3) as u32, PLAIN, &layout));
    go_on(r, &mut requests);
    requests
}

fn nested_tuples(r: &mut Random) -> Vec<Words> {
    let depth = r.range(1, 10);
    let tail = r.below(3) as u32;
    let mut layout = vec![metadata(r.pick(&[tail, tail, 0, 1, 2]), 0)];
    for i in 0..depth {
        let cells: &[(u32, u32)] = if i % 2 == 0 { &[(0, 1)] } else { &[] };
        layout.extend(header(3, 2, cells));
    }
    layout.extend(header(tail, 2, &[(1, 1)]));
    if layout[0] == metadata(1, 0) {
        layout[0] |= r.below(4) as u32;
    }
    let mut requests = vec![allocate(0, 0, 16, 30), new_call(3)];
    let flags = Flags { frame: r.pick(&[None, Some(3)]), unpin: r.one_in(2), freeze: r.one_in(2) };
    requests.push(retag(at(16, 0, 0), r.below(3) as u32, flags, &layout));
    go_on(r, &mut requests);
    requests
}

/// Requests with as many words as may follow the fourth, and more.
fn long_requests(r: &mut Random) -> Vec<Words> {
    let count = around(r, 4096) as usize;
    let mut requests = vec![allocate(1, 0, 16, 4096)];
    requests.push(match r.below(5) {
        0 => store(at(16, 0, 0), 0, &vec![byte(1); count]),
        1 => {
            retag(at(16, 0, 0), 1, Flags { frame: None, unpin: false, freeze: false }, &vec![u32::MAX; count])
        }
        2 => retag(at(16, 0, 0), 0, PLAIN, &vec![0; count]),
        3 => {
            let mut short = store(at(16, 0, 0), 0, &[byte(1); 3]);
            short[3] = r.pick(&[4, 4096, 4097, u32::MAX]);
            short
        }
        _ => {
            let mut short = retag(at(16, 0, 0), r.below(8) as u32, PLAIN, &sized(1));
            short[3] = r.next() as u32;
            short
        }
    });
    go_on(r, &mut requests);
    requests
}

/// Retags, releases and accesses on what is dead.
fn dead_allocations(r: &mut Random) -> Vec<Words> {
    let mut requests = vec![allocate(1, 0, 16, 4), new_call(0), new_call(1)];
    let before = r.pick(&[0, 2]);
    if r.one_in(2) {
        requests.push(retag(at(16, 0, 0), before, in_frame(0), &sized(r.below(2) as u32 * 2)));
    }
    requests.push(deallocate(at(16, 0, 0), 1, 0, 4));
    requests.push(retag(at(r.range(15, 40), 0, 0), r.below(3) as u32, in_frame(1), &sized(0)));
    if r.one_in(3) {
        requests.push(allocate(0, 0, 16, 4));
    }
    requests.push(match r.below(5) {
        0 => retag(at(16, 0, 0), 0, PLAIN, &sized(1)),
        1 => load(at(17, 0, 1), 0, r.below(2) as u32),
        2 => deallocate(at(16, 0, 0), 1, 0, 4),
        _ => end_call(1),
    });
    requests.push(end_call(0));
    go_on(r, &mut requests);
    requests
}

fn strong_protectors(r: &mut Random) -> Vec<Words> {
    let size = r.range(0, 3) as u32;
    let mut requests = vec![allocate(1, 0, 16, size), new_call(0)];
    let extra = r.below(3) as u32;
    let len = r.range(0, size as u64) as u32;
    requests.push(retag(at(16, 0, 0), extra, in_frame(0), &sized(len)));
    if r.one_in(2) {
        requests.push(retag(at(16, 0, r.index(2)), r.below(3) as u32, PLAIN, &sized(0)));
    }
    if r.one_in(2) {
        requests.push(load(at(16, 0, r.index(2)), 0, size));
    }
    if r.one_in(2) {
        requests.push(store(at(16, 0, r.index(2)), 0, &vec![byte(3); size as usize]));
    }
    requests.push(deallocate(at(16, 0, r.index(2)), 1, 0, size));
    requests.push(end_call(0));
    requests.push(leak_check());
    requests
}

fn below_the_start(r: &mut Random) -> Vec<Words> {
    let mut requests = vec![allocate(1, 4, 16, 4)];
    if r.one_in(3) {
        requests.push(deallocate(at(16, 0, 0), 1, 4, 4));
    }
    let address = r.pick(&[0, 15, 16, 20, 21, 1 << 63, u64::MAX]);
    let flags = Flags { frame: None, unpin: r.one_in(2), freeze: true };
    requests.push(retag(at(address, 0, 0), r.below(3) as u32, flags, &sized(0)));
    requests.push(load(at(16, 0, 1), 0, 1));
    requests
}

/// Beside 16..18: touching ranges, and sizes of 0.
fn beside_sixteen(r: &mut Random) -> Vec<Words> {
    let mut requests = vec![allocate(r.below(5) as u32, 0, 16, r.pick(&[0, 2, 2]))];
    if r.one_in(4) {
        requests.push(deallocate(at(16, 0, 0), requests[0][0] & 7, 0, requests[0][3]));
    }
    requests.push(allocate(1, 0, r.range(14, 19), r.below(4) as u32));
    requests.push(allocate(1, 0, r.range(14, 19), r.below(3) as u32));
    requests.push(leak_check());
    requests
}

fn signed_lengths(r: &mut Random) -> Vec<Words> {
    let mut requests = vec![allocate(2, 0, r.pick(&[1, 16, u64::MAX - 3]), 3)];
    let start = (requests[0][1] as u64) << 32 | requests[0][2] as u64;
    let p = at(start.wrapping_add(r.below(5)).wrapping_sub(1), 0, 0);
    let len = r.range(0, 8) as i32 - 4;
    requests.push(signed_dereferenceable(p, len));
    requests.push(signed_dereferenceable(nowhere(2), r.range(0, 2) as i32 - 1));
    requests
}

/// A chain of retags as long as may be, with accesses at both ends.
fn deep_tree(r: &mut Random) -> Vec<Words> {
    let depth = r.pick(&[20, 60, 200, 1023]);
    let mut requests = vec![allocate(1, 0, 16, 2)];
    for i in 0..depth {
        let len = if depth > 100 { r.one_in(40) as u32 } else { r.below(3) as u32 };
        requests.push(retag(at(16, 0, i), 1, PLAIN, &sized(len)));
    }
    requests.push(store(at(16, 0, depth), 0, &[byte(1), fragment(2, 7, 0, depth as u32)]));
    requests.push(load(at(16, 0, depth / 2), 0, 2));
    requests.push(store(at(17, 0, r.index(depth)), 0, &[byte(9)]));
    requests.push(load(at(16, 0, depth), 0, 1));
    requests
}

/// A request with every field but one zero.
fn field_lists(r: &mut Random) -> Vec<Words> {
    let mut requests = vec![allocate(1, 0, 16, 2), new_call(0)];
    let kind = r.below(16) as u32;
    let field = r.pick(&[0, 1 << 8, 1 << 9, 1 << 21, 1 << 3, 29 << 3, 30 << 3, 1, 2, 3, 4, 5, 6, 7, 3 << 8]);
    let mut request = vec![kind << 28 | field, 0, r.pick(&[0, 16]), r.pick(&[0, 0, 1, 31, 32])];
    if kind == 3 {
        request.extend(vec![byte(5); request[3] as usize]);
    }
    requests.push(request);
    requests
}

/// The codes that document 01 stars: releases of 8 and b, foreign writes on 7 and d.
fn starred_codes(r: &mut Random) -> Vec<Words> {
    let mut requests = vec![allocate(1, 0, 16, 2), new_call(0)];
    requests.push(retag(at(16, 0, 0), 1, PLAIN, &sized(2)));
    requests.push(retag(at(16, 0, 0), r.pick(&[0, 1]), in_frame(0), &sized(r.below(3) as u32)));
    match r.below(4) {
        0 => requests.push(load(at(16, 0, 2), 0, 1)),
        1 => requests.push(store(at(16, 0, 2), 0, &[byte(1)])),
        2 => requests.push(store(at(16, 0, 0), 0, &[byte(1)])),
        _ => {}
    }
    if r.one_in(2) {
        requests.push(store(at(16 + r.below(2), 0, r.index(2)), 0, &[byte(2)]));
    }
    requests.push(end_call(0));
    requests.push(load(at(16, 0, 1), 0, 2));
    requests
}

/// Cells at the edges of what has a mask.
fn odd_cells(r: &mut Random) -> Vec<Words> {
    let cells: Vec<(u32, u32)> = match r.below(8) {
        0 => vec![(4, 0), (4, 0), (4, 2)],
        1 => vec![(4, 2), (4, 0)],
        2 => vec![(8, 0)],
        3 => vec![(9, 0)],
        4 => vec![(0, 8)],
        5 => vec![(2, 7)],
        6 => (0..255).map(|i| (i.min(8), 0)).collect(),
        _ => vec![(3, 1), (2, 1)],
    };
    let mut layout = vec![metadata(r.pick(&[0, 1, 2, 3]), r.pick(&[0, 0, 1]))];
    let strategy = r.below(3) as u32;
    layout.extend(header(strategy, 8, &cells));
    if r.one_in(6) {
        layout.truncate(r.index(layout.len() + 1));
    }
    let mut requests = vec![allocate(1, 0, 16, 10)];
    requests.push(retag(r.pick(&[at(17, 0, 0), nowhere(5)]), r.below(3) as u32, PLAIN, &layout));
    go_on(r, &mut requests);
    requests
}
