//! The smallest run that still shows a difference.

use runs::reference::next_request;

/// Take requests, allocations, layouts and bits away while `differs` holds.
pub fn shrink(run: &[u8], mut differs: impl FnMut(&[u8]) -> bool) -> Vec<u8> {
    let mut best = run.to_vec();
    loop {
        let before = best.clone();
        drop_requests(&mut best, &mut differs);
        drop_allocations(&mut best, &mut differs);
        simplify_layouts(&mut best, &mut differs);
        lessen_words(&mut best, &mut differs);
        if best == before {
            return best;
        }
    }
}

/// The bytes of each request. A rest that is no whole request stands by itself.
fn requests(run: &[u8]) -> Vec<Vec<u8>> {
    let mut parts = Vec::new();
    let mut at = 0;
    while at < run.len() {
        let (_, next) = next_request(run, at);
        parts.push(run[at..next].to_vec());
        at = next;
    }
    parts
}

fn word(bytes: &[u8], at: usize) -> u32 {
    u32::from_be_bytes(bytes[4 * at..4 * at + 4].try_into().expect("four bytes"))
}

fn set_word(bytes: &mut [u8], at: usize, word: u32) {
    bytes[4 * at..4 * at + 4].copy_from_slice(&word.to_be_bytes());
}

fn drop_requests(best: &mut Vec<u8>, differs: &mut impl FnMut(&[u8]) -> bool) {
    let mut parts = requests(best);
    let mut width = parts.len().next_power_of_two();
    while width > 0 {
        let mut at = 0;
        while at < parts.len() {
            let mut fewer = parts.clone();
            fewer.drain(at..(at + width).min(parts.len()));
            let bytes = fewer.concat();
            if differs(&bytes) {
                parts = fewer;
                *best = bytes;
            } else {
                at += width;
            }
        }
        width /= 2;
    }
}

/// An allocation with all requests that name it; those made after it are named by one less.
fn drop_allocations(best: &mut Vec<u8>, differs: &mut impl FnMut(&[u8]) -> bool) {
    let mut number = 0;
    while let Some(bytes) = without_allocation(&requests(best), number) {
        if differs(&bytes) {
            *best = bytes;
        } else {
            number += 1;
        }
    }
}

fn without_allocation(parts: &[Vec<u8>], number: u32) -> Option<Vec<u8>> {
    let is_allocation = |part: &Vec<u8>| part.len() == 16 && word(part, 0) >> 28 == 0;
    let at = (0..parts.len()).filter(|&i| is_allocation(&parts[i])).nth(number as usize)?;
    let mut bytes = Vec::new();
    for (i, part) in parts.iter().enumerate() {
        let mut part = part.clone();
        let first = if part.len() < 4 { 0 } else { word(&part, 0) };
        let named = (first >> 8 & 1 == 1).then_some(first >> 21 & 127);
        match named {
            Some(named) if named == number => continue,
            Some(named) if named > number => set_word(&mut part, 0, first - (1 << 21)),
            _ if i == at => continue,
            _ => {}
        }
        bytes.extend(part);
    }
    Some(bytes)
}

/// A sized layout without cells in place of any other.
fn simplify_layouts(best: &mut Vec<u8>, differs: &mut impl FnMut(&[u8]) -> bool) {
    let mut parts = requests(best);
    for i in 0..parts.len() {
        if parts[i].len() <= 24 || word(&parts[i], 0) >> 28 != 4 {
            continue;
        }
        for size in 0..4u32 {
            let mut simpler = parts.clone();
            simpler[i].truncate(24);
            let fourth = word(&parts[i], 3) & !0x7f_ffff | 2;
            [(3, fourth), (4, 0), (5, size)].iter().for_each(|&(at, w)| set_word(&mut simpler[i], at, w));
            let bytes = simpler.concat();
            if differs(&bytes) {
                parts = simpler;
                *best = bytes;
                break;
            }
        }
    }
}

/// Words to 0 or to fewer bits, in the first words of a run only: they are many otherwise.
fn lessen_words(best: &mut Vec<u8>, differs: &mut impl FnMut(&[u8]) -> bool) {
    for at in 0..(best.len() / 4).min(500) {
        let held = word(best, at);
        let smaller = std::iter::once(0).chain((0..32).map(|bit| held & !(1 << bit)));
        for candidate in smaller.filter(|&c| c != held) {
            let mut bytes = best.clone();
            set_word(&mut bytes, at, candidate);
            if differs(&bytes) {
                *best = bytes;
                break;
            }
        }
    }
}
