//! Runs by seed: run number `index` of a seed is always the same.

use crate::deep::{self, Style};
use crate::limits;
use crate::random::Random;
use crate::reference::{next_request, Reference};
use crate::width::{self, Widths};
use crate::words::{self, Words};

/// A generated run.
pub struct Run {
    /// What kind of run it is, for the counts.
    pub origin: &'static str,
    pub bytes: Vec<u8>,
}

/// One run of a program that stops at the first refusal.
pub fn run(widths: Widths, seed: u64, index: u64) -> Run {
    let mut r = Random::new(seed, index);
    match r.weighted(&[35, 20, 20, 12, 8, 5]) {
        0 => Run { origin: "deep", bytes: words::bytes(&deep_run(&mut r, widths)) },
        1 if widths != Widths::Start && r.one_in(2) => edge_run(&mut r, widths),
        1 => Run { origin: "hunted", bytes: words::bytes(&hunted_run(&mut r, widths)) },
        2 => Run { origin: "short", bytes: words::bytes(&short_run(&mut r, widths)) },
        3 => Run { origin: "damaged", bytes: damaged_run(&mut r, widths) },
        4 => Run { origin: "loose", bytes: words::bytes(&loose_list(&mut r, widths)) },
        _ => Run { origin: "limit", bytes: words::bytes(&limit_run(&mut r, widths)) },
    }
}

fn edge_run(r: &mut Random, widths: Widths) -> Run {
    let width = widths.draw(r);
    Run { origin: "edge", bytes: words::bytes(&width::scene(r, width)) }
}

/// A scene at a bound, behind what its width asks for.
fn limit_run(r: &mut Random, widths: Widths) -> Vec<Words> {
    let (mut requests, _) = widths.begin(r);
    requests.extend(limits::run(r));
    requests
}

/// One list, which goes on after refusals. Each element has the words that its own fields say, also when it
/// is damaged, so that the list is cut the same in every order.
pub fn list(widths: Widths, seed: u64, index: u64) -> Vec<Words> {
    let mut r = Random::new(seed, index);
    let bytes = if widths != Widths::Start && r.one_in(4) {
        words::bytes(&edge_list(&mut r, widths))
    } else {
        words::bytes(&loose_list(&mut r, widths))
    };
    let mut list = Vec::new();
    let mut at = 0;
    while let (Some(request), next) = next_request(&bytes, at) {
        list.push(request);
        at = next;
    }
    list
}

/// A few scenes at the edges of widths.
fn edge_list(r: &mut Random, widths: Widths) -> Vec<Words> {
    let mut requests = Vec::new();
    for _ in 0..r.range(1, 4) {
        let width = widths.draw(r);
        requests.extend(width::scene(r, width));
    }
    requests
}

/// Add candidates that are accepted, with a few tries for each.
fn extend_accepted(r: &mut Random, m: &mut Reference, style: &Style, requests: &mut Vec<Words>, count: u64) {
    for _ in 0..count {
        for _ in 0..8 {
            let request = deep::candidate(r, m, style);
            let before = m.clone();
            if m.step_in_run(Some(&request)).refusal == 0 {
                requests.push(request);
                break;
            }
            *m = before;
        }
    }
}

fn accepted(r: &mut Random, widths: Widths) -> (Vec<Words>, Reference, Style) {
    let style = style(r, widths);
    let (mut requests, mut m) = widths.begin(r);
    let count = match r.below(4) {
        0 => r.range(0, 12),
        1 | 2 => r.range(10, 60),
        _ => r.range(40, 160),
    };
    extend_accepted(r, &mut m, &style, &mut requests, count);
    (requests, m, style)
}

fn style(r: &mut Random, widths: Widths) -> Style {
    let style = Style::draw(r);
    Style { empties: widths.empties(r), ..style }
}

/// Accepted requests, and half of the time one more that need not be.
fn deep_run(r: &mut Random, widths: Widths) -> Vec<Words> {
    let (mut requests, m, style) = accepted(r, widths);
    if r.one_in(2) {
        requests.push(deep::candidate(r, &m, &style));
    }
    requests
}

/// Accepted requests, then one with a refusal that was sought.
fn hunted_run(r: &mut Random, widths: Widths) -> Vec<Words> {
    let (mut requests, m, style) = accepted(r, widths);
    requests.extend(hunt(r, &m, style));
    requests
}

/// Few requests on few bytes, then half of the time one with a refusal that was sought.
fn short_run(r: &mut Random, widths: Widths) -> Vec<Words> {
    let mut style = style(r, widths);
    style.most_bytes = r.range(1, 3);
    style.most_allocations = r.range(1, 2) as usize;
    let (mut requests, mut m) = widths.begin(r);
    let count = r.range(2, 14);
    extend_accepted(r, &mut m, &style, &mut requests, count);
    if r.one_in(2) {
        requests.extend(hunt(r, &m, style));
    }
    requests
}

/// A request with a refusal drawn beforehand, or else one that is refused, if one is found. The tree's refusals
/// come from accesses that are right in all else.
fn hunt(r: &mut Random, m: &Reference, mut style: Style) -> Option<Words> {
    let wanted = r.range(3, 28) as u8;
    style.wild = 3;
    style.empties = 0;
    if wanted >= 17 {
        style.wild = 1000;
        style.kinds = [0, 3, 4, 4, 3, 0, 0, 0, 0, 1];
    }
    let mut last = None;
    for _ in 0..40 {
        let request = deep::candidate(r, m, &style);
        let refusal = m.clone().step_in_run(Some(&request)).refusal;
        if refusal == wanted {
            return Some(request);
        }
        if refusal > 2 {
            last = Some(request);
        }
    }
    last
}

/// Requests that are refused now and then. In a program the run stops at the first of these.
fn loose_list(r: &mut Random, widths: Widths) -> Vec<Words> {
    let mut style = style(r, widths);
    style.wild = r.pick(&[6, 12, 40, 100]);
    let (mut requests, mut m) = widths.begin(r);
    let prefix = r.range(4, 30);
    extend_accepted(r, &mut m, &style, &mut requests, prefix);
    for _ in 0..r.range(5, 60) {
        let request = deep::candidate(r, &m, &style);
        m.step_in_run(Some(&request));
        requests.push(request);
    }
    requests
}

/// A run with something wrong in it.
fn damaged_run(r: &mut Random, widths: Widths) -> Vec<u8> {
    let (mut requests, m, style) = accepted(r, widths);
    match r.below(8) {
        0 => {
            let mut bytes = words::bytes(&requests);
            (0..r.range(1, 3)).for_each(|_| flip_bit(r, &mut bytes));
            bytes
        }
        1 => {
            let mut bytes = words::bytes(&requests);
            bytes.truncate(r.range(0, bytes.len() as u64) as usize);
            bytes
        }
        2 => {
            let mut bytes = words::bytes(&requests);
            (0..r.range(1, 3)).for_each(|_| bytes.push(r.next() as u8));
            bytes
        }
        3 => {
            let mut odd = vec![r.next() as u32, 0, 0, 0];
            odd[0] = odd[0] & 0x0fff_ffff | (r.range(10, 15) as u32) << 28;
            requests.push(odd);
            words::bytes(&requests)
        }
        4 => {
            requests.push((0..r.range(1, 9)).map(|_| r.next() as u32).collect());
            words::bytes(&requests)
        }
        // The last request, with one bit of one word changed.
        _ => {
            let mut last = deep::candidate(r, &m, &style);
            let at = r.index(last.len().min(8));
            last[at] ^= 1 << r.below(32);
            requests.push(last);
            words::bytes(&requests)
        }
    }
}

fn flip_bit(r: &mut Random, bytes: &mut [u8]) {
    if !bytes.is_empty() {
        let at = r.index(bytes.len());
        bytes[at] ^= 1 << r.below(8);
    }
}
