//! Lists whose order may change: neighbouring loads and stores, exchanged where document 01 allows it.

use crate::random::Random;
use crate::words::Words;

/// A list after exchanges.
pub struct Exchanged {
    pub list: Vec<Words>,
    /// For each place of the new list, the place of the request in the old one.
    pub order: Vec<usize>,
    /// The exchanges in order: each is the first of the two neighbouring places.
    pub places: Vec<usize>,
}

/// The addresses that a load or store touches, counted without wrapping.
fn touches(request: &Words) -> std::ops::Range<u128> {
    let start = (request[1] as u128) << 32 | request[2] as u128;
    start..start + request[3] as u128
}

/// May these two neighbours be exchanged? Two loads always, else when no address is common.
pub fn may_exchange(a: &Words, b: &Words) -> bool {
    let kinds = (a[0] >> 28, b[0] >> 28);
    if !matches!(kinds, (2 | 3, 2 | 3)) {
        return false;
    }
    let (a, b) = (touches(a), touches(b));
    kinds == (2, 2) || a.start.max(b.start) >= a.end.min(b.end)
}

/// Up to `most` exchanges, at places drawn by chance.
pub fn exchange(r: &mut Random, list: &[Words], most: usize) -> Exchanged {
    let mut list = list.to_vec();
    let mut order: Vec<usize> = (0..list.len()).collect();
    let mut places = Vec::new();
    for _ in 0..most {
        let open: Vec<usize> = (1..list.len()).filter(|&i| may_exchange(&list[i - 1], &list[i])).collect();
        if open.is_empty() {
            break;
        }
        let place = open[r.index(open.len())] - 1;
        list.swap(place, place + 1);
        order.swap(place, place + 1);
        places.push(place);
    }
    Exchanged { list, order, places }
}
