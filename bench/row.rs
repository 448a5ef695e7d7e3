// The check pass over rows of codes, as the proved library makes it in a load, beside a plain look-up in a table over as many codes. The loads of a
// list come after an allocation of 4,096 bytes and a chain of nodes, and none of them changes a code: each is mostly the check pass, over a row for each
// node. No answer is written, since the buffer that is lent for them is empty, but each loaded word is tried: an eighth of the codes.
use std::hint::black_box;
use std::time::Instant;
use tree_borrows::Buffers;
use tree_borrows::raw::FRAMES;

const BYTES: usize = 4096;
const NODES: usize = 8;
const LOADS: usize = 20;
const RUNS: usize = 1_000;

// The refusal of a local read, by code; 0 for none.
static LOCAL_READ: [u8; 256] = {
    let mut table = [0; 256];
    table[5] = 17;
    table[14] = 26;
    table
};

#[inline(never)]
fn look_up(codes: &[u8]) -> u8 {
    for &code in codes {
        let refusal = LOCAL_READ[code as usize];
        if refusal != 0 {
            return refusal;
        }
    }
    0
}

// The buffers of a run.
struct Lent {
    memory: Buffers,
    frames: Vec<u32>,
}

impl Lent {
    fn new() -> Lent {
        Lent { memory: Buffers::new(), frames: vec![0; FRAMES] }
    }

    // The nanoseconds that a list takes; none of its answers is written.
    fn time(&mut self, words: &[u32], ends: &[u32]) -> f64 {
        let start = Instant::now();
        let reply = black_box(self.memory.run_list(&mut self.frames, black_box(words), black_box(ends), &mut []));
        let taken = start.elapsed().as_nanos() as f64;
        assert!(reply.refusal == 0 && reply.at == 0);
        taken
    }
}

// Requests by their words, and where each ends.
fn list(requests: &[Vec<u32>]) -> (Vec<u32>, Vec<u32>) {
    let words = requests.concat();
    let ends = requests.iter().scan(0, |end, request| {
        *end += request.len() as u32;
        Some(*end)
    });
    (words, ends.collect())
}

const ADDRESS: u32 = 0x1000;

fn through(kind: u32, node: usize, extra: u32) -> u32 {
    kind << 28 | (node as u32) << 9 | 1 << 8 | extra
}

// A load of all bytes through the last node.
fn load() -> Vec<u32> {
    vec![through(2, NODES - 1, 0), 0, ADDRESS, BYTES as u32]
}

// An allocation, and nodes each of which is a child of the one before it, by retags of this kind with these settings and this layout.
fn chain(extra: u32, flags: u32, layout: &[u32]) -> Vec<Vec<u32>> {
    let retag = |parent| [&[through(4, parent, extra), 0, ADDRESS, flags | layout.len() as u32], layout].concat();
    std::iter::once(vec![1, 0, ADDRESS, BYTES as u32]).chain((0..NODES - 1).map(retag)).collect()
}

// The best of many short runs of each, in turn: what the machine does when nothing disturbs it.
fn compare(name: &str, before: Vec<Vec<u32>>) {
    let mut lent = Lent::new();
    let (words, ends) = list(&before);
    let (all_words, all_ends) = list(&[before, vec![load(); LOADS]].concat());
    lent.time(&words, &ends);
    let codes = lent.memory.codes.clone();
    assert_eq!(lent.memory.parents[..NODES], [0, 0, 1, 2, 3, 4, 5, 6], "{name}: a retag was refused");
    lent.time(&all_words, &all_ends);
    assert_eq!(lent.memory.codes, codes, "{name}: a load changed a code");
    let count = BYTES * NODES;
    let (mut with, mut without, mut plain) = (f64::INFINITY, f64::INFINITY, f64::INFINITY);
    for _ in 0..RUNS {
        with = with.min(lent.time(&all_words, &all_ends));
        without = without.min(lent.time(&words, &ends));
        let start = Instant::now();
        for _ in 0..LOADS {
            assert_eq!(black_box(look_up(black_box(&codes[..count]))), 0);
        }
        plain = plain.min(start.elapsed().as_nanos() as f64);
    }
    let codes_read = (LOADS * count) as f64;
    let (proved, plain) = ((with - without) / codes_read, plain / codes_read);
    println!("{name}: proved check pass {proved:.2} ns a code, plain look-up {plain:.2} ns a code, ratio {:.2}", proved / plain);
}

fn main() {
    // mutable references of no bytes: their rows are Reserved, behind the root's
    compare("one code a row", chain(1, 3 << 29, &[0, 0]));
    // shared references with cells, in no order that a branch could learn: their rows have Cell and Frozen
    let mut seed = 1u32;
    let mut end = 0;
    let cells: Vec<u32> = std::iter::from_fn(|| {
        seed = seed.wrapping_mul(1_664_525).wrapping_add(1_013_904_223);
        let (offset, size) = (end + 1 + (seed >> 28), 1 + (seed >> 24 & 7));
        end = offset + size;
        (end <= BYTES as u32).then_some(offset << 16 | size)
    })
    .take(255)
    .collect();
    let header = (cells.len() as u32) << 22 | BYTES as u32;
    compare("mixed codes   ", chain(0, 1 << 29, &[vec![0, header], cells].concat()));
}
