// Requests by their words, lists of them, and the buffers in which the library makes a list.
use tree_borrows::Buffers;
use tree_borrows::raw::{FRAMES, ListReply};

/// Requests by their words, and where each ends.
#[derive(Clone, Default)]
pub struct List {
    pub words: Vec<u32>,
    pub ends: Vec<u32>,
}

impl List {
    pub fn add(&mut self, request: &[u32]) {
        self.words.extend(request);
        self.ends.push(self.words.len() as u32);
    }

    /// The run, as a program reads it.
    pub fn bytes(&self) -> Vec<u8> {
        self.words.iter().flat_map(|w| w.to_be_bytes()).collect()
    }
}

/// The buffers of a list.
pub struct Lent {
    memory: Buffers,
    frames: Vec<u32>,
    answers: Vec<u32>,
}

impl Lent {
    /// With room for so many words of answers.
    pub fn new(room: usize) -> Lent {
        Lent { memory: Buffers::new(), frames: vec![0; FRAMES], answers: vec![0; room] }
    }

    pub fn run(&mut self, list: &List) -> ListReply {
        self.memory.run_list(&mut self.frames, &list.words, &list.ends, &mut self.answers)
    }

    /// The refusals in the answers to the last list; 0 for an accepted request.
    pub fn refusals(&self, list: &List) -> Vec<u32> {
        let mut at = 0;
        let refusal = |_| {
            let refusal = self.answers[at];
            at += 5 + self.answers[at + 4] as usize;
            refusal
        };
        list.ends.iter().map(refusal).collect()
    }
}

/// A pointer: an allocation, one of its nodes, and how far it is from the allocation's start.
#[derive(Clone, Copy)]
pub struct Place {
    pub allocation: u32,
    pub node: u32,
    pub offset: u32,
}

/// To the start of an allocation.
pub fn start(allocation: u32, node: u32) -> Place {
    Place { allocation, node, offset: 0 }
}

/// The kinds of pointers whose retags make a node. The rows of requests.rs have one of them.
#[allow(dead_code)]
#[derive(Clone, Copy, PartialEq)]
pub enum Reference {
    Shared,
    Mutable,
    Box,
}

/// The address of an allocation.
fn address(allocation: u32) -> u32 {
    0x1000 * (allocation + 1)
}

/// The first three words of a request through a pointer.
pub fn through(kind: u32, place: Place, extra: u32) -> [u32; 3] {
    let first = kind << 28 | place.allocation << 21 | place.node << 9 | 1 << 8 | extra;
    [first, 0, address(place.allocation) + place.offset]
}

/// The allocation of that number, on the heap.
pub fn allocate(allocation: u32, bytes: u32) -> Vec<u32> {
    vec![1, 0, address(allocation), bytes]
}

pub fn load(place: Place, bytes: u32) -> Vec<u32> {
    [&through(2, place, 0)[..], &[bytes]].concat()
}

pub fn store(place: Place, bytes: u32) -> Vec<u32> {
    let mut request = [&through(3, place, 0)[..], &[bytes]].concat();
    request.resize(4 + bytes as usize, 0x8000_0007);
    request
}

/// A reference to so many bytes, protected in a frame or not.
pub fn retag(reference: Reference, place: Place, bytes: u32, frame: Option<u32>) -> Vec<u32> {
    let entry = frame.map_or(0, |frame| 1 << 31 | frame << 23);
    [&through(4, place, reference as u32)[..], &[entry | 0x6000_0002, 0, bytes]].concat()
}

pub fn new_call(frame: u32) -> Vec<u32> {
    vec![5 << 28, 0, 0, frame]
}

pub fn end_call(frame: u32) -> Vec<u32> {
    vec![6 << 28, 0, 0, frame]
}

/// Allocations of so many bytes with so many nodes: each a child of the root, or of the one before it.
pub fn trees(allocations: u32, bytes: u32, nodes: u32, chain: bool) -> List {
    let mut list = List::default();
    for a in 0..allocations {
        list.add(&allocate(a, bytes));
        for n in 1..nodes {
            list.add(&retag(Reference::Mutable, start(a, if chain { n - 1 } else { 0 }), 0, None));
        }
    }
    list
}
