// The mixed run: requests of all kinds but deallocations and leak checks, over 30 allocations. They are drawn by chance and without a look at the
// memory; the library makes them once, and what it refuses is left out. A refused request leaves everything as it was, so the rest is accepted.
use crate::list::{Lent, List, Place, Reference, allocate, end_call, new_call, retag, start, through};

const ALLOCATIONS: u32 = 30;
const CALLS: u32 = 325;
/// Retags at the start of a call, each of which makes a node, and what is drawn behind them.
const RETAGS: u32 = 3;
const DRAWN: u32 = 1_250;

/// Numbers by chance, the same in every process.
struct Chance(u64);

impl Chance {
    fn below(&mut self, bound: u32) -> u32 {
        self.0 = self.0.wrapping_mul(6_364_136_223_846_793_005).wrapping_add(1_442_695_040_888_963_407);
        (self.0 >> 33) as u32 % bound
    }
}

struct Mixed {
    chance: Chance,
    list: List,
    /// of each allocation: its bytes, and how many nodes it has
    sizes: Vec<u32>,
    nodes: Vec<u32>,
    /// what the open call was given: allocation, node, and the kind of reference
    given: Vec<(u32, u32, Reference)>,
}

impl Mixed {
    fn new() -> Mixed {
        let mut mixed = Mixed { chance: Chance(1), list: List::default(), sizes: Vec::new(), nodes: Vec::new(), given: Vec::new() };
        for a in 0..ALLOCATIONS {
            let size = 8 * (1 + mixed.chance.below(6));
            mixed.list.add(&allocate(a, size));
            mixed.sizes.push(size);
            mixed.nodes.push(1);
        }
        mixed
    }

    /// A call: what it is given, and what is done while it is open.
    fn call(&mut self, frame: u32) {
        self.list.add(&new_call(frame));
        self.given.clear();
        for _ in 0..RETAGS {
            self.give(frame);
        }
        for _ in 0..DRAWN {
            self.draw();
        }
        self.list.add(&end_call(frame));
    }

    /// A reference to all bytes of an allocation or to eight, through the root or through what was given just before; it mostly gets a protector.
    /// Nothing is written between these retags and no older protector is left, so none of them is refused.
    fn give(&mut self, frame: u32) {
        let kind = [Reference::Shared, Reference::Mutable, Reference::Mutable, Reference::Box][self.chance.below(4) as usize];
        let (a, parent) = match self.given.last() {
            Some(&(a, node, _)) if self.chance.below(3) == 0 => (a, node),
            _ => (self.chance.below(ALLOCATIONS), 0),
        };
        let size = self.sizes[a as usize];
        let (offset, bytes) = if self.chance.below(5) < 3 { (0, size) } else { (8 * self.chance.below(size / 8), 8) };
        let frame = (self.chance.below(10) < 7).then_some(frame);
        self.list.add(&retag(kind, Place { allocation: a, node: parent, offset }, bytes, frame));
        self.given.push((a, self.nodes[a as usize], kind));
        self.nodes[a as usize] += 1;
    }

    fn draw(&mut self) {
        match self.chance.below(1000) {
            0..520 => self.access_to_given(),
            520..882 => self.access_to_any(),
            882..937 => self.dereferenceable(),
            937..962 => self.signed_dereferenceable(),
            962..989 => self.raw(),
            _ => self.empty_call(),
        }
    }

    /// Through what the call was given: more than half of the accesses through mutable references and boxes are stores.
    fn access_to_given(&mut self) {
        let (a, node, kind) = self.given[self.chance.below(RETAGS) as usize];
        let writes = kind != Reference::Shared && self.chance.below(9) < 5;
        self.access(a, node, writes);
    }

    /// Through the root or one of the last nodes of any allocation: mostly loads.
    fn access_to_any(&mut self) {
        let a = self.chance.below(ALLOCATIONS);
        let last = self.nodes[a as usize] - 1;
        let node = if self.chance.below(2) == 0 { 0 } else { last - self.chance.below(4).min(last) };
        let writes = self.chance.below(16) == 0;
        self.access(a, node, writes);
    }

    /// A load or a store of 1, 2, 4 or 8 aligned bytes.
    fn access(&mut self, a: u32, node: u32, writes: bool) {
        let exponent = self.chance.below(4);
        let bytes = 1 << exponent;
        let place = Place { allocation: a, node, offset: bytes * self.chance.below(self.sizes[a as usize] / bytes) };
        let mut request = [&through(2 + writes as u32, place, exponent << 3)[..], &[bytes]].concat();
        if writes {
            let pointer = bytes == 8 && self.chance.below(7) == 0;
            request.extend((0..bytes).map(|position| self.byte(pointer, position)));
        }
        self.list.add(&request);
    }

    /// A byte of a number or of a pointer.
    fn byte(&mut self, pointer: bool, position: u32) -> u32 {
        let value = self.chance.below(256);
        if pointer { 3 << 30 | position << 27 | self.chance.below(ALLOCATIONS) << 20 | value } else { 1 << 31 | value }
    }

    /// Some bytes from the start on.
    fn dereferenceable(&mut self) {
        let (place, bytes) = self.bytes();
        self.list.add(&[&through(7, place, 0)[..], &[bytes]].concat());
    }

    /// The same bytes, from their end back.
    fn signed_dereferenceable(&mut self) {
        let (place, bytes) = self.bytes();
        self.list.add(&[&through(8, Place { offset: bytes, ..place }, 0)[..], &[bytes.wrapping_neg()]].concat());
    }

    fn bytes(&mut self) -> (Place, u32) {
        let a = self.chance.below(ALLOCATIONS);
        let node = self.chance.below(self.nodes[a as usize]);
        (start(a, node), self.chance.below(self.sizes[a as usize] + 1))
    }

    /// A retag of a raw pointer, which makes no node.
    fn raw(&mut self) {
        let (place, _) = self.bytes();
        self.list.add(&[&through(4, place, 3)[..], &[0]].concat());
    }

    /// A call that is given nothing, in a frame that no other call has.
    fn empty_call(&mut self) {
        let frame = 8 + self.chance.below(8);
        self.list.add(&new_call(frame));
        self.list.add(&end_call(frame));
    }
}

/// The accepted requests of a list.
fn accepted(list: &List) -> List {
    let mut lent = Lent::new(list.ends.len() * 16);
    assert!(lent.run(list).whole == 1, "the answers do not fit");
    let (mut kept, mut at) = (List::default(), 0);
    for (&end, refusal) in list.ends.iter().zip(lent.refusals(list)) {
        if refusal == 0 {
            kept.add(&list.words[at..end as usize]);
        }
        at = end as usize;
    }
    kept
}

pub fn run() -> List {
    let mut mixed = Mixed::new();
    for call in 0..CALLS {
        mixed.call(call % 8);
    }
    accepted(&mixed.list)
}
