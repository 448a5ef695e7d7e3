//! One request on the Rust's memory: the port's own refusals before and after the call, the Rust's own ones
//! from its messages, and nothing changed by a refusal.

use super::numbering::Numbering;
use super::refusals::{failure, set_message, Failure};
use super::release;
use super::request::{self, Refusal, Request};
use super::targets::{width, AnySize};
use super::*;
use libspecr::hidden::{collect_if_large, propose};

pub type RustMemory<T> = TreeBorrowsMemory<T>;

const MOST_ALLOCATIONS: usize = 128;
const MOST_WORDS: u64 = 4096;
pub const MOST_NODES: usize = 1024;
pub const MOST_CODES: u64 = 32768;
pub const MOST_ENTRIES: usize = 64;

/// The Rust's values: both are `Copy`, so a refusal is undone by putting the old ones back.
#[derive(GcCompat, Clone, Copy)]
pub struct Held<T: Target> {
    pub memory: RustMemory<T>,
    pub frames: [Option<TreeBorrowsFrameExtra>; 32],
}

/// The third field of an answer.
pub enum Value {
    Nothing,
    Pointer(Option<(usize, usize)>),
    Words(Vec<u32>),
    Leak(usize),
}

pub type Answer = std::result::Result<Value, Failure>;

#[derive(Clone, Copy, Default)]
pub struct Options {
    /// Have the Rust loop over every count of empty elements.
    pub whole_counts: bool,
    /// Print what the Rust says to standard error.
    pub messages: bool,
    /// Where the port refuses with 3 or 14 and the Rust panics, see to it that it does.
    pub confirm_panics: bool,
    /// Of the Rust by itself, print the answers alone.
    pub no_memory: bool,
}

pub struct State<T: Target> {
    pub held: Held<T>,
    pub numbers: Vec<Numbering>,
    pub options: Options,
}

impl<T: Target> State<T> {
    pub fn new(options: Options) -> Self {
        let held = Held { memory: RustMemory::new(), frames: [None; 32] };
        State { held, numbers: Vec::new(), options }
    }

    /// Answer one request. The words are those that `cut` found.
    pub fn step(&mut self, words: Option<&[u32]>) -> Answer {
        let before = self.held;
        set_message(None);
        let answer = self.request(words);
        if answer.is_err() {
            self.held = before;
        }
        collect_if_large(&mut self.held);
        answer
    }

    /// How long so many repetitions of a request take, each from the memory as it stands. Compacting the
    /// arena is counted, as it stands for the original's garbage collection.
    pub fn time_of(&mut self, words: Option<&[u32]>, times: u32) -> std::time::Duration {
        let nodes: Vec<usize> = self.numbers.iter().map(|numbering| numbering.place.len()).collect();
        let start = std::time::Instant::now();
        for _ in 0..times {
            let before = self.held;
            let answer = self.request(words);
            self.held = before;
            self.numbers.truncate(nodes.len());
            if let Ok(Value::Pointer(Some((allocation, _)))) = answer {
                if allocation < nodes.len() && self.numbers[allocation].place.len() > nodes[allocation] {
                    self.numbers[allocation].remove_newest();
                }
            }
            collect_if_large(&mut self.held);
        }
        start.elapsed()
    }

    fn request(&mut self, words: Option<&[u32]>) -> Answer {
        match request::decode(words.ok_or(2)?, width::<T>())? {
            Request::Allocate { kind, exponent, address, size } => {
                self.allocate(kind, exponent, address, size)
            }
            Request::Deallocate { pointer, kind, exponent, size } => {
                let pointer = self.thin(pointer)?;
                let (size, align) = (Size::from_bytes(size).unwrap(), align(exponent));
                let done = self.held.memory.deallocate(pointer, allocation_kind(kind), size, align);
                self.nothing(done, AccessKind::Write)
            }
            Request::Load { pointer, exponent, len } => {
                let pointer = self.thin(pointer)?;
                let len = Size::from_bytes(len).unwrap();
                let loaded = self.held.memory.load(pointer, len, align(exponent));
                let bytes = loaded.map_err(|info| failure(info, AccessKind::Read))?;
                if bytes.is_empty() {
                    return Ok(Value::Nothing);
                }
                Ok(Value::Words(bytes.iter().map(|byte| self.word(byte)).collect()))
            }
            Request::Store { pointer, exponent, words } => {
                let pointer = self.thin(pointer)?;
                let bytes: Vec<_> = words.iter().map(|&word| self.byte(word)).collect();
                let stored = self.held.memory.store(pointer, List::from_slice(&bytes), align(exponent));
                self.nothing(stored, AccessKind::Write)
            }
            Request::Retag { pointer, retag } => self.retag(pointer, retag),
            Request::NewCall { frame } => {
                if self.held.frames[frame].is_some() {
                    return Err(2.into());
                }
                self.held.frames[frame] = Some(RustMemory::<T>::new_call());
                Ok(Value::Nothing)
            }
            Request::EndCall { frame } => self.end_call(frame),
            Request::Dereferenceable { pointer, len } => {
                let pointer = self.thin(pointer)?;
                let len = Size::from_bytes(len).unwrap();
                let tested = self.held.memory.dereferenceable(pointer, len);
                self.nothing(tested, AccessKind::Read)
            }
            Request::SignedDereferenceable { pointer, len } => {
                let pointer = self.thin(pointer)?;
                let tested = self.held.memory.signed_dereferenceable(pointer, Int::from(len));
                self.nothing(tested, AccessKind::Read)
            }
            Request::LeakCheck => match self.held.memory.leak_check() {
                Err(TerminationInfo::MemoryLeak) => Err(Failure::Refused(25, Value::Leak(self.first_leak()))),
                other => self.nothing(other, AccessKind::Read),
            },
        }
    }

    fn nothing(&self, done: Result, access: AccessKind) -> Answer {
        done.map(|()| Value::Nothing).map_err(|info| failure(info, access))
    }

    /// 5 is an empty choice. 15 comes after it, and the Rust's own test for a too large size with it.
    fn allocate(&mut self, kind: u32, exponent: u32, address: u64, size: u32) -> Answer {
        propose(address as i128);
        let bytes = Size::from_bytes(size).unwrap();
        match self.held.memory.allocate(allocation_kind(kind), bytes, align(exponent)) {
            libspecr::NdResult::NoChoice => return Err(5.into()),
            libspecr::NdResult::Failed(_) if !self.is_picked(bytes, align(exponent)) => return Err(5.into()),
            libspecr::NdResult::Failed(info) => return Err(failure(info, AccessKind::Read)),
            libspecr::NdResult::Done(_) => {}
        }
        // The sums hold the new allocation already.
        if self.exceeds() {
            return Err(15.into());
        }
        self.numbers.push(Numbering::root());
        Ok(Value::Pointer(Some((self.numbers.len() - 1, 0))))
    }

    /// Whether `pick` chooses the proposed address for a size that the Rust finds too large before it is asked.
    fn is_picked(&self, size: Size, align: Align) -> bool {
        let (allocations, _phantom) = (self.held.memory.mem.allocations, std::marker::PhantomData);
        let mut memory: BasicMemory<AnySize<T>, _, _> = BasicMemory { allocations, _phantom };
        let root = Node { children: List::new(), permissions: List::new(), protected: Protected::No };
        let extra = TreeBorrowsAllocationExtra { root };
        let allocated = memory.allocate(AllocationKind::Stack, size, align, Path::new(), extra);
        matches!(allocated, libspecr::NdResult::Done(_))
    }

    /// 4 for all entries, then the Rust. No end call of a run is refused by either: only a memory and frames
    /// that were given from outside are.
    fn end_call(&mut self, frame: usize) -> Answer {
        let Some(extra) = self.held.frames[frame] else { return Err(2.into()) };
        let entries = self.entries(extra);
        if !entries.iter().all(|&(allocation, node)| self.is_made(allocation, node)) {
            return Err(4.into());
        }
        // An entry may have been given before its node was made: by now all of them have paths.
        let paths: Vec<_> = entries.iter().map(|&(a, n)| self.provenance(a, n)).collect();
        let extra = TreeBorrowsFrameExtra { protectors: List::from_slice(&paths) };
        let before = self.held;
        self.held.frames[frame] = None;
        let memory = &mut self.held.memory;
        match std::panic::catch_unwind(std::panic::AssertUnwindSafe(|| memory.end_call(extra))) {
            Ok(Ok(())) => Ok(Value::Nothing),
            _ => Err(release::why_refused(before, extra)),
        }
    }

    fn is_made(&self, allocation: usize, node: usize) -> bool {
        self.numbers.get(allocation).is_some_and(|numbering| node < numbering.place.len())
    }

    pub fn allocation(&self, number: usize) -> Allocation<Path, TreeBorrowsAllocationExtra> {
        self.held.memory.mem.allocations.index_at(number)
    }

    fn first_leak(&self) -> usize {
        let leaks = |a: &Allocation<_, TreeBorrowsAllocationExtra>| a.live && a.kind == AllocationKind::Heap;
        let allocations = self.held.memory.mem.allocations;
        allocations.iter().position(|a| leaks(&a)).expect("the Rust found a leak")
    }

    /// 15 after an allocation: the memory as the Rust made it is larger than the port's.
    fn exceeds(&self) -> bool {
        let allocations = self.held.memory.mem.allocations;
        let nodes: usize = self.numbers.iter().map(|n| n.place.len()).sum();
        let words: u64 = allocations.iter().map(|a| a.data.len().index() as u64).sum();
        let newest = allocations.index_at(allocations.len() - 1).data.len().index() as u64;
        allocations.len().index() > MOST_ALLOCATIONS
            || words > MOST_WORDS
            || nodes + 1 > MOST_NODES
            || self.codes() + newest > MOST_CODES
    }

    /// The codes of all numbered nodes.
    pub fn codes(&self) -> u64 {
        let sizes = self.held.memory.mem.allocations.iter().map(|a| a.data.len().index() as u64);
        self.numbers.iter().zip(sizes).map(|(n, size)| n.place.len() as u64 * size).sum()
    }

    /// The Rust's pointer, or 4.
    pub fn thin(
        &self,
        pointer: request::Pointer,
    ) -> std::result::Result<ThinPointer<TreeBorrowsProvenance>, Refusal> {
        let addr = Int::from(pointer.address);
        let Some((allocation, node)) = pointer.provenance else {
            return Ok(ThinPointer { addr, provenance: None });
        };
        if !self.is_made(allocation, node) {
            return Err(4);
        }
        Ok(ThinPointer { addr, provenance: Some(self.provenance(allocation, node)) })
    }

    /// What the Rust names a node by. One that was never made, which a fragment or a frame may name, gets a
    /// path that no node has: its number, below zero.
    pub fn provenance(&self, allocation: usize, node: usize) -> TreeBorrowsProvenance {
        let path = if self.is_made(allocation, node) {
            self.numbers[allocation].path(node)
        } else {
            list![-Int::from(node + 1)]
        };
        (AllocId(Int::from(allocation)), path)
    }

    /// The node's number again.
    fn node_number(&self, allocation: usize, path: Path) -> usize {
        match path.get(0) {
            Some(first) if first < 0 => (-first).index() - 1,
            _ => self.numbers[allocation].node(path),
        }
    }

    /// A byte word as the Rust's byte.
    pub fn byte(&self, word: u32) -> AbstractByte<TreeBorrowsProvenance> {
        if word >> 31 == 0 {
            return AbstractByte::Uninit;
        }
        let value = word as u8;
        if word >> 30 & 1 == 0 {
            return AbstractByte::Init(value, None);
        }
        let position = Int::from(word >> 27 & 7);
        let provenance = self.provenance((word >> 20 & 0x7f) as usize, (word >> 8 & 0xfff) as usize);
        AbstractByte::Init(value, Some(ProvenanceFrag { provenance, position }))
    }

    pub fn word(&self, byte: AbstractByte<TreeBorrowsProvenance>) -> u32 {
        match byte {
            AbstractByte::Uninit => 0,
            AbstractByte::Init(value, None) => 1 << 31 | value as u32,
            AbstractByte::Init(value, Some(frag)) => {
                let allocation = frag.provenance.0 .0.index();
                let node = self.node_number(allocation, frag.provenance.1) as u32;
                let position = frag.position.index() as u32;
                3 << 30 | position << 27 | (allocation as u32) << 20 | node << 8 | value as u32
            }
        }
    }

    /// A frame's entries in numbers.
    pub fn entries(&self, frame: TreeBorrowsFrameExtra) -> Vec<(usize, usize)> {
        let number = |(id, path): TreeBorrowsProvenance| {
            let allocation = id.0.index();
            (allocation, self.node_number(allocation, path))
        };
        frame.protectors.iter().map(number).collect()
    }
}

pub fn align(exponent: u32) -> Align {
    Align::from_bytes(1u64 << exponent).unwrap()
}

pub fn allocation_kind(extra: u32) -> AllocationKind {
    use AllocationKind::*;
    [Stack, Heap, Global, Function, VTable][extra as usize]
}
