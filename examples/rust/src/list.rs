//! A whole run as a list of requests.

use crate::buffers::Buffers;
use crate::memory::{Frame, Memory};
use crate::pointee::Pointee;
use crate::pointer::{Align, MemoryKind, Pointer, PointerKind, Provenance};
use crate::raw::{self, Entry};
use crate::refusal::Refusal;
use crate::width::Width;
use std::fmt;

/// Requests, in the words of docs/FORMAT.md. What a later request names is known beforehand: allocations are
/// numbered as they are made, and nodes in each allocation, from 0, its root. Pointers have 64 bits until the
/// memory is emptied with another width.
#[derive(Clone, Debug, Default, PartialEq, Eq)]
pub struct List {
    words: Vec<u32>,
    ends: Vec<u32>,
}

/// One of the 32 frames of a run.
#[derive(Clone, Copy, Debug, PartialEq, Eq, Hash)]
pub struct FrameNumber(u32);

impl FrameNumber {
    /// Up to 31.
    pub fn new(number: u32) -> Option<FrameNumber> {
        (number < FRAME_COUNT).then_some(FrameNumber(number))
    }
}

const FRAME_COUNT: u32 = 32;

/// What an accepted request gives.
#[derive(Clone, Debug, PartialEq, Eq)]
pub enum Given {
    Nothing,
    Pointer(Provenance),
    Words(Vec<u32>),
}

/// Why a request is refused.
#[derive(Clone, Copy, Debug, PartialEq, Eq, Hash)]
pub struct Refused {
    pub refusal: Refusal,
    /// What a leak check names: the live heap allocation with the lowest number.
    pub leak: Option<u32>,
}

impl From<Refusal> for Refused {
    fn from(refusal: Refusal) -> Refused {
        Refused { refusal, leak: None }
    }
}

impl fmt::Display for Refused {
    fn fmt(&self, f: &mut fmt::Formatter) -> fmt::Result {
        match self.leak {
            Some(allocation) => write!(f, "{}: allocation {allocation} is live", self.refusal),
            None => self.refusal.fmt(f),
        }
    }
}

impl std::error::Error for Refused {}

pub type Answer = Result<Given, Refused>;

/// What a list comes to.
#[derive(Clone, Debug, PartialEq, Eq)]
pub struct Outcome {
    /// One for each request; it goes on after a refusal.
    pub answers: Vec<Answer>,
    pub memory: Memory,
    frames: Vec<u32>,
}

/// Kinds of requests.
#[derive(Clone, Copy)]
enum Kind {
    Allocate,
    Deallocate,
    Load,
    Store,
    Retag,
    NewCall,
    EndCall,
    Dereferenceable,
    SignedDereferenceable,
    LeakCheck,
    Empty = 15,
}

const NO_POINTER: Pointer = Pointer { address: 0, provenance: None };

/// The name in a request's first word. One that does not fit names what no memory has, and so does what
/// stands for it.
fn name_bits(provenance: Option<Provenance>) -> u32 {
    match provenance {
        None => 0,
        Some(Provenance { allocation, node }) if allocation < 1 << 7 && node < 1 << 12 => {
            allocation << 21 | node << 9 | 1 << 8
        }
        Some(_) => ((1 << 12) - 1) << 9 | 1 << 8,
    }
}

impl List {
    pub fn new() -> List {
        List::default()
    }

    /// How many requests there are.
    pub fn len(&self) -> usize {
        self.ends.len()
    }

    pub fn is_empty(&self) -> bool {
        self.ends.is_empty()
    }

    /// A request by its words, whatever they are.
    pub fn push(&mut self, words: &[u32]) {
        self.words.extend(words);
        self.ends.push(u32::try_from(self.words.len()).expect("a list has fewer than 2^32 words"));
    }

    /// An exponent above 31 stands as 31, which is too large as well.
    fn request(
        &mut self,
        kind: Kind,
        pointer: Pointer,
        exponent: u32,
        extra: u32,
        fourth: u32,
        behind: &[u32],
    ) {
        let first = (kind as u32) << 28 | name_bits(pointer.provenance) | exponent.min(31) << 3 | extra;
        self.words.extend([first, (pointer.address >> 32) as u32, pointer.address as u32, fourth]);
        self.push(behind);
    }

    pub fn allocate(&mut self, kind: MemoryKind, size: u32, align: Align, address: u64) {
        let proposed = Pointer { address, provenance: None };
        self.request(Kind::Allocate, proposed, align.exponent(), kind as u32, size, &[]);
    }

    pub fn deallocate(&mut self, pointer: Pointer, kind: MemoryKind, size: u32, align: Align) {
        self.request(Kind::Deallocate, pointer, align.exponent(), kind as u32, size, &[]);
    }

    pub fn load(&mut self, pointer: Pointer, length: u32, align: Align) {
        self.request(Kind::Load, pointer, align.exponent(), 0, length, &[]);
    }

    pub fn store(&mut self, pointer: Pointer, bytes: &[u32], align: Align) {
        self.request(Kind::Store, pointer, align.exponent(), 0, bytes.len() as u32, bytes);
    }

    pub fn retag(&mut self, pointer: Pointer, kind: PointerKind, pointee: &Pointee) {
        self.retag_with(pointer, kind, pointee, 0);
    }

    /// An argument of the call with this frame.
    pub fn retag_argument(
        &mut self,
        frame: FrameNumber,
        pointer: Pointer,
        kind: PointerKind,
        pointee: &Pointee,
    ) {
        self.retag_with(pointer, kind, pointee, 1 << 31 | frame.0 << 23);
    }

    /// `entry` is what the fourth word says of the call. Only references and boxes have settings and a
    /// layout.
    fn retag_with(&mut self, pointer: Pointer, kind: PointerKind, pointee: &Pointee, entry: u32) {
        let extra = kind as u32;
        match kind {
            PointerKind::SharedReference | PointerKind::MutableReference | PointerKind::Box => {
                let layout = pointee.layout();
                let flags = (pointee.unpin as u32) << 30 | (pointee.freeze as u32) << 29;
                self.request(Kind::Retag, pointer, 0, extra, entry | flags | layout.len() as u32, &layout);
            }
            PointerKind::Raw | PointerKind::Function | PointerKind::VTable => {
                self.request(Kind::Retag, pointer, 0, extra, 0, &[]);
            }
        }
    }

    pub fn new_call(&mut self, frame: FrameNumber) {
        self.request(Kind::NewCall, NO_POINTER, 0, 0, frame.0, &[]);
    }

    pub fn end_call(&mut self, frame: FrameNumber) {
        self.request(Kind::EndCall, NO_POINTER, 0, 0, frame.0, &[]);
    }

    pub fn dereferenceable(&mut self, pointer: Pointer, length: u32) {
        self.request(Kind::Dereferenceable, pointer, 0, 0, length, &[]);
    }

    pub fn signed_dereferenceable(&mut self, pointer: Pointer, length: i32) {
        self.request(Kind::SignedDereferenceable, pointer, 0, 0, length as u32, &[]);
    }

    pub fn leak_check(&mut self) {
        self.request(Kind::LeakCheck, NO_POINTER, 0, 0, 0, &[]);
    }

    /// Forgets all allocations, so that the next one is 0 again, closes all frames, and sets the width.
    pub fn empty(&mut self, width: Width) {
        self.request(Kind::Empty, NO_POINTER, 0, width as u32, 0, &[]);
    }

    /// The run as the program `verdict` reads it. It stops at the first refusal.
    pub fn to_bytes(&self) -> Vec<u8> {
        self.words.iter().flat_map(|word| word.to_be_bytes()).collect()
    }

    /// Makes the requests, one after the other, from the empty memory of 64 bits with no frame open.
    pub fn run(&self) -> Outcome {
        let mut buffers = Buffers::new();
        let mut frames = vec![0; raw::FRAMES];
        let mut words = vec![0; self.room()];
        let reply = buffers.run_list(&mut frames, &self.words, &self.ends, &mut words);
        debug_assert_eq!((reply.refusal, reply.whole), (0, 1));
        let answers = answers(&words[..reply.at]);
        Outcome { answers, memory: Memory::of(buffers), frames }
    }

    /// Words that all answers fit in: five for each, and those that a load may give.
    fn room(&self) -> usize {
        let starts = [0].iter().chain(&self.ends);
        let requests = starts.zip(&self.ends).map(|(&start, &end)| &self.words[start as usize..end as usize]);
        requests.map(|words| 5 + most_loaded(words)).sum()
    }
}

/// A load gives as many words as it asks for, and never more than a memory has.
fn most_loaded(request: &[u32]) -> usize {
    match *request {
        [first, _, _, length, ..] if first >> 28 == Kind::Load as u32 => (length as usize).min(raw::WORDS),
        _ => 0,
    }
}

/// One answer behind the other.
fn answers(mut words: &[u32]) -> Vec<Answer> {
    let mut answers = Vec::new();
    while let [refusal, gives, first, second, loaded, rest @ ..] = words {
        let (loaded, rest) = rest.split_at(*loaded as usize);
        words = rest;
        let named = Provenance { allocation: *first, node: *second };
        answers.push(answer(*refusal, *gives as u8, named, loaded));
    }
    answers
}

fn answer(refusal: u32, gives: u8, named: Provenance, loaded: &[u32]) -> Answer {
    let leak = (gives == raw::LEAK).then_some(named.allocation);
    Refusal::check(refusal).map_err(|refusal| Refused { refusal, leak })?;
    Ok(match (gives, loaded) {
        (raw::POINTER, _) => Given::Pointer(named),
        (_, []) => Given::Nothing,
        _ => Given::Words(loaded.to_vec()),
    })
}

impl Outcome {
    /// A frame that is open at the end, to go on with in the memory.
    pub fn frame(&self, frame: FrameNumber) -> Option<Frame> {
        let numbers = &self.frames[frame.0 as usize * (1 + raw::ENTRIES)..][..1 + raw::ENTRIES];
        let count = (numbers[0] as usize).checked_sub(1)?;
        let entry = |word: &u32| Entry { allocation: word >> 12, node: word & 0xfff };
        Some(Frame::of(numbers[1..1 + count].iter().map(entry)))
    }
}
