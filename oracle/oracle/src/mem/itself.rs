//! The Rust asked by itself, in its own words. Each request is one call of `TreeBorrowsMemory`: the driver answers
//! nothing before it, undoes nothing after it, and turns no message into a number. With it every difference
//! between document 01's answers and the Rust's can be seen.
//!
//! The input is text, a line for each call: a request's words in hexadecimal, or a call by name where a run has no
//! words for it. `#` starts a comment.

use super::layout;
use super::numbering::Numbering;
use super::print;
use super::request::{self, Request, Retag};
use super::retag::call;
use super::state::{align, allocation_kind, Options, RustMemory, State};
use super::targets::{on, AnyState, Bits16, Bits32};
use super::*;
use libspecr::hidden::propose;
use std::fmt::Write;
use std::panic::{catch_unwind, AssertUnwindSafe};

type Text = std::string::String;

/// What the Rust does, in words.
enum Said {
    Accepted(Text),
    /// Undefined behaviour, a leak or a panic: the program that made the call ends there.
    Ended(Text),
    /// The words stand for no call, for this reason.
    NoCall(&'static str),
}

use Said::{Accepted, Ended, NoCall};

/// The Rust writes a mask down byte by byte; longer ones are not asked for.
const LONGEST_MASK: u64 = 1 << 20;

pub fn run(input: &str, options: Options) -> Text {
    let mut state = AnyState::new(64, options);
    let mut out = Text::new();
    let lines = input.lines().map(|line| line.split('#').next().unwrap_or("").trim());
    for (index, line) in lines.filter(|line| !line.is_empty()).enumerate() {
        let said = catch_unwind(AssertUnwindSafe(|| state.ask(line)));
        let (text, goes_on) = match said {
            Ok(Accepted(text)) => (std::format!("accepted {text}"), true),
            Ok(Ended(text)) => (text, false),
            Ok(NoCall(why)) => (std::format!("no call: {why}"), false),
            Err(payload) => (std::format!("panic: {}", message(payload)), false),
        };
        writeln!(out, "{index} {}", text.trim_end()).unwrap();
        if !goes_on {
            break;
        }
    }
    if !options.no_memory {
        on!(&state, state => left(&mut out, state));
    }
    out
}

fn message(payload: Box<dyn std::any::Any + Send>) -> Text {
    let text = payload.downcast_ref::<Text>().cloned();
    text.or_else(|| payload.downcast_ref::<&str>().map(|text| text.to_string())).unwrap_or_default()
}

impl AnyState {
    /// One that empties the memory is a new memory, over the target that it names.
    fn ask(&mut self, line: &str) -> Said {
        let words = words(&line.split_whitespace().collect::<Vec<_>>());
        if self.is_emptied(words.as_deref()) {
            return Accepted(Text::new());
        }
        on!(self, state => state.ask(line))
    }
}

impl<T: Target> State<T> {
    fn ask(&mut self, line: &str) -> Said {
        let parts: Vec<&str> = line.split_whitespace().collect();
        match parts[..] {
            ["allocate", kind, exponent, address, size] => self.ask_allocate(
                integer(kind) as u32,
                integer(exponent) as u32,
                integer(address),
                integer(size),
            ),
            ["signed_dereferenceable", name, address, len] => {
                let pointer = self.ask_pointer(integer(address), Some(named(name)));
                let tested = self.held.memory.signed_dereferenceable(pointer, Int::new(integer(len)));
                said(tested, |()| Text::new())
            }
            ["wrapping_offset", address, offset] => wrapped::<T>(address, offset),
            ["wrapping_offset", address, offset, "16"] => wrapped::<Bits16>(address, offset),
            ["wrapping_offset", address, offset, "32"] => wrapped::<Bits32>(address, offset),
            ["wrapping_offset", address, offset, "64"] => wrapped::<x86_64>(address, offset),
            ["entry", frame, name] => {
                let entry = self.ask_name(named(name));
                match &mut self.held.frames[integer(frame) as usize] {
                    Some(extra) => extra.protectors.push(entry),
                    None => return NoCall("the frame is not there"),
                }
                Accepted(Text::new())
            }
            _ => self.ask_words(&parts),
        }
    }

    fn ask_words(&mut self, parts: &[&str]) -> Said {
        let Some(words) = words(parts) else { return NoCall("not words") };
        let bytes: Vec<u8> = words.iter().flat_map(|word| word.to_be_bytes()).collect();
        match request::cut(&bytes, 0) {
            (Some(_), end) if end == bytes.len() => {}
            _ => return NoCall("words are missing or left over"),
        }
        match request::fields(&words) {
            Ok(request) => self.ask_request(request),
            Err(_) => NoCall("no method has such fields"),
        }
    }

    fn ask_request(&mut self, request: Request) -> Said {
        match request {
            Request::Allocate { kind, exponent, address, size } => {
                self.ask_allocate(kind, exponent, address as i128, size as i128)
            }
            Request::Deallocate { pointer, kind, exponent, size } => {
                let pointer = self.ask_named(pointer);
                let size = Size::from_bytes(size).unwrap();
                let done = self.held.memory.deallocate(pointer, allocation_kind(kind), size, align(exponent));
                said(done, |()| Text::new())
            }
            Request::Load { pointer, exponent, len } => {
                let pointer = self.ask_named(pointer);
                let len = Size::from_bytes(len).unwrap();
                let loaded = self.held.memory.load(pointer, len, align(exponent));
                said(loaded, |bytes| {
                    let words = bytes.iter().map(|byte| std::format!("{:08x} ", self.word(byte)));
                    words.collect()
                })
            }
            Request::Store { pointer, exponent, words } => {
                let pointer = self.ask_named(pointer);
                let bytes: Vec<_> = words.iter().map(|&word| self.byte(word)).collect();
                let stored = self.held.memory.store(pointer, List::from_slice(&bytes), align(exponent));
                said(stored, |()| Text::new())
            }
            Request::Retag { pointer, retag } => self.ask_retag(pointer, retag),
            Request::NewCall { frame } => {
                if self.held.frames[frame].is_some() {
                    return NoCall("the frame is there already");
                }
                self.held.frames[frame] = Some(RustMemory::<T>::new_call());
                Accepted(Text::new())
            }
            Request::EndCall { frame } => {
                let Some(extra) = self.held.frames[frame].take() else {
                    return NoCall("the frame is not there");
                };
                said(self.held.memory.end_call(extra), |()| Text::new())
            }
            Request::Dereferenceable { pointer, len } => {
                let pointer = self.ask_named(pointer);
                let tested = self.held.memory.dereferenceable(pointer, Size::from_bytes(len).unwrap());
                said(tested, |()| Text::new())
            }
            Request::SignedDereferenceable { pointer, len } => {
                let pointer = self.ask_named(pointer);
                said(self.held.memory.signed_dereferenceable(pointer, Int::from(len)), |()| Text::new())
            }
            Request::LeakCheck => said(self.held.memory.leak_check(), |()| Text::new()),
        }
    }

    /// A size that no list can have goes to `BasicMemory`'s method, where the Rust's test of it is: the memory's own
    /// writes down the root's permissions first.
    fn ask_allocate(&mut self, kind: u32, exponent: u32, address: i128, size: i128) -> Said {
        propose(address);
        let bytes = Size::from_bytes(Int::new(size)).unwrap();
        let (kind, align) = (allocation_kind(kind), align(exponent));
        let root = Node { children: List::new(), permissions: List::new(), protected: Protected::No };
        let extra = TreeBorrowsAllocationExtra { root };
        let allocated = if size < 1 << 32 {
            self.held.memory.allocate(kind, bytes, align)
        } else {
            self.held.memory.mem.allocate(kind, bytes, align, Path::new(), extra)
        };
        match allocated {
            libspecr::NdResult::NoChoice => Ended("this address is not picked".into()),
            libspecr::NdResult::Failed(info) => Ended(ended(info)),
            libspecr::NdResult::Done(_) => {
                self.numbers.push(Numbering::root());
                Accepted(std::format!("{}:/", self.numbers.len() - 1))
            }
        }
    }

    fn ask_retag(&mut self, pointer: request::Pointer, retag: Retag) -> Said {
        let frame = retag.frame();
        if frame.is_some_and(|frame| self.held.frames[frame].is_none()) {
            return NoCall("the frame is not there");
        }
        let described = match retag {
            Retag::Safe { words, .. } if !retag.is_pinned() => {
                let Some(given) = layout::given(words, self.options.whole_counts) else {
                    return NoCall("layout words are missing or left over");
                };
                if given.described.mask_len > LONGEST_MASK {
                    return NoCall("the mask is too long to be written down");
                }
                Some(given.described)
            }
            _ => None,
        };
        let thin = self.ask_named(pointer);
        let mut extra = frame.map_or(RustMemory::<T>::new_call(), |frame| self.held.frames[frame].unwrap());
        let retagged = call(thin, retag, described).make(&mut self.held.memory, &mut extra);
        if let (Ok(_), Some(frame)) = (&retagged, frame) {
            self.held.frames[frame] = Some(extra);
        }
        said(retagged, |pointer| {
            let after = pointer.thin_pointer;
            if after.provenance != thin.provenance {
                self.number_new_node(thin, after);
            }
            after.provenance.map_or("without provenance".into(), name_of)
        })
    }

    fn ask_named(&self, pointer: request::Pointer) -> ThinPointer<TreeBorrowsProvenance> {
        self.ask_pointer(pointer.address as i128, pointer.provenance)
    }

    fn ask_pointer(&self, address: i128, name: Option<(usize, usize)>) -> ThinPointer<TreeBorrowsProvenance> {
        ThinPointer { addr: Int::new(address), provenance: name.map(|name| self.ask_name(name)) }
    }

    /// What the Rust names a node by: its path. A node that was never made is a child that the root does not have.
    fn ask_name(&self, (allocation, node): (usize, usize)) -> TreeBorrowsProvenance {
        let path = match self.numbers.get(allocation) {
            Some(numbering) if node < numbering.place.len() => numbering.path(node),
            Some(numbering) => list![Int::from(numbering.children[0].len())],
            None => Path::new(),
        };
        (AllocId(Int::from(allocation)), path)
    }
}

fn said<T>(result: Result<T>, text: impl FnOnce(T) -> Text) -> Said {
    match result {
        Ok(value) => Accepted(text(value)),
        Err(info) => Ended(ended(info)),
    }
}

fn ended(info: TerminationInfo) -> Text {
    match info {
        TerminationInfo::Ub(message) => std::format!("UB: {}", message.as_str()),
        TerminationInfo::MemoryLeak => "a memory leak".into(),
        other => std::format!("{other:?}"),
    }
}

fn words(parts: &[&str]) -> Option<Vec<u32>> {
    let word = |part: &&str| u32::from_str_radix(part, 16).ok().filter(|_| part.len() == 8);
    parts.iter().map(word).collect()
}

fn wrapped<T: Target>(address: &str, offset: &str) -> Said {
    let pointer: ThinPointer<TreeBorrowsProvenance> =
        ThinPointer { addr: Int::new(integer(address)), provenance: None };
    let moved = pointer.wrapping_offset::<T>(Int::new(integer(offset)));
    Accepted(std::format!("{}", moved.addr))
}

fn integer(text: &str) -> i128 {
    text.parse().expect("a number")
}

fn named(text: &str) -> (usize, usize) {
    let (allocation, node) = text.split_once('.').expect("an allocation and a node");
    (integer(allocation) as usize, integer(node) as usize)
}

/// Allocation and path, such as `0:/1/0`.
fn name_of((id, path): TreeBorrowsProvenance) -> Text {
    let steps: Vec<Text> = path.iter().map(|step| std::format!("{step}")).collect();
    std::format!("{}:/{}", id.0, steps.join("/"))
}

/// A tree's nodes with their paths, parents first.
fn paths(out: &mut Text, allocation: usize, node: Node, path: &str) {
    let row: Text = node.permissions.iter().map(print::code).collect();
    let row = if row.is_empty() { "-" } else { &row };
    writeln!(out, "n {allocation}:{path} {} {row}", print::protector(node.protected)).unwrap();
    for (index, child) in node.children.iter().enumerate() {
        let below = if path == "/" { std::format!("/{index}") } else { std::format!("{path}/{index}") };
        paths(out, allocation, child, &below);
    }
}

/// The memory and frames as the Rust left them.
fn left<T: Target>(out: &mut Text, state: &State<T>) {
    print::allocations(out, state, |out, number, root| paths(out, number, root, "/"));

    for (number, frame) in state.held.frames.iter().enumerate() {
        let Some(frame) = frame else { continue };
        let entries: Vec<Text> = frame.protectors.iter().map(name_of).collect();
        let entries = if entries.is_empty() { "-".into() } else { entries.join(" ") };
        writeln!(out, "f {number} {entries}").unwrap();
    }
}
