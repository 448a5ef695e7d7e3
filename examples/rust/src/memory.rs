//! One memory, request by request.

use crate::buffers::{new_call, Buffers};
use crate::pointee::Pointee;
use crate::pointer::{Align, MemoryKind, Pointer, PointerKind};
use crate::raw::{self, Entry, Reply, RetagReply, RetagSettings};
use crate::refusal::Refusal;
use crate::width::Width;

/// A memory that owns its buffers. A refused request changes nothing. Each costs some 18 microseconds, as all
/// of the memory is tested first; [`crate::List`] is for many. As text it is what `verdict` prints of it.
#[derive(Clone, Debug, PartialEq, Eq)]
pub struct Memory {
    buffers: Buffers,
}

/// The nodes that an open call protects.
#[derive(Clone, Debug, PartialEq, Eq)]
pub struct Frame {
    entries: Vec<Entry>,
    count: usize,
}

fn check(reply: Reply) -> Result<Reply, Refusal> {
    Refusal::check(reply.refusal as u32).map(|()| reply)
}

impl Frame {
    fn blank() -> Frame {
        Frame { entries: vec![Entry::default(); raw::ENTRIES], count: 0 }
    }

    /// A frame with these entries. There are at most 64 in a list's frame.
    pub(crate) fn of(named: impl Iterator<Item = Entry>) -> Frame {
        let mut frame = Frame::blank();
        for (place, entry) in frame.entries.iter_mut().zip(named) {
            *place = entry;
            frame.count += 1;
        }
        frame
    }

    pub fn entries(&self) -> &[Entry] {
        &self.entries[..self.count]
    }
}

impl Memory {
    /// No allocation made, and pointers of this width.
    pub fn new(width: Width) -> Memory {
        Memory { buffers: Buffers { width: width.bits(), ..Buffers::new() } }
    }

    pub(crate) fn of(buffers: Buffers) -> Memory {
        Memory { buffers }
    }

    /// The numbers that hold it, to look at.
    pub fn buffers(&self) -> &Buffers {
        &self.buffers
    }

    pub fn width(&self) -> Width {
        Width::of_bits(self.buffers.width).expect("a memory has one of the three")
    }

    /// At the address that is proposed. Gives the pointer to its root.
    pub fn allocate(
        &mut self,
        kind: MemoryKind,
        size: u64,
        align: Align,
        address: u64,
    ) -> Result<Pointer, Refusal> {
        let reply = check(self.buffers.allocate(kind as u64, size, align.exponent() as u64, address))?;
        Ok(Pointer::given(address, reply))
    }

    pub fn deallocate(
        &mut self,
        pointer: Pointer,
        kind: MemoryKind,
        size: u64,
        align: Align,
    ) -> Result<(), Refusal> {
        let reply = self.buffers.deallocate(pointer.raw(), kind as u64, size, align.exponent() as u64);
        check(reply).map(|_| ())
    }

    /// Gives the words of the bytes, where they lie.
    pub fn load(&mut self, pointer: Pointer, length: u64, align: Align) -> Result<&[u32], Refusal> {
        let reply = check(self.buffers.load(pointer.raw(), length, align.exponent() as u64))?;
        let start = reply.first as usize;
        Ok(&self.buffers.words[start..start + reply.second as usize])
    }

    /// A word for each byte.
    pub fn store(&mut self, pointer: Pointer, bytes: &[u32], align: Align) -> Result<(), Refusal> {
        check(self.buffers.store(pointer.raw(), bytes, align.exponent() as u64)).map(|_| ())
    }

    /// A new reference or box; any other pointer, and a mutable reference to what is not `Unpin`, comes back
    /// as it is.
    pub fn retag(
        &mut self,
        pointer: Pointer,
        kind: PointerKind,
        pointee: &Pointee,
    ) -> Result<Pointer, Refusal> {
        self.retag_in(&mut Frame::blank(), pointer, kind, pointee, 0)
    }

    /// The same for an argument of the call with this frame: it is protected until the call ends.
    pub fn retag_argument(
        &mut self,
        frame: &mut Frame,
        pointer: Pointer,
        kind: PointerKind,
        pointee: &Pointee,
    ) -> Result<Pointer, Refusal> {
        self.retag_in(frame, pointer, kind, pointee, 1)
    }

    fn retag_in(
        &mut self,
        frame: &mut Frame,
        pointer: Pointer,
        kind: PointerKind,
        pointee: &Pointee,
        function_entry: u8,
    ) -> Result<Pointer, Refusal> {
        let extra = kind as u32;
        let settings =
            RetagSettings { extra, function_entry, unpin: pointee.unpin as u8, freeze: pointee.freeze as u8 };
        let layout = pointee.layout();
        let RetagReply { reply, count } =
            self.buffers.retag(&mut frame.entries, frame.count, &layout, pointer.raw(), settings);
        frame.count = count;
        Ok(Pointer::given(pointer.address, check(reply)?))
    }

    /// A call begins.
    pub fn new_call(&mut self) -> Frame {
        Frame::blank()
    }

    /// The call ends, and what it protects is released; then its frame is as a new one. It is refused if the
    /// frame is not of this memory.
    pub fn end_call(&mut self, frame: &mut Frame) -> Result<(), Refusal> {
        let mut area = vec![0; raw::AREA];
        check(self.buffers.end_call(&frame.entries, frame.count, &mut area))?;
        frame.count = new_call(&mut frame.entries).count;
        Ok(())
    }

    /// Are so many bytes from the pointer on inside a live allocation?
    pub fn dereferenceable(&self, pointer: Pointer, length: u64) -> Result<(), Refusal> {
        check(self.buffers.dereferenceable(pointer.raw(), length)).map(|_| ())
    }

    /// The same; a negative length asks for the bytes below the pointer.
    pub fn signed_dereferenceable(&self, pointer: Pointer, length: i64) -> Result<(), Refusal> {
        check(self.buffers.signed_dereferenceable(pointer.raw(), length)).map(|_| ())
    }

    /// The heap allocation with the lowest number that is live, if there is one.
    pub fn leak(&self) -> Option<u32> {
        let reply = self.buffers.leak_check();
        (reply.gives == raw::LEAK).then_some(reply.first as u32)
    }
}
