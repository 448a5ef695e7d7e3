//! The five buffers that hold a memory, lent to the library with its width for each request.

use crate::raw::{self, Entry, ListReply, Reply, RetagReply, RetagSettings};

/// Five buffers and a width, of whatever lengths and contents: what holds no memory is refused with 1, and then nothing
/// changes. Every reply and everything that is left is determined and proved, so that these functions are
/// safe.
#[derive(Clone, Debug, PartialEq, Eq)]
pub struct Buffers {
    /// Nine numbers for each allocation: 1 live or 2 dead, kind, exponent, address, size, number of nodes, and
    /// where its words, its nodes and its codes start.
    pub allocs: Vec<u64>,
    /// One for each node, as the next.
    pub parents: Vec<u16>,
    pub protectors: Vec<u8>,
    /// One for each byte.
    pub words: Vec<u32>,
    /// One for each byte of each node.
    pub codes: Vec<u8>,
    /// How many bits a pointer has: 16, 32 or 64.
    pub width: u64,
}

/// Calls a function that is lent five buffers; it may write those that it declares `mut`.
macro_rules! lend {
    ($b:expr, $function:ident($($before:expr),*; $($behind:expr),*)) => {
        unsafe {
            raw::$function(
                $($before,)*
                $b.allocs.as_mut_ptr(), $b.allocs.len(), $b.parents.as_mut_ptr(), $b.parents.len(),
                $b.protectors.as_mut_ptr(), $b.protectors.len(), $b.words.as_mut_ptr(), $b.words.len(),
                $b.codes.as_mut_ptr(), $b.codes.len()
                $(, $behind)*
            )
        }
    };
}

/// Calls a function that writes none of them.
macro_rules! show {
    ($b:expr, $function:ident($($behind:expr),*)) => {
        unsafe {
            raw::$function(
                $b.allocs.as_ptr(), $b.allocs.len(), $b.parents.as_ptr(), $b.parents.len(),
                $b.protectors.as_ptr(), $b.protectors.len(), $b.words.as_ptr(), $b.words.len(),
                $b.codes.as_ptr(), $b.codes.len()
                $(, $behind)*
            )
        }
    };
}

impl Buffers {
    /// Buffers of the lengths that the library asks for, with zeros in them: the empty memory at 64 bits.
    pub fn new() -> Buffers {
        Buffers {
            allocs: vec![0; raw::ALLOCS],
            parents: vec![0; raw::NODES],
            protectors: vec![0; raw::NODES],
            words: vec![0; raw::WORDS],
            codes: vec![0; raw::CODES],
            width: 64,
        }
    }

    /// The empty memory at their width, whatever they hold.
    pub fn empty(&mut self) -> Reply {
        lend!(self, tree_borrows_new(; self.width))
    }

    pub fn allocate(&mut self, kind: u64, size: u64, exponent: u64, address: u64) -> Reply {
        lend!(self, tree_borrows_allocate(; self.width, kind, size, exponent, address))
    }

    pub fn deallocate(&mut self, pointer: raw::Pointer, kind: u64, size: u64, exponent: u64) -> Reply {
        lend!(self, tree_borrows_deallocate(; self.width, pointer, kind, size, exponent))
    }

    pub fn load(&mut self, pointer: raw::Pointer, length: u64, exponent: u64) -> Reply {
        lend!(self, tree_borrows_load(; self.width, pointer, length, exponent))
    }

    /// Copies the words that a load's reply names to the front of `out`, if they fit, and says how many there
    /// are.
    pub fn load_view(&self, reply: Reply, out: &mut [u32]) -> usize {
        let words = &self.words;
        unsafe {
            raw::tree_borrows_load_view(words.as_ptr(), words.len(), reply, out.as_mut_ptr(), out.len())
        }
    }

    pub fn store(&mut self, pointer: raw::Pointer, bytes: &[u32], exponent: u64) -> Reply {
        lend!(self, tree_borrows_store(; self.width, pointer, bytes.as_ptr(), bytes.len(), exponent))
    }

    /// The first `count` of the entries are the frame's.
    pub fn retag(
        &mut self,
        entries: &mut [Entry],
        count: usize,
        layout: &[u32],
        pointer: raw::Pointer,
        settings: RetagSettings,
    ) -> RetagReply {
        lend!(self, tree_borrows_retag(
            entries.as_mut_ptr(), entries.len(), count;
            self.width, layout.as_ptr(), layout.len(), pointer, settings
        ))
    }

    pub fn end_call(&mut self, entries: &[Entry], count: usize, area: &mut [u8]) -> Reply {
        lend!(self, tree_borrows_end_call(
            entries.as_ptr(), entries.len(), count; self.width, area.as_mut_ptr(), area.len()
        ))
    }

    pub fn dereferenceable(&self, pointer: raw::Pointer, length: u64) -> Reply {
        show!(self, tree_borrows_dereferenceable(self.width, pointer, length))
    }

    pub fn signed_dereferenceable(&self, pointer: raw::Pointer, length: i64) -> Reply {
        show!(self, tree_borrows_signed_dereferenceable(self.width, pointer, length))
    }

    pub fn leak_check(&self) -> Reply {
        show!(self, tree_borrows_leak_check(self.width))
    }

    /// A list of requests from the empty memory at 64 bits: all their words, and where those of each end. The width is
    /// then what the list left.
    pub fn run_list(
        &mut self,
        frames: &mut [u32],
        requests: &[u32],
        ends: &[u32],
        answers: &mut [u32],
    ) -> ListReply {
        let reply = lend!(self, tree_borrows_run_list(;
            frames.as_mut_ptr(), frames.len(), requests.as_ptr(), requests.len(), ends.as_ptr(), ends.len(),
            answers.as_mut_ptr(), answers.len()
        ));
        if reply.refusal == 0 {
            self.width = reply.width;
        }
        reply
    }
}

impl Default for Buffers {
    fn default() -> Buffers {
        Buffers::new()
    }
}

/// A frame without entries on the lent places, whatever they hold. There are 64, or it is refused with 1.
pub fn new_call(entries: &mut [Entry]) -> RetagReply {
    unsafe { raw::tree_borrows_new_call(entries.as_mut_ptr(), entries.len()) }
}
