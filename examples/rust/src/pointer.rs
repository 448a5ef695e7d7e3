//! Pointers, alignments and bytes.

use crate::raw::{self, Reply};
use crate::width::Width;

/// A node of an allocation, both by their numbers.
#[derive(Clone, Copy, Debug, PartialEq, Eq, Hash)]
pub struct Provenance {
    pub allocation: u32,
    pub node: u32,
}

#[derive(Clone, Copy, Debug, PartialEq, Eq, Hash)]
pub struct Pointer {
    pub address: u64,
    pub provenance: Option<Provenance>,
}

impl Pointer {
    /// The same pointer so many bytes ahead, or back, around the end of the addresses of 64 bits.
    pub fn offset(self, bytes: i64) -> Pointer {
        self.offset_at(Width::Bits64, bytes)
    }

    /// The same around the end of the addresses of this width.
    pub fn offset_at(self, width: Width, bytes: i64) -> Pointer {
        Pointer { address: self.address.wrapping_add_signed(bytes) & width.most_address(), ..self }
    }

    /// In the numbers that the library takes.
    pub(crate) fn raw(self) -> raw::Pointer {
        let (provenance, named) = match self.provenance {
            Some(named) => (1, named),
            None => (0, Provenance { allocation: 0, node: 0 }),
        };
        raw::Pointer { address: self.address, provenance, allocation: named.allocation, node: named.node }
    }

    /// What an accepted request gave at this address.
    pub(crate) fn given(address: u64, reply: Reply) -> Pointer {
        let named = Provenance { allocation: reply.first as u32, node: reply.second as u32 };
        Pointer { address, provenance: (reply.gives == raw::POINTER).then_some(named) }
    }
}

/// An alignment, a power of two.
#[derive(Clone, Copy, Debug, PartialEq, Eq, Hash)]
pub struct Align {
    exponent: u32,
}

impl Align {
    /// Of one byte.
    pub const ONE: Align = Align { exponent: 0 };

    /// Of so many bytes, if that is a power of two. From 2^30 on the memory refuses it.
    pub fn of_bytes(bytes: u64) -> Option<Align> {
        bytes.is_power_of_two().then_some(Align { exponent: bytes.trailing_zeros() })
    }

    /// Of a type.
    pub fn of<T>() -> Align {
        Align { exponent: std::mem::align_of::<T>().trailing_zeros() }
    }

    pub(crate) fn exponent(self) -> u32 {
        self.exponent
    }
}

#[derive(Clone, Copy, Debug, PartialEq, Eq, Hash)]
pub enum MemoryKind {
    Stack,
    Heap,
    Global,
    Function,
    VTable,
}

#[derive(Clone, Copy, Debug, PartialEq, Eq, Hash)]
pub enum PointerKind {
    SharedReference,
    MutableReference,
    Box,
    Raw,
    Function,
    VTable,
}

/// A byte that was never written.
pub const UNINITIALISED: u32 = 0;

/// The word of a byte that is no part of a pointer.
pub const fn byte(value: u8) -> u32 {
    0x8000_0000 | value as u32
}
