//! How many bits a pointer has.

/// The width of a memory, which is chosen when the memory is made.
#[derive(Clone, Copy, Debug, PartialEq, Eq, PartialOrd, Ord, Hash)]
pub enum Width {
    Bits16,
    Bits32,
    Bits64,
}

impl Width {
    pub const ALL: [Width; 3] = [Width::Bits16, Width::Bits32, Width::Bits64];

    /// Of so many bits, if there is such a width.
    pub fn of_bits(bits: u64) -> Option<Width> {
        Width::ALL.into_iter().find(|width| width.bits() == bits)
    }

    pub const fn bits(self) -> u64 {
        16 << self as u64
    }

    /// The largest address, and the largest end of an allocation.
    pub const fn most_address(self) -> u64 {
        u64::MAX >> (64 - self.bits())
    }

    /// How many bytes a pointer has: their positions count from 0.
    pub const fn pointer_bytes(self) -> u64 {
        self.bits() / 8
    }
}
