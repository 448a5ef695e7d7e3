//! Sizes in bytes, alignments, and three small enums of `libspecr`.

use crate::hidden::GcCompat;
use crate::int::Int;
use std::ops::Add;

/// A number of bytes, never negative.
#[derive(Clone, Copy, Debug, PartialEq, Eq, Hash, PartialOrd, Ord)]
pub struct Size(Int);

impl Size {
    pub const ZERO: Size = Size(Int::ZERO);

    pub fn from_bytes(bytes: impl Into<Int>) -> Option<Size> {
        let bytes = bytes.into();
        (bytes.value() >= 0).then_some(Size(bytes))
    }
    pub const fn from_bytes_const(bytes: u64) -> Size {
        Size(Int::new(bytes as i128))
    }
    /// None unless the bits make whole bytes.
    pub const fn from_bits_const(bits: u64) -> Option<Size> {
        if bits % 8 == 0 {
            Some(Size::from_bytes_const(bits / 8))
        } else {
            None
        }
    }
    #[inline]
    pub const fn bytes(self) -> Int {
        self.0
    }
    pub fn bits(self) -> Int {
        self.0 * 8
    }
    pub fn is_zero(self) -> bool {
        self.0 == Int::ZERO
    }
}

impl Add for Size {
    type Output = Size;
    #[inline]
    fn add(self, other: Size) -> Size {
        Size(self.0 + other.0)
    }
}

/// A power of two of bytes.
#[derive(Clone, Copy, Debug, PartialEq, Eq, Hash, PartialOrd, Ord)]
pub struct Align(Int);

impl Align {
    pub const ONE: Align = Align(Int::ONE);

    pub fn from_bytes(bytes: impl Into<Int>) -> Option<Align> {
        let bytes = bytes.into();
        bytes.is_power_of_two().then_some(Align(bytes))
    }
    pub const fn from_bits_const(bits: u64) -> Option<Align> {
        if bits % 8 == 0 && (bits / 8).is_power_of_two() {
            Some(Align(Int::new((bits / 8) as i128)))
        } else {
            None
        }
    }
    pub const fn bytes(self) -> Int {
        self.0
    }
    pub fn is_aligned(self, addr: Int) -> bool {
        addr.value().rem_euclid(self.0.value()) == 0
    }
}

#[derive(Clone, Copy, Debug, PartialEq, Eq, Hash, PartialOrd, Ord)]
pub enum Endianness {
    LittleEndian,
    BigEndian,
}

#[derive(Clone, Copy, Debug, PartialEq, Eq, Hash, PartialOrd, Ord)]
pub enum Mutability {
    Mutable,
    Immutable,
}

macro_rules! plain {
    ($($t:ty),*) => { $(impl GcCompat for $t { fn relocate(self) -> Self { self } })* };
}
plain!(Size, Align, Mutability, Endianness);
