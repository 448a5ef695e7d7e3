//! Mathematical integers. 128 bits hold every sum and difference of 64-bit addresses and lengths that
//! mem.rs makes; whatever would not fit panics, and a panic is never taken for an answer.

use crate::hidden::GcCompat;
use crate::size::Size;
use std::cmp::Ordering;
use std::fmt;
use std::ops::{Add, AddAssign, Mul, Neg, Sub};

#[derive(Clone, Copy, PartialEq, Eq, Hash, PartialOrd, Ord)]
pub struct Int(i128);

#[derive(Clone, Copy, Debug, PartialEq, Eq, Hash, PartialOrd, Ord)]
pub enum Signedness {
    Unsigned,
    Signed,
}

/// Where `pick` may look for a number. The stand-in is told the number, so it reads none of this.
pub struct IntDistribution {
    pub start: Int,
    pub end: Int,
    pub divisor: Int,
}

impl Int {
    pub const ZERO: Int = Int(0);
    pub const ONE: Int = Int(1);

    pub const fn new(value: i128) -> Int {
        Int(value)
    }

    pub const fn value(self) -> i128 {
        self.0
    }

    /// For places and counts in a list. A negative one is a mistake of the Rust or its caller.
    #[inline]
    pub fn index(self) -> usize {
        usize::try_from(self.0).expect("a place or count in a list")
    }

    pub fn pow(self, exponent: impl Into<Int>) -> Int {
        let exponent = u32::try_from(exponent.into().0).expect("an exponent");
        Int(self.0.checked_pow(exponent).expect("a power in 128 bits"))
    }

    pub fn is_power_of_two(self) -> bool {
        self.0 > 0 && self.0 & (self.0 - 1) == 0
    }

    /// Does a number of `size` bytes represent this one?
    pub fn in_bounds(self, signed: Signedness, size: Size) -> bool {
        self == self.bring_in_bounds(signed, size)
    }

    /// The number of `size` bytes that is equal to this one modulo 2^(8 * size).
    pub fn bring_in_bounds(self, signed: Signedness, size: Size) -> Int {
        let modulus = Int::from(2).pow(size.bits()).0;
        let low = self.0.rem_euclid(modulus);
        match signed {
            Signedness::Signed if low >= modulus / 2 => Int(low - modulus),
            _ => Int(low),
        }
    }
}

impl GcCompat for Int {
    fn relocate(self) -> Self {
        self
    }
}
impl fmt::Debug for Int {
    fn fmt(&self, f: &mut fmt::Formatter) -> fmt::Result {
        self.0.fmt(f)
    }
}
impl fmt::Display for Int {
    fn fmt(&self, f: &mut fmt::Formatter) -> fmt::Result {
        self.0.fmt(f)
    }
}

macro_rules! from_and_compare {
    ($($t:ty),*) => { $(
        impl From<$t> for Int {
            #[inline]
            fn from(value: $t) -> Int {
                Int(value as i128)
            }
        }
        impl PartialEq<$t> for Int {
            fn eq(&self, other: &$t) -> bool {
                self.0 == *other as i128
            }
        }
        impl PartialOrd<$t> for Int {
            fn partial_cmp(&self, other: &$t) -> Option<Ordering> {
                self.0.partial_cmp(&(*other as i128))
            }
        }
    )* };
}
from_and_compare!(u8, u16, u32, u64, usize, i32, i64);

impl<T: Into<Int>> Add<T> for Int {
    type Output = Int;
    #[inline]
    fn add(self, other: T) -> Int {
        Int(self.0.checked_add(other.into().0).expect("a sum in 128 bits"))
    }
}
impl<T: Into<Int>> Sub<T> for Int {
    type Output = Int;
    #[inline]
    fn sub(self, other: T) -> Int {
        Int(self.0.checked_sub(other.into().0).expect("a difference in 128 bits"))
    }
}
impl<T: Into<Int>> Mul<T> for Int {
    type Output = Int;
    fn mul(self, other: T) -> Int {
        Int(self.0.checked_mul(other.into().0).expect("a product in 128 bits"))
    }
}
impl<T: Into<Int>> AddAssign<T> for Int {
    fn add_assign(&mut self, other: T) {
        *self = *self + other;
    }
}
impl Neg for Int {
    type Output = Int;
    fn neg(self) -> Int {
        Int(-self.0)
    }
}

/// For `for i in a..b`.
impl std::iter::Step for Int {
    fn steps_between(start: &Int, end: &Int) -> (usize, Option<usize>) {
        let steps = usize::try_from((end.0 - start.0).max(0)).ok();
        (steps.unwrap_or(usize::MAX), steps)
    }
    #[inline]
    fn forward_checked(start: Int, count: usize) -> Option<Int> {
        start.0.checked_add(count as i128).map(Int)
    }
    #[inline]
    fn backward_checked(start: Int, count: usize) -> Option<Int> {
        start.0.checked_sub(count as i128).map(Int)
    }
}
