//! A stand-in for `libspecr`, with just what mem.rs and prelude.rs use.
//!
//! Every value of the Rust is `Copy` and means what it holds: a copied list stays as it is whatever
//! happens to the original. Lists are therefore trees in an arena that are never changed once made
//! (`list`); the arena is emptied or compacted by the driver between requests (`arena`).
#![feature(try_trait_v2, try_trait_v2_residual, try_trait_v2_yeet, step_trait)]

extern crate self as libspecr;

mod arena;
mod cow;
mod int;
mod list;
mod nondet;
mod set;
mod size;
mod string;

pub use cow::Name;
pub use int::IntDistribution;
pub use nondet::{NdResult, Nondet};

/// What the code behind the derives and the driver needs.
pub mod hidden {
    pub use crate::arena::{collect, collect_if_large, reset, used};
    pub use crate::cow::GcCow;
    pub use crate::nondet::propose;
    use std::fmt::Debug;
    use std::hash::Hash;

    /// Values that live in the arena. `relocate` copies everything that the value points to into the
    /// arena's current space.
    pub trait GcCompat: Copy + 'static {
        fn relocate(self) -> Self;
    }

    /// What every value of the Rust is.
    pub trait Obj: GcCompat + Debug + Eq + Hash + Ord {}
    impl<T: GcCompat + Debug + Eq + Hash + Ord> Obj for T {}

    macro_rules! plain {
        ($($t:ty),*) => { $(impl GcCompat for $t { fn relocate(self) -> Self { self } })* };
    }
    plain!((), bool, u8, u16, u32, u64, usize, i32, i64, i128);

    impl<T: 'static> GcCompat for std::marker::PhantomData<T> {
        fn relocate(self) -> Self {
            self
        }
    }
    impl<T: GcCompat> GcCompat for Option<T> {
        fn relocate(self) -> Self {
            self.map(T::relocate)
        }
    }
    impl<A: GcCompat, B: GcCompat> GcCompat for (A, B) {
        fn relocate(self) -> Self {
            (self.0.relocate(), self.1.relocate())
        }
    }
    impl<T: GcCompat, const N: usize> GcCompat for [T; N] {
        fn relocate(self) -> Self {
            self.map(T::relocate)
        }
    }
}

pub mod prelude {
    pub use crate::int::{Int, Signedness, Signedness::*};
    pub use crate::list;
    pub use crate::list::List;
    pub use crate::nondet::{pick, predict, ret};
    pub use crate::set::Set;
    pub use crate::size::{Align, Endianness, Endianness::*, Mutability, Size};
    pub use crate::string::String;
    pub use derive::GcCompat;
}
