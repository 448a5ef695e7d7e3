//! A value behind a pointer, for types that contain themselves, and names.

use crate::arena;
use crate::hidden::GcCompat;
use std::cmp::Ordering;
use std::fmt;
use std::hash::{Hash, Hasher};

pub struct GcCow<T>(*const T);

impl<T: Copy> GcCow<T> {
    pub fn new(value: T) -> Self {
        let place = arena::room::<T>(1);
        // SAFETY: `room` gives aligned space for one T.
        unsafe { place.write(value) };
        GcCow(place)
    }

    pub fn extract(self) -> T {
        // SAFETY: made by `new`, and the arena keeps what is in use.
        unsafe { *self.0 }
    }
}

impl<T> Copy for GcCow<T> {}
impl<T> Clone for GcCow<T> {
    fn clone(&self) -> Self {
        *self
    }
}
impl<T: GcCompat> GcCompat for GcCow<T> {
    fn relocate(self) -> Self {
        GcCow::new(self.extract().relocate())
    }
}
impl<T: Copy + fmt::Debug> fmt::Debug for GcCow<T> {
    fn fmt(&self, f: &mut fmt::Formatter) -> fmt::Result {
        self.extract().fmt(f)
    }
}
impl<T: Copy + PartialEq> PartialEq for GcCow<T> {
    fn eq(&self, other: &Self) -> bool {
        self.extract() == other.extract()
    }
}
impl<T: Copy + Eq> Eq for GcCow<T> {}
impl<T: Copy + Hash> Hash for GcCow<T> {
    fn hash<H: Hasher>(&self, state: &mut H) {
        self.extract().hash(state)
    }
}
impl<T: Copy + PartialOrd> PartialOrd for GcCow<T> {
    fn partial_cmp(&self, other: &Self) -> Option<Ordering> {
        self.extract().partial_cmp(&other.extract())
    }
}
impl<T: Copy + Ord> Ord for GcCow<T> {
    fn cmp(&self, other: &Self) -> Ordering {
        self.extract().cmp(&other.extract())
    }
}

/// A name is only ever compared, so a number will do.
#[derive(Clone, Copy, Debug, PartialEq, Eq, Hash, PartialOrd, Ord)]
pub struct Name(pub u32);
impl GcCompat for Name {
    fn relocate(self) -> Self {
        self
    }
}
