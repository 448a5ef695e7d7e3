//! Sets, as lists without repetition. mem.rs needs them for exposed provenance only, which no request uses.

use crate::hidden::{GcCompat, Obj};
use crate::list::List;

#[derive(Debug, PartialEq, Eq, Hash, PartialOrd, Ord)]
pub struct Set<T: Obj>(List<T>);

impl<T: Obj> Set<T> {
    pub fn new() -> Self {
        Set(List::new())
    }
    pub fn insert(&mut self, value: T) {
        if !self.contains(value) {
            self.0.push(value);
        }
    }
    pub fn contains(&self, value: T) -> bool {
        self.0.any(|held| held == value)
    }
}

impl<T: Obj> Copy for Set<T> {}
impl<T: Obj> Clone for Set<T> {
    fn clone(&self) -> Self {
        *self
    }
}
impl<T: Obj> GcCompat for Set<T> {
    fn relocate(self) -> Self {
        Set(self.0.relocate())
    }
}
