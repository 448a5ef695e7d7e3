//! Text that is `Copy`: messages of undefined behaviour.

use crate::arena;
use crate::hidden::GcCompat;
use std::cmp::Ordering;
use std::fmt;
use std::hash::{Hash, Hasher};

#[derive(Clone, Copy)]
pub struct String(&'static str);

impl String {
    pub fn as_str(&self) -> &str {
        self.0
    }
}

impl From<std::string::String> for String {
    fn from(text: std::string::String) -> String {
        String::from(text.as_str())
    }
}
impl From<&str> for String {
    fn from(text: &str) -> String {
        let place = arena::room::<u8>(text.len());
        // SAFETY: `room` gives that many bytes, they are valid text, and the arena keeps what is in use.
        unsafe {
            place.copy_from_nonoverlapping(text.as_ptr(), text.len());
            String(std::str::from_utf8_unchecked(std::slice::from_raw_parts(place, text.len())))
        }
    }
}
impl GcCompat for String {
    fn relocate(self) -> Self {
        String::from(self.0)
    }
}
impl fmt::Debug for String {
    fn fmt(&self, f: &mut fmt::Formatter) -> fmt::Result {
        self.0.fmt(f)
    }
}
impl PartialEq for String {
    fn eq(&self, other: &Self) -> bool {
        self.0 == other.0
    }
}
impl Eq for String {}
impl Hash for String {
    fn hash<H: Hasher>(&self, state: &mut H) {
        self.0.hash(state)
    }
}
impl PartialOrd for String {
    fn partial_cmp(&self, other: &Self) -> Option<Ordering> {
        Some(self.cmp(other))
    }
}
impl Ord for String {
    fn cmp(&self, other: &Self) -> Ordering {
        self.0.cmp(other.0)
    }
}

/// `format!` that makes such a text.
#[macro_export]
macro_rules! format {
    ($($tt:tt)*) => { $crate::prelude::String::from(::std::format!($($tt)*)) };
}
