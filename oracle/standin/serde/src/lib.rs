//! A stand-in for `serde`. The Rust only names its two traits, as derives and as bounds, and never
//! saves a value, so both traits are empty and hold of every type.

pub use derive::{Deserialize, Serialize};

pub trait Serialize {}
impl<T: ?Sized> Serialize for T {}

pub trait Deserialize<'de> {}
impl<'de, T: ?Sized> Deserialize<'de> for T {}
