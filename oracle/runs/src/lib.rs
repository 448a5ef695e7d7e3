//! Runs of requests: how they are written, a reference that answers them, and a generator.
//! Nothing here needs the Rust.

pub mod coverage;
pub mod deep;
pub mod exchange;
pub mod generate;
pub mod limits;
pub mod random;
pub mod reference;
pub mod start;
pub mod width;
pub mod words;
