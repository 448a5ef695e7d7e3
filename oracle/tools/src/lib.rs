//! What the tools share.

pub mod arguments;
pub mod framing;
pub mod program;
pub mod shrink;
