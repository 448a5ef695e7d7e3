//! The Tree Borrows memory of `libtree_borrows.a`, for Rust.
//!
//! - [`Memory`] owns a memory and makes one request at a time. Each costs some 18 microseconds, whatever it
//!   does: the library trusts nobody and tests all of the memory first.
//! - [`List`] is a whole run. It is made in one call, from the empty memory, and a small request costs some
//!   10 to 100 nanoseconds there. A list is also what the program `verdict` reads ([`List::to_bytes`]).
//! - [`Width`] is how many bits a pointer has: 64, or 16 or 32 in a memory that is made so.
//! - [`Buffers`] is what both lend: numbers of any lengths and contents, with the library's own replies.
//!   [`raw`] has the functions of the archive as they are; nothing else here is unsafe.
//!
//! What the numbers mean is said in docs/FORMAT.md; include/tree_borrows.h is the same interface for C.

mod buffers;
mod list;
mod memory;
mod pointee;
mod pointer;
mod print;
pub mod raw;
mod refusal;
mod width;

pub use buffers::{new_call, Buffers};
pub use list::{Answer, FrameNumber, Given, List, Outcome, Refused};
pub use memory::{Frame, Memory};
pub use pointee::{Metadata, Part, Pointee, Shape};
pub use pointer::{byte, Align, MemoryKind, Pointer, PointerKind, Provenance, UNINITIALISED};
pub use refusal::Refusal;
pub use width::Width;
