//! The functions that libtree_borrows.a exports, and the structs that cross them. A slice is its address and
//! its length, counted in its own numbers.
//!
//! What is asked of the caller: an address is not null, is aligned, and has that many numbers behind it,
//! which nobody else uses meanwhile; no two buffers of one call overlap. Whatever the numbers are, every
//! function returns, and stays inside what it was lent.

/// A pointer. `provenance` is 0 or 1; with 0, allocation and node are 0 too. Anything else is refused with 2,
/// and so is an address that is too big for the width.
#[repr(C)]
#[derive(Clone, Copy, Debug, PartialEq, Eq)]
pub struct Pointer {
    pub address: u64,
    pub provenance: u8,
    pub allocation: u32,
    pub node: u32,
}

/// A node that a call protects.
#[repr(C)]
#[derive(Clone, Copy, Debug, Default, PartialEq, Eq)]
pub struct Entry {
    pub allocation: u32,
    pub node: u32,
}

/// What is retagged: the kind of the pointer, and three flags that are 0 or 1. Anything else is refused with
/// 2.
#[repr(C)]
#[derive(Clone, Copy, Debug, PartialEq, Eq)]
pub struct RetagSettings {
    pub extra: u32,
    pub function_entry: u8,
    pub unpin: u8,
    pub freeze: u8,
}

/// An answer.
#[repr(C)]
#[derive(Clone, Copy, Debug, PartialEq, Eq)]
pub struct Reply {
    /// 0, or why the request is refused.
    pub refusal: u8,
    /// One of the constants below, which say what `first` and `second` are.
    pub gives: u8,
    pub first: u64,
    pub second: u64,
}

/// `first` and `second` are 0.
pub const NOTHING: u8 = 0;
/// A pointer's allocation and node.
pub const POINTER: u8 = 1;
/// Where the loaded words start in `words`, and how many there are.
pub const LOADED: u8 = 2;
/// The allocation that leaks, and 0.
pub const LEAK: u8 = 3;

/// An answer, and how many entries the lent frame has then.
#[repr(C)]
#[derive(Clone, Copy, Debug, PartialEq, Eq)]
pub struct RetagReply {
    pub reply: Reply,
    pub count: usize,
}

/// What a list comes to: 1 if a buffer has another length, and then the rest is 0; else how many words of answers
/// were written, 1 if these are all, and the width of the memory that is left.
#[repr(C)]
#[derive(Clone, Copy, Debug, PartialEq, Eq)]
pub struct ListReply {
    pub refusal: u8,
    pub whole: u8,
    pub at: usize,
    pub width: u64,
}

/// The lengths of what is lent.
pub const ALLOCS: usize = 1152;
pub const NODES: usize = 1024;
pub const WORDS: usize = 4096;
pub const CODES: usize = 32768;
pub const ENTRIES: usize = 64;
pub const AREA: usize = 32768;
pub const FRAMES: usize = 2080;

/// Declares functions that are lent the five buffers: what stands before them, how each is lent, and what
/// follows.
macro_rules! lent {
    ($(
        fn $name:ident($($before:ident: $b:ty),*; $a:ident $p:ident $r:ident $w:ident $c:ident;
            $($behind:ident: $t:ty),*) -> $reply:ty;
    )*) => {
        extern "C" {
            $(pub fn $name(
                $($before: $b,)*
                allocs: *$a u64, allocs_length: usize, parents: *$p u16, parents_length: usize,
                protectors: *$r u8, protectors_length: usize, words: *$w u32, words_length: usize,
                codes: *$c u8, codes_length: usize
                $(, $behind: $t)*
            ) -> $reply;)*
        }
    };
}

lent! {
    fn tree_borrows_new(; mut mut mut mut mut; width: u64) -> Reply;
    fn tree_borrows_allocate(; mut const const const mut;
        width: u64, kind: u64, size: u64, exponent: u64, address: u64) -> Reply;
    fn tree_borrows_deallocate(; mut const const const mut;
        width: u64, pointer: Pointer, kind: u64, size: u64, exponent: u64) -> Reply;
    fn tree_borrows_load(; const const const const mut;
        width: u64, pointer: Pointer, length: u64, exponent: u64) -> Reply;
    fn tree_borrows_store(; const const const mut mut;
        width: u64, pointer: Pointer, bytes: *const u32, bytes_length: usize, exponent: u64) -> Reply;
    fn tree_borrows_retag(entries: *mut Entry, entries_length: usize, count: usize; mut mut mut const mut;
        width: u64, layout: *const u32, layout_length: usize, pointer: Pointer,
        settings: RetagSettings) -> RetagReply;
    fn tree_borrows_end_call(entries: *const Entry, entries_length: usize, count: usize; const const mut const mut;
        width: u64, area: *mut u8, area_length: usize) -> Reply;
    fn tree_borrows_dereferenceable(; const const const const const;
        width: u64, pointer: Pointer, length: u64) -> Reply;
    fn tree_borrows_signed_dereferenceable(; const const const const const;
        width: u64, pointer: Pointer, length: i64) -> Reply;
    fn tree_borrows_leak_check(; const const const const const; width: u64) -> Reply;
    fn tree_borrows_run_list(; mut mut mut mut mut;
        frames: *mut u32, frames_length: usize, requests: *const u32, requests_length: usize,
        ends: *const u32, ends_length: usize, answers: *mut u32, answers_length: usize) -> ListReply;
}

extern "C" {
    pub fn tree_borrows_new_call(entries: *mut Entry, entries_length: usize) -> RetagReply;

    pub fn tree_borrows_load_view(
        words: *const u32,
        words_length: usize,
        reply: Reply,
        out: *mut u32,
        out_length: usize,
    ) -> usize;
}
