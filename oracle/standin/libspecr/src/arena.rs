//! The space that lists, boxes and strings live in: bytes handed out in order, never given back one by one.
//!
//! Between requests nothing but the driver's own values is in use. It then either empties the space
//! (`reset`, at the start of a run) or has those values copied into a second space (`collect`).

use crate::hidden::GcCompat;
use std::alloc::{alloc, handle_alloc_error, Layout};
use std::cell::{Cell, RefCell};

const CHUNK: usize = 1 << 20;
const ALIGN: usize = 16;
/// A space is not compacted below this size.
const SMALL: usize = 32 << 20;

/// Chunks in the order they are filled. All but `full` of them are free.
struct Space {
    chunks: Vec<(*mut u8, usize)>,
    full: usize,
    bytes: usize,
}

impl Space {
    const fn new() -> Space {
        Space { chunks: Vec::new(), full: 0, bytes: 0 }
    }

    /// Start the next chunk that has `bytes` bytes.
    fn next_chunk(&mut self, bytes: usize) -> (*mut u8, usize) {
        let free = self.full;
        let found = (free..self.chunks.len()).find(|&i| self.chunks[i].1 >= bytes);
        let at = found.unwrap_or_else(|| {
            self.chunks.push(new_chunk(bytes.max(CHUNK)));
            self.chunks.len() - 1
        });
        self.chunks.swap(free, at);
        self.full += 1;
        self.bytes += self.chunks[free].1;
        self.chunks[free]
    }

    fn empty(&mut self) {
        self.full = 0;
        self.bytes = 0;
    }
}

fn new_chunk(bytes: usize) -> (*mut u8, usize) {
    let layout = Layout::from_size_align(bytes, ALIGN).expect("a chunk's size");
    // SAFETY: a chunk is never empty.
    let start = unsafe { alloc(layout) };
    if start.is_null() {
        handle_alloc_error(layout);
    }
    (start, bytes)
}

thread_local! {
    static NEXT: Cell<usize> = const { Cell::new(0) };
    static END: Cell<usize> = const { Cell::new(0) };
    static LIMIT: Cell<usize> = const { Cell::new(SMALL) };
    static CURRENT: RefCell<Space> = const { RefCell::new(Space::new()) };
    static SPARE: RefCell<Space> = const { RefCell::new(Space::new()) };
}

/// Room for `count` values of type `T`.
#[inline]
pub fn room<T>(count: usize) -> *mut T {
    debug_assert!(std::mem::align_of::<T>() <= ALIGN);
    let bytes = (count * std::mem::size_of::<T>() + ALIGN - 1) & !(ALIGN - 1);
    let start = NEXT.get();
    if END.get() - start >= bytes && start != 0 {
        NEXT.set(start + bytes);
        return start as *mut T;
    }
    room_in_next_chunk(bytes) as *mut T
}

#[cold]
fn room_in_next_chunk(bytes: usize) -> *mut u8 {
    let (start, size) = CURRENT.with_borrow_mut(|space| space.next_chunk(bytes));
    NEXT.set(start as usize + bytes);
    END.set(start as usize + size);
    start
}

fn close_chunk() {
    NEXT.set(0);
    END.set(0);
}

/// Forget everything. No value made before may be used afterwards.
pub fn reset() {
    CURRENT.with_borrow_mut(Space::empty);
    LIMIT.set(SMALL);
    close_chunk();
}

/// The bytes of the chunks in use.
pub fn used() -> usize {
    CURRENT.with_borrow(|space| space.bytes)
}

/// Keep `value` and forget everything else.
pub fn collect<T: GcCompat>(value: &mut T) {
    CURRENT.with_borrow_mut(|current| SPARE.with_borrow_mut(|spare| std::mem::swap(current, spare)));
    close_chunk();
    *value = value.relocate();
    SPARE.with_borrow_mut(Space::empty);
    LIMIT.set(SMALL.max(4 * used()));
}

/// `collect` once the space has grown to several times of what was in use.
pub fn collect_if_large<T: GcCompat>(value: &mut T) {
    if used() > LIMIT.get() {
        collect(value);
    }
}
