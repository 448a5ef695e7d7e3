//! Layout words to the Rust's layout, cells and metadata; and refusal 3, which the port adds.
//!
//! Some layouts without a mask make the Rust panic (cells out of order, metadata of another kind). The
//! others have no form in the Rust at all (words left over or missing) or are a bound of the port (nine tuples,
//! a mask over 4,096 bytes).

use super::*;
use crate::lang::VTable;
use libspecr::hidden::GcCow;

const MOST_TUPLES: usize = 8;
const LARGEST_MASK: u64 = 4096;
/// The Rust appends an element's mask once for each element. For elements of size 0 that is nothing, as
/// often as it may be, so the driver passes on at most this count; `--whole-counts` passes on all.
const EMPTY_ELEMENTS: u32 = 4;

#[derive(Clone, Copy)]
pub struct Described {
    pub layout: LayoutStrategy,
    pub cells: UnsafeCellStrategy,
    pub metadata: Option<PointerMeta<TreeBorrowsProvenance>>,
    pub vtable: VTable,
    pub mask_len: u64,
}

/// Why there is no mask.
#[derive(Clone, Copy, PartialEq)]
pub enum NoMask {
    /// The Rust panics on this layout, which is here.
    Panics(LayoutStrategy, UnsafeCellStrategy, Option<PointerMeta<TreeBorrowsProvenance>>, VTable),
    /// The port's own: no such layout can be given to the Rust, or a bound.
    Own,
}

struct Header {
    strategy: u32,
    size: u32,
    cells: List<(Offset, Size)>,
    cells_fit: bool,
}

/// A layout that the Rust can be given, whether or not it has a mask.
pub struct Given {
    pub described: Described,
    tuples: usize,
    /// Cells and metadata are such that the Rust makes a mask of any length.
    has_mask: bool,
}

/// The layout, with the port's bounds: 3 where it has no mask.
pub fn describe(words: &[u32], whole_counts: bool) -> std::result::Result<Described, NoMask> {
    let Given { described, tuples, has_mask } = given(words, whole_counts).ok_or(NoMask::Own)?;
    if tuples > MOST_TUPLES {
        return Err(NoMask::Own);
    }
    if !has_mask {
        let Described { layout, cells, metadata, vtable, .. } = described;
        return Err(NoMask::Panics(layout, cells, metadata, vtable));
    }
    if described.mask_len > LARGEST_MASK {
        return Err(NoMask::Own);
    }
    Ok(described)
}

/// The layout in the Rust's terms; none where words are missing or left over.
pub fn given(words: &[u32], whole_counts: bool) -> Option<Given> {
    let (&metadata_word, after) = words.split_first()?;
    let (headers, rest) = headers(after)?;
    if !rest.is_empty() {
        return None;
    }
    let (tail, heads) = headers.split_last().expect("a header");
    let kind = metadata_word >> 30;
    let mut count = metadata_word & 0x3fff_ffff;
    if tail.strategy == 1 && tail.size == 0 && !whole_counts {
        count = count.min(EMPTY_ELEMENTS);
    }
    let metadata = metadata(kind, count);
    let vtable = VTable { size: size(tail.size), cells: tail.cells };
    let (layout, cells) = heads.iter().rev().fold(last(tail), |(l, c), head| nest(head, l, c));
    let needed = [None, Some(1), Some(2)][tail.strategy as usize];
    let metadata_fits = needed.map_or(true, |needed| needed == kind);
    let has_mask = metadata_fits && headers.iter().all(|header| header.cells_fit);
    let repeats = if tail.strategy == 1 { count as u64 } else { 1 };
    let heads_len: u64 = heads.iter().map(|head| head.size as u64).sum();
    let mask_len = heads_len + tail.size as u64 * repeats;
    let described = Described { layout, cells, metadata, vtable, mask_len };
    Some(Given { described, tuples: heads.len(), has_mask })
}

/// All headers, up to the first that is no tuple, and the words behind it.
fn headers(mut words: &[u32]) -> Option<(Vec<Header>, &[u32])> {
    let mut headers = Vec::new();
    loop {
        let (&word, after) = words.split_first()?;
        let count = (word >> 22 & 0xff) as usize;
        if after.len() < count {
            return None;
        }
        let (cells, rest) = after.split_at(count);
        words = rest;
        headers.push(header(word, cells));
        if word >> 30 != 3 {
            return Some((headers, words));
        }
    }
}

fn header(word: u32, cells: &[u32]) -> Header {
    let mut end = 0;
    let mut cells_fit = true;
    for cell in cells {
        cells_fit &= cell >> 16 >= end;
        end = (cell >> 16) + (cell & 0xffff);
    }
    let list: Vec<_> = cells.iter().map(|cell| (size(cell >> 16), size(cell & 0xffff))).collect();
    let bytes = word & 0x3f_ffff;
    Header {
        strategy: word >> 30,
        size: bytes,
        cells: List::from_slice(&list),
        cells_fit: cells_fit && end <= bytes,
    }
}

fn size(bytes: u32) -> Size {
    Size::from_bytes(bytes).unwrap()
}

fn metadata(kind: u32, count: u32) -> Option<PointerMeta<TreeBorrowsProvenance>> {
    match kind {
        1 => Some(PointerMeta::ElementCount(Int::from(count))),
        // The run supplies what the Rust looks up, so the pointer to the vtable may be any.
        2 => Some(PointerMeta::VTablePointer(ThinPointer { addr: Int::ZERO, provenance: None })),
        _ => None,
    }
}

/// The Rust's terms for a header that is no tuple. Alignments and trait names are not read by mem.rs.
fn last(header: &Header) -> (LayoutStrategy, UnsafeCellStrategy) {
    let cells = header.cells;
    match header.strategy {
        0 => (LayoutStrategy::Sized(size(header.size), Align::ONE), UnsafeCellStrategy::Sized { cells }),
        1 => (
            LayoutStrategy::Slice(size(header.size), Align::ONE),
            UnsafeCellStrategy::Slice { element_cells: cells },
        ),
        _ => (LayoutStrategy::TraitObject(trait_name()), UnsafeCellStrategy::TraitObject),
    }
}

fn nest(
    head: &Header,
    tail: LayoutStrategy,
    tail_cells: UnsafeCellStrategy,
) -> (LayoutStrategy, UnsafeCellStrategy) {
    let head_layout = TupleHeadLayout { end: size(head.size), align: Align::ONE, packed_align: None };
    (
        LayoutStrategy::Tuple { head: head_layout, tail: GcCow::new(tail) },
        UnsafeCellStrategy::Tuple { head_cells: head.cells, tail_cells: GcCow::new(tail_cells) },
    )
}

pub fn trait_name() -> TraitName {
    TraitName(libspecr::Name(0))
}
