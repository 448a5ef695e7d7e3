//! What a reference or box points to: its bytes, and which of them lie in an `UnsafeCell`.

use std::ops::Range;

/// Bytes of fixed size, with the ranges that lie in an `UnsafeCell`, in order.
#[derive(Clone, Debug, PartialEq, Eq)]
pub struct Part {
    pub size: u32,
    pub cells: Vec<Range<u16>>,
}

impl Part {
    pub fn without_cells(size: u32) -> Part {
        Part { size, cells: Vec::new() }
    }
}

#[derive(Clone, Debug, PartialEq, Eq)]
pub enum Shape {
    Sized(Part),
    /// One element, repeated by the element count.
    Slice(Part),
    /// The type behind the vtable.
    TraitObject(Part),
    /// What lies before the last field, and directly behind it that field.
    Tuple(Part, Box<Shape>),
}

/// What a wide pointer carries.
#[derive(Clone, Copy, Debug, PartialEq, Eq)]
pub enum Metadata {
    None,
    ElementCount(u32),
    VTable,
}

#[derive(Clone, Debug, PartialEq, Eq)]
pub struct Pointee {
    pub metadata: Metadata,
    pub shape: Shape,
    /// It implements `Unpin`. A mutable reference to one that does not makes no node.
    pub unpin: bool,
    /// It implements `Freeze`: no byte of its type lies in an `UnsafeCell`.
    pub freeze: bool,
}

impl Pointee {
    /// A type that is sized and has no `UnsafeCell`.
    pub fn of<T>() -> Pointee {
        let size = u32::try_from(std::mem::size_of::<T>()).unwrap_or(u32::MAX);
        Pointee::sized(Part::without_cells(size))
    }

    pub fn sized(part: Part) -> Pointee {
        Pointee::new(Metadata::None, Shape::Sized(part))
    }

    /// So many elements.
    pub fn slice(count: u32, element: Part) -> Pointee {
        Pointee::new(Metadata::ElementCount(count), Shape::Slice(element))
    }

    /// It is `Unpin`, and `Freeze` if it has no cells.
    pub fn new(metadata: Metadata, shape: Shape) -> Pointee {
        let freeze = !shape.has_cells();
        Pointee { metadata, shape, unpin: true, freeze }
    }

    /// The layout words of a retag. A number that is too large for its field stands as the largest there,
    /// which has no mask either; more than 255 cells have no words, and so no mask.
    pub(crate) fn layout(&self) -> Vec<u32> {
        let metadata = match self.metadata {
            Metadata::None => 0,
            Metadata::ElementCount(count) => 1 << 30 | count.min((1 << 30) - 1),
            Metadata::VTable => 2 << 30,
        };
        let mut words = vec![metadata];
        match self.shape.append_to(&mut words) {
            Ok(()) => words,
            Err(TooManyCells) => Vec::new(),
        }
    }
}

/// In one header.
struct TooManyCells;

impl Shape {
    /// The number of the layout, its part, and a tuple's tail.
    fn parts(&self) -> (u32, &Part, Option<&Shape>) {
        match self {
            Shape::Sized(part) => (0, part, None),
            Shape::Slice(part) => (1, part, None),
            Shape::TraitObject(part) => (2, part, None),
            Shape::Tuple(head, tail) => (3, head, Some(tail)),
        }
    }

    fn has_cells(&self) -> bool {
        let (_, part, tail) = self.parts();
        !part.cells.is_empty() || tail.is_some_and(Shape::has_cells)
    }

    fn append_to(&self, words: &mut Vec<u32>) -> Result<(), TooManyCells> {
        let (layout, part, tail) = self.parts();
        let cells = u8::try_from(part.cells.len()).map_err(|_| TooManyCells)?;
        words.push(layout << 30 | (cells as u32) << 22 | part.size.min((1 << 22) - 1));
        words.extend(part.cells.iter().map(|cell| (cell.start as u32) << 16 | cell.len() as u32));
        tail.map_or(Ok(()), |tail| tail.append_to(words))
    }
}
