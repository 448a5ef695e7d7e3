//! A stand-in for lang.rs, with the three things that mem.rs takes from it.

use crate::prelude::*;

/// What mem.rs looks up for a trait object. The run supplies both.
#[derive(GcCompat, Clone, Copy, Debug, PartialEq, Eq, Hash, PartialOrd, Ord)]
pub struct VTable {
    pub size: Size,
    pub cells: List<(Offset, Size)>,
}

impl mem::LayoutStrategy {
    /// The metadata that a pointer to this layout carries: a tuple's is its tail's. Named by mem.rs,
    /// called by no request.
    pub fn meta_kind(self) -> mem::PointerMetaKind {
        match self {
            mem::LayoutStrategy::Sized(..) => mem::PointerMetaKind::None,
            mem::LayoutStrategy::Slice(..) => mem::PointerMetaKind::ElementCount,
            mem::LayoutStrategy::TraitObject(name) => mem::PointerMetaKind::VTablePointer(name),
            mem::LayoutStrategy::Tuple { tail, .. } => tail.extract().meta_kind(),
        }
    }
}
