//! Retags: what the Rust is told of the pointer and its pointee, and the port's own 3, 14 and 15.

use super::layout::{self, Described, NoMask};
use super::refusals::{failure, set_message, Failure};
use super::request::{Pointer as Named, Retag};
use super::state::{Answer, Held, RustMemory, State, Value, MOST_CODES, MOST_ENTRIES, MOST_NODES};
use super::*;
use crate::lang::VTable;

type Thin = ThinPointer<TreeBorrowsProvenance>;

/// The arguments of the Rust's `retag_ptr`.
#[derive(Clone, Copy)]
pub struct Call {
    pointer: Pointer<TreeBorrowsProvenance>,
    ptr_type: PtrType,
    vtable: VTable,
    fn_entry: bool,
}

impl Call {
    pub fn make<T: Target>(
        self,
        memory: &mut RustMemory<T>,
        frame: &mut TreeBorrowsFrameExtra,
    ) -> Result<Pointer<TreeBorrowsProvenance>> {
        memory.retag_ptr(frame, self.pointer, self.ptr_type, self.fn_entry, move |_| self.vtable)
    }
}

impl<T: Target> State<T> {
    pub fn retag(&mut self, named: Named, retag: Retag) -> Answer {
        let frame = retag.frame();
        if frame.is_some_and(|frame| self.held.frames[frame].is_none()) {
            return Err(2.into());
        }
        let described = self.described(retag)?;
        let thin = self.thin(named)?;
        let call = call(thin, retag, described);
        // A retag that reads a layout adds a node if its pointer has provenance.
        let adds_to = described.and(named.provenance).map(|(allocation, _)| allocation);
        if described.is_some_and(|d| d.mask_len == 0)
            && adds_to.is_some_and(|a| thin.addr < self.allocation(a).addr)
        {
            return Err(self.below_start(call));
        }
        let mut extra = frame.map_or(RustMemory::<T>::new_call(), |frame| self.held.frames[frame].unwrap());
        let retagged = call.make(&mut self.held.memory, &mut extra);
        let retagged = retagged.map_err(|info| failure(info, AccessKind::Read));
        if let Err(Failure::Refused(7..=9, _)) = retagged {
            return Err(retagged.unwrap_err());
        }
        // 15 comes before the refusals of the tree, though the Rust meets those first.
        if adds_to.is_some_and(|allocation| self.retag_exceeds(allocation, frame)) {
            return Err(15.into());
        }
        let retagged = retagged?.thin_pointer;
        if let Some(frame) = frame {
            self.held.frames[frame] = Some(extra);
        }
        Ok(Value::Pointer(self.number_new_node(thin, retagged)))
    }

    /// The layout of a retag that reads one, or 3.
    fn described(&self, retag: Retag) -> std::result::Result<Option<Described>, Failure> {
        match retag {
            Retag::Safe { words, .. } if !retag.is_pinned() => {
                let described = layout::describe(words, self.options.whole_counts);
                described.map(Some).map_err(|why| self.no_mask(why))
            }
            _ => Ok(None),
        }
    }

    /// 14: the Rust unwraps a negative offset there and panics.
    fn below_start(&self, call: Call) -> Failure {
        let confirmed = self.confirm_panic(|held| {
            let _ = call.make(&mut held.memory, &mut RustMemory::<T>::new_call());
        });
        confirmed.err().unwrap_or_else(|| 14.into())
    }

    /// The pointer in numbers; a path longer than before is a new node's.
    pub fn number_new_node(&mut self, before: Thin, after: Thin) -> Option<(usize, usize)> {
        let (id, path) = after.provenance?;
        let allocation = id.0.index();
        let (_, old_path) = before.provenance.expect("a retag makes no provenance");
        let parent = self.numbers[allocation].node(old_path);
        if path == old_path {
            return Some((allocation, parent));
        }
        let index = path.index_at(path.len() - 1).index();
        Some((allocation, self.numbers[allocation].add(parent, index)))
    }

    fn no_mask(&self, why: NoMask) -> Failure {
        if let NoMask::Panics(layout, cells, metadata, vtable) = why {
            let confirmed = self.confirm_panic(move |_| {
                let _ = cells.freeze_mask(layout, metadata, move |_| vtable);
            });
            if let Err(unexpected) = confirmed {
                return unexpected;
            }
        }
        3.into()
    }

    /// With `confirm_panics`: does the Rust panic there?
    fn confirm_panic(&self, call: impl FnOnce(&mut Held<T>)) -> std::result::Result<(), Failure> {
        let mut held = self.held;
        if !self.options.confirm_panics {
            return Ok(());
        }
        match std::panic::catch_unwind(std::panic::AssertUnwindSafe(|| call(&mut held))) {
            Err(_) => {
                set_message(Some("panic".into()));
                Ok(())
            }
            Ok(()) => Err(Failure::Unexpected("the Rust does not panic here".into())),
        }
    }

    fn retag_exceeds(&self, allocation: usize, frame: Option<usize>) -> bool {
        let nodes: usize = self.numbers.iter().map(|n| n.place.len()).sum();
        let size = self.allocation(allocation).data.len().index() as u64;
        let entries = frame.map_or(0, |f| self.held.frames[f].unwrap().protectors.len().index() + 1);
        nodes + 1 > MOST_NODES || self.codes() + size > MOST_CODES || entries > MOST_ENTRIES
    }
}

pub fn call(thin: Thin, retag: Retag, described: Option<Described>) -> Call {
    let (pointee, metadata, vtable) = pointee(retag, described);
    let ptr_type = pointer_type(retag, pointee);
    Call { pointer: thin.widen(metadata), ptr_type, vtable, fn_entry: retag.frame().is_some() }
}

/// What the Rust is told of the pointee. A retag that reads no layout is given an empty one.
fn pointee(
    retag: Retag,
    described: Option<Described>,
) -> (PointeeInfo, Option<PointerMeta<TreeBorrowsProvenance>>, VTable) {
    let (unpin, freeze) = match retag {
        Retag::Safe { unpin, freeze, .. } => (unpin, freeze),
        Retag::Unsafe { .. } => (false, false),
    };
    let layout = described.map_or(LayoutStrategy::Sized(Size::ZERO, Align::ONE), |d| d.layout);
    let unsafe_cells = described.map_or(UnsafeCellStrategy::Sized { cells: list![] }, |d| d.cells);
    let vtable = described.map_or(VTable { size: Size::ZERO, cells: list![] }, |d| d.vtable);
    let info = PointeeInfo { layout, inhabited: true, unsafe_cells, freeze, unpin };
    (info, described.and_then(|d| d.metadata), vtable)
}

fn pointer_type(retag: Retag, pointee: PointeeInfo) -> PtrType {
    match retag {
        Retag::Safe { extra: 0, .. } => PtrType::Ref { mutbl: Mutability::Immutable, pointee },
        Retag::Safe { extra: 1, .. } => PtrType::Ref { mutbl: Mutability::Mutable, pointee },
        Retag::Safe { .. } => PtrType::Box { pointee },
        Retag::Unsafe { extra: 3 } => PtrType::Raw { meta_kind: PointerMetaKind::None },
        Retag::Unsafe { extra: 4 } => PtrType::FnPtr,
        Retag::Unsafe { .. } => PtrType::VTablePtr(layout::trait_name()),
    }
}
