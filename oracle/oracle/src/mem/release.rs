//! Why an end call is refused. In a run none is; with lent frames and memories it may be.
//!
//! The Rust has no number for it: it panics at an entry that isn't protected (16), and its message doesn't tell a
//! read of protected Unique (21) from a write (23). So the entries are released again, one by one, up to
//! the first that fails, and there the Rust's own transitions are made again in its order.

use super::refusals::{failure, Failure};
use super::state::{Held, RustMemory};
use super::*;
use std::panic::{catch_unwind, AssertUnwindSafe};

/// The refusal of an end call that fails on `held`, all of whose entries name nodes that were made.
pub fn why_refused<T: Target>(held: Held<T>, extra: TreeBorrowsFrameExtra) -> Failure {
    let mut memory = held.memory;
    for entry in extra.protectors.iter() {
        let before = memory;
        let released = catch_unwind(AssertUnwindSafe(|| memory.release_protector(entry)));
        let unprotected = holds_unprotected(before, entry);
        match released {
            Err(_) if unprotected => return 16.into(),
            Err(_) => return Failure::Unexpected("a panic at a protected entry".into()),
            Ok(_) if unprotected => return Failure::Unexpected("no panic at an unprotected entry".into()),
            Ok(Err(info)) => {
                let access = refused_access(before, entry).expect("some transition fails");
                return failure(info, access);
            }
            Ok(Ok(())) => {}
        }
    }
    Failure::Unexpected("the entries can be released one by one".into())
}

fn entry_node<T: Target>(memory: RustMemory<T>, (id, path): TreeBorrowsProvenance) -> Node {
    let root = memory.mem.allocations.index_at(id.0).extra.root;
    path.iter().fold(root, |node, index| node.children.index_at(index))
}

/// 16's sentence.
fn holds_unprotected<T: Target>(memory: RustMemory<T>, entry: TreeBorrowsProvenance) -> bool {
    let node = entry_node(memory, entry);
    !node.protected.yes() || node.permissions.any(|p| matches!(p, Permission::Unprot(_)))
}

/// The access of the first transition that fails.
fn refused_access<T: Target>(memory: RustMemory<T>, entry: TreeBorrowsProvenance) -> Option<AccessKind> {
    let accesses = entry_node(memory, entry).permissions.map(|p| p.unprotect().1);
    let root = memory.mem.allocations.index_at(entry.0 .0).extra.root;
    refused_below(root, Some(entry.1), accesses)
}

fn refused_below(node: Node, path: Option<Path>, accesses: List<Option<AccessKind>>) -> Option<AccessKind> {
    if path.is_some_and(|path| path.is_empty()) {
        return None;
    }
    let relation = if path.is_some() { NodeRelation::Local } else { NodeRelation::Foreign };
    for (mut permission, access) in node.permissions.iter().zip(accesses.iter()) {
        let Some(access) = access else { continue };
        if permission.transition(access, relation).is_err() {
            return Some(access);
        }
    }
    let below = path.and_then(|path| path.split_first());
    node.children.iter().enumerate().find_map(|(index, child)| {
        let sub_path = below.filter(|(head, _)| *head == Int::from(index)).map(|(_, tail)| tail);
        refused_below(child, sub_path, accesses)
    })
}
