//! Document 01's output.

use super::refusals::Failure;
use super::state::{Answer, State, Value};
use super::targets::width;
use super::*;
use std::fmt::Write;

pub fn answer(out: &mut std::string::String, index: usize, answer: &Answer) {
    let (refusal, third) = match answer {
        Ok(value) => (0, value),
        Err(Failure::Refused(refusal, value)) => (*refusal, value),
        Err(Failure::Unexpected(what)) => {
            // No answer looks like this line.
            writeln!(out, "{index} ! {what}").unwrap();
            return;
        }
    };
    write!(out, "{index} {refusal} ").unwrap();
    match third {
        Value::Nothing | Value::Pointer(None) => out.push('-'),
        Value::Pointer(Some((allocation, node))) => write!(out, "{allocation}.{node}").unwrap(),
        Value::Words(words) => push_words(out, words),
        Value::Leak(allocation) => write!(out, "{allocation}").unwrap(),
    }
    out.push('\n');
}

fn push_words(out: &mut std::string::String, words: &[u32]) {
    if words.is_empty() {
        out.push('-');
    }
    for (i, word) in words.iter().enumerate() {
        let space = if i == 0 { "" } else { " " };
        write!(out, "{space}{word:08x}").unwrap();
    }
}

pub fn memory<T: Target>(out: &mut std::string::String, state: &State<T>) {
    allocations(out, state, |out, number, root| nodes(out, state, number, root));
}

/// Each allocation, its bytes, and its nodes as `tree` prints them.
pub fn allocations<T: Target>(
    out: &mut std::string::String,
    state: &State<T>,
    tree: impl Fn(&mut std::string::String, usize, Node),
) {
    for (number, allocation) in state.held.memory.mem.allocations.iter().enumerate() {
        let live = if allocation.live { "live" } else { "dead" };
        let kind = kind(allocation.kind);
        let exponent = allocation.align.bytes().value().trailing_zeros();
        let (address, size) = (allocation.addr, allocation.data.len());
        writeln!(out, "a {number} {live} {kind} {address} {size} {exponent}").unwrap();
        write!(out, "d {number} ").unwrap();
        let words: Vec<u32> = allocation.data.iter().map(|byte| state.word(byte)).collect();
        push_words(out, &words);
        out.push('\n');
        tree(out, number, allocation.extra.root);
    }
}

/// The tree's nodes, found by their paths and printed by their numbers.
fn nodes<T: Target>(out: &mut std::string::String, state: &State<T>, allocation: usize, root: Node) {
    let numbering = &state.numbers[allocation];
    let mut found: Vec<Option<Node>> = vec![None; numbering.place.len()];
    found[0] = Some(root);
    for number in 0..found.len() {
        // A parent is made before its children.
        let node = found[number].expect("every numbered node is in the tree");
        assert!(node.children.len() == Int::from(numbering.children[number].len()));
        for (child, &child_number) in node.children.iter().zip(&numbering.children[number]) {
            found[child_number] = Some(child);
        }
        write!(out, "n {allocation} {number} ").unwrap();
        match numbering.place[number] {
            Some((parent, _)) => write!(out, "{parent} ").unwrap(),
            None => out.push_str("- "),
        }
        out.push_str(protector(node.protected));
        out.push(' ');
        if node.permissions.is_empty() {
            out.push('-');
        }
        out.extend(node.permissions.iter().map(code));
        out.push('\n');
    }
}

/// Open frames with their entries and the width, for lists only: document 01's output has neither.
pub fn frames_and_width<T: Target>(out: &mut std::string::String, state: &State<T>) {
    for (number, frame) in state.held.frames.iter().enumerate() {
        let Some(frame) = frame else { continue };
        write!(out, "f {number}").unwrap();
        let entries = state.entries(*frame);
        if entries.is_empty() {
            out.push_str(" -");
        }
        for (allocation, node) in entries {
            write!(out, " {allocation}.{node}").unwrap();
        }
        out.push('\n');
    }
    writeln!(out, "w {}", width::<T>()).unwrap();
}

fn kind(kind: AllocationKind) -> &'static str {
    match kind {
        AllocationKind::Stack => "stack",
        AllocationKind::Heap => "heap",
        AllocationKind::Global => "global",
        AllocationKind::Function => "function",
        AllocationKind::VTable => "vtable",
    }
}

pub fn protector(protected: Protected) -> &'static str {
    match protected {
        Protected::No => "no",
        Protected::Weak => "weak",
        Protected::Strong => "strong",
    }
}

pub fn code(permission: Permission) -> char {
    match permission {
        Permission::Unprot(p) => match p {
            PermissionUnprot::Cell => '0',
            PermissionUnprot::Reserved => '1',
            PermissionUnprot::ReservedIm => '2',
            PermissionUnprot::Unique => '3',
            PermissionUnprot::Frozen => '4',
            PermissionUnprot::Disabled => '5',
        },
        Permission::Prot(p) => match p {
            PermissionProt::Cell => '6',
            PermissionProt::Reserved { had_local_read, had_foreign_read } => {
                match (had_local_read, had_foreign_read) {
                    (false, false) => '7',
                    (true, false) => '8',
                    (false, true) => '9',
                    (true, true) => 'a',
                }
            }
            PermissionProt::Unique => 'b',
            PermissionProt::Frozen { had_local_read: false } => 'c',
            PermissionProt::Frozen { had_local_read: true } => 'd',
            PermissionProt::Disabled => 'e',
        },
    }
}
