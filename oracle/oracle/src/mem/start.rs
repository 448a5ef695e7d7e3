//! A memory and frames from their text: the lines that a list's output ends with (`a`, `d`, `n`, `f`, `w`). With it
//! the Rust can be asked about memories that no run makes. The text has to describe a well-formed memory;
//! frames may hold any entries. Without a width it is 64.

use super::numbering::Numbering;
use super::state::{Options, State};
use super::targets::{on, AnyState};
use super::*;

/// One `n` line.
struct Line {
    parent: usize,
    protected: Protected,
    row: List<Permission>,
}

pub fn parse(text: &str, options: Options) -> AnyState {
    let width = text.lines().find_map(|line| line.strip_prefix("w ")).map_or(64, number);
    let mut state = AnyState::new(width as u32, options);
    on!(&mut state, state => fill(state, text));
    state
}

fn fill<T: Target>(state: &mut State<T>, text: &str) {
    let lines: Vec<Vec<&str>> = text.lines().map(|line| line.split(' ').collect()).collect();
    let of = |letter: &'static str| lines.iter().filter(move |line| line[0] == letter);
    let count = of("a").count();
    let trees: Vec<Vec<Line>> = (0..count)
        .map(|a| of("n").filter(|line| number(line[1]) == a).map(|line| node_line(line)).collect())
        .collect();
    // Numbers first: words and entries name nodes of any allocation.
    state.numbers = trees.iter().map(|tree| numbering(tree)).collect();
    for ((a, d), tree) in of("a").zip(of("d")).zip(&trees) {
        let words = d[2..].iter().filter(|word| **word != "-");
        let data: Vec<_> =
            words.map(|word| state.byte(u32::from_str_radix(word, 16).expect("a word"))).collect();
        let allocation = Allocation {
            data: List::from_slice(&data),
            addr: Int::from(a[4].parse::<u64>().expect("an address")),
            align: Align::from_bytes(1u64 << number(a[6])).unwrap(),
            kind: kind(a[3]),
            live: a[2] == "live",
            extra: TreeBorrowsAllocationExtra { root: subtree(tree, 0) },
        };
        state.held.memory.mem.allocations.push(allocation);
    }
    for line in of("f") {
        let entries = line[2..].iter().filter(|entry| **entry != "-").map(|entry| {
            let (allocation, node) = entry.split_once('.').expect("an entry");
            state.provenance(number(allocation), number(node))
        });
        let entries: Vec<_> = entries.collect();
        state.held.frames[number(line[1])] =
            Some(TreeBorrowsFrameExtra { protectors: List::from_slice(&entries) });
    }
}

fn number(text: &str) -> usize {
    text.parse().expect("a number")
}

fn node_line(line: &[&str]) -> Line {
    let protected = match line[4] {
        "no" => Protected::No,
        "weak" => Protected::Weak,
        _ => Protected::Strong,
    };
    let row: Vec<Permission> = line[5].chars().filter(|c| *c != '-').map(permission).collect();
    let parent = if line[3] == "-" { 0 } else { number(line[3]) };
    Line { parent, protected, row: List::from_slice(&row) }
}

fn numbering(tree: &[Line]) -> Numbering {
    let mut numbering = Numbering::root();
    for line in &tree[1..] {
        let index = numbering.children[line.parent].len();
        numbering.add(line.parent, index);
    }
    numbering
}

fn subtree(tree: &[Line], node: usize) -> Node {
    let children: Vec<Node> = (node + 1..tree.len())
        .filter(|&child| tree[child].parent == node)
        .map(|child| subtree(tree, child))
        .collect();
    let line = &tree[node];
    Node { children: List::from_slice(&children), permissions: line.row, protected: line.protected }
}

fn kind(name: &str) -> AllocationKind {
    match name {
        "stack" => AllocationKind::Stack,
        "heap" => AllocationKind::Heap,
        "global" => AllocationKind::Global,
        "function" => AllocationKind::Function,
        _ => AllocationKind::VTable,
    }
}

fn permission(code: char) -> Permission {
    use PermissionProt as P;
    use PermissionUnprot as U;
    let reserved = |had_local_read, had_foreign_read| P::Reserved { had_local_read, had_foreign_read };
    match code {
        '0' => Permission::Unprot(U::Cell),
        '1' => Permission::Unprot(U::Reserved),
        '2' => Permission::Unprot(U::ReservedIm),
        '3' => Permission::Unprot(U::Unique),
        '4' => Permission::Unprot(U::Frozen),
        '5' => Permission::Unprot(U::Disabled),
        '6' => Permission::Prot(P::Cell),
        '7' => Permission::Prot(reserved(false, false)),
        '8' => Permission::Prot(reserved(true, false)),
        '9' => Permission::Prot(reserved(false, true)),
        'a' => Permission::Prot(reserved(true, true)),
        'b' => Permission::Prot(P::Unique),
        'c' => Permission::Prot(P::Frozen { had_local_read: false }),
        'd' => Permission::Prot(P::Frozen { had_local_read: true }),
        _ => Permission::Prot(P::Disabled),
    }
}
