//! A second implementation of document 01 and of M-110's width, flat and by its own sentences: codes are numbers in rows, nodes have
//! numbers and parents, transitions are a table. It shares no code with the oracle.

use crate::coverage;
use std::fmt::Write;

/// The most words that may follow a request's fourth in a run. A list has no such limit.
const MOST_WORDS: usize = 4096;

const READ: u8 = 0;
const WRITE: u8 = 1;
const LOCAL: u8 = 0;
const FOREIGN: u8 = 1;

/// By relation and access, for each code: the next code, or a refusal (17 and above).
const NEXT: [[[u8; 15]; 2]; 2] = [
    [
        [0, 1, 2, 3, 4, 17, 6, 8, 8, 10, 10, 11, 13, 13, 26],
        [0, 3, 3, 3, 18, 19, 6, 11, 11, 20, 20, 11, 27, 27, 28],
    ],
    [
        [0, 1, 2, 4, 4, 5, 6, 9, 10, 9, 10, 21, 12, 13, 14],
        [0, 5, 2, 5, 5, 5, 6, 14, 22, 14, 22, 23, 14, 22, 14],
    ],
];

/// The code without its protector, from code 6 on.
const UNPROTECTED: [u8; 9] = [0, 1, 1, 1, 1, 3, 4, 4, 5];

#[derive(Clone, Debug, PartialEq)]
pub struct Node {
    pub parent: usize,
    /// 0 no, 1 weak, 2 strong.
    pub protector: u8,
    pub codes: Vec<u8>,
}

#[derive(Clone, Debug, PartialEq)]
pub struct Alloc {
    pub live: bool,
    pub kind: u32,
    pub exponent: u32,
    pub address: u64,
    pub words: Vec<u32>,
    pub nodes: Vec<Node>,
}

#[derive(Clone, Debug, PartialEq)]
pub struct Reference {
    pub allocs: Vec<Alloc>,
    pub frames: Vec<Option<Vec<(usize, usize)>>>,
    /// 16, 32 or 64 bits.
    pub width: u32,
}

#[derive(Clone, Debug, PartialEq)]
pub enum Third {
    None,
    Pointer(usize, usize),
    Words(Vec<u32>),
    Leak(usize),
}

#[derive(Clone, Debug, PartialEq)]
pub struct Answer {
    pub refusal: u8,
    pub third: Third,
}

type Outcome = Result<Third, u8>;

/// The four words that every request has, taken apart.
struct Fields {
    kind: u32,
    allocation: usize,
    node: usize,
    has: bool,
    exponent: u32,
    extra: u32,
    address: u64,
    fourth: u32,
}

impl Fields {
    fn of(w: &[u32]) -> Fields {
        Fields {
            kind: w[0] / 0x1000_0000,
            allocation: (w[0] / 0x20_0000 % 128) as usize,
            node: (w[0] / 0x200 % 4096) as usize,
            has: w[0] / 0x100 % 2 == 1,
            exponent: w[0] / 8 % 32,
            extra: w[0] % 8,
            address: w[1] as u64 * 0x1_0000_0000 + w[2] as u64,
            fourth: w[3],
        }
    }

    fn no_provenance_fields(&self) -> bool {
        !self.has && self.allocation == 0 && self.node == 0
    }

    /// How many words follow the fourth.
    fn tail(&self) -> u64 {
        match self.kind {
            3 => self.fourth as u64,
            4 if self.extra < 3 => self.fourth as u64 % 0x80_0000,
            _ => 0,
        }
    }

    /// Every field is in its list, as far as one can tell without a memory.
    fn in_lists(&self) -> bool {
        let pointer = self.has || self.no_provenance_fields();
        let plain = self.exponent == 0 && self.extra == 0;
        match self.kind {
            0 => self.no_provenance_fields() && self.extra < 5 && self.exponent < 30,
            1 => pointer && self.extra < 5 && self.exponent < 30,
            2 | 3 => pointer && self.extra == 0 && self.exponent < 30,
            4 => pointer && self.extra < 6 && self.exponent == 0 && self.fourth_in_lists(),
            5 | 6 => self.no_provenance_fields() && plain && self.address == 0 && self.fourth < 32,
            7 | 8 => pointer && plain,
            9 => self.no_provenance_fields() && plain && self.address == 0 && self.fourth == 0,
            15 => {
                let zero = self.exponent == 0 && self.address == 0 && self.fourth == 0;
                self.no_provenance_fields() && zero && self.extra < 3
            }
            _ => false,
        }
    }

    fn fourth_in_lists(&self) -> bool {
        if self.extra >= 3 {
            return self.fourth == 0;
        }
        let zero_bit = self.fourth / 0x1000_0000 % 2;
        zero_bit == 0 && (self.function_entry() || self.frame() == 0)
    }

    fn function_entry(&self) -> bool {
        self.fourth >= 0x8000_0000
    }
    fn unpin(&self) -> bool {
        self.fourth / 0x4000_0000 % 2 == 1
    }
    fn freeze(&self) -> bool {
        self.fourth / 0x2000_0000 % 2 == 1
    }
    fn frame(&self) -> usize {
        (self.fourth / 0x80_0000 % 32) as usize
    }

    /// A retag that adds no node whatever its pointer.
    fn leaves_pointer(&self) -> bool {
        self.extra >= 3 || self.extra == 1 && !self.unpin()
    }
}

/// Where the request that starts at `at` ends, and its words if all of them are there.
pub fn next_request(input: &[u8], at: usize) -> (Option<Vec<u32>>, usize) {
    let rest = &input[at..];
    let words: Vec<u32> =
        rest.chunks_exact(4).take(4).map(|c| u32::from_be_bytes(c.try_into().unwrap())).collect();
    if words.len() < 4 {
        return (None, input.len());
    }
    let total = 4 * (4 + Fields::of(&words).tail());
    if (rest.len() as u64) < total {
        return (None, input.len());
    }
    let all = rest[..total as usize].chunks_exact(4);
    (Some(all.map(|c| u32::from_be_bytes(c.try_into().unwrap())).collect()), at + total as usize)
}

/// The highest address that a pointer of the width holds.
pub fn last_address(width: u32) -> u64 {
    u64::MAX >> (64 - width)
}

/// A well-formed byte word: its position is one of a pointer's bytes.
fn valid_byte(word: u32, width: u32) -> bool {
    let initialised = word >= 0x8000_0000;
    let provenance = word / 0x4000_0000 % 2 == 1;
    let middle = word / 0x100 % 0x40_0000;
    if !initialised {
        word == 0
    } else {
        provenance && position(word) < width / 8 || middle == 0
    }
}

fn position(word: u32) -> u32 {
    word / 0x800_0000 % 8
}

/// The freeze mask of layout words, or none.
pub fn mask(words: &[u32]) -> Option<Vec<bool>> {
    let (&metadata, mut rest) = words.split_first()?;
    let (kind, count) = (metadata >> 30, (metadata & 0x3fff_ffff) as usize);
    let mut mask = Vec::new();
    let mut tuples = 0;
    loop {
        let (&header, after) = rest.split_first()?;
        let cells = (header >> 22 & 255) as usize;
        let size = (header & 0x3f_ffff) as usize;
        if after.len() < cells {
            return None;
        }
        let part = fixed_mask(&after[..cells], size)?;
        rest = &after[cells..];
        let times = match header >> 30 {
            0 | 3 => 1,
            1 if kind == 1 => count,
            2 if kind == 2 => 1,
            _ => return None,
        };
        if mask.len() as u64 + part.len() as u64 * times as u64 > 4096 {
            return None;
        }
        if !part.is_empty() {
            (0..times).for_each(|_| mask.extend(&part));
        }
        if header >> 30 != 3 {
            return rest.is_empty().then_some(mask);
        }
        tuples += 1;
        if tuples > 8 {
            return None;
        }
    }
}

/// The mask of one header: in order, not overlapping, within the size.
fn fixed_mask(cells: &[u32], size: usize) -> Option<Vec<bool>> {
    let mut mask = vec![true; size];
    let mut free = 0;
    for cell in cells {
        let (from, len) = ((cell >> 16) as usize, (cell & 0xffff) as usize);
        if from < free || from + len > size {
            return None;
        }
        free = from + len;
        mask[from..free].fill(false);
    }
    Some(mask)
}

impl Default for Reference {
    fn default() -> Self {
        Self::new()
    }
}

impl Reference {
    pub fn new() -> Reference {
        Reference { allocs: Vec::new(), frames: vec![None; 32], width: 64 }
    }

    /// Answer one request; none stands for one that the input ends inside.
    pub fn step(&mut self, words: Option<&[u32]>) -> Answer {
        let outcome = self.outcome(words);
        self.answer(words, outcome)
    }

    /// The same in a run, where a request with too many words falls under 2.
    pub fn step_in_run(&mut self, words: Option<&[u32]>) -> Answer {
        let outcome = self.outcome(words.filter(|words| words.len() <= 4 + MOST_WORDS));
        self.answer(words, outcome)
    }

    fn answer(&self, words: Option<&[u32]>, outcome: Outcome) -> Answer {
        let answer = match outcome {
            Ok(third) => Answer { refusal: 0, third },
            Err(25) => Answer { refusal: 25, third: Third::Leak(self.leaks().next().unwrap()) },
            Err(refusal) => Answer { refusal, third: Third::None },
        };
        coverage::answer(words.map_or(16, |w| w[0] >> 28), answer.refusal);
        answer
    }

    fn outcome(&mut self, words: Option<&[u32]>) -> Outcome {
        let words = words.ok_or(2)?;
        let f = Fields::of(words);
        let after = &words[4..];
        if !f.in_lists() || after.len() as u64 != f.tail() {
            return Err(2);
        }
        if f.address > last_address(self.width) {
            coverage::width(|| self.too_big(&f));
            return Err(2);
        }
        match f.kind {
            0 => return self.allocate(&f),
            4 => return self.retag(&f, after),
            5 => return self.new_call(f.fourth as usize),
            6 => return self.end_call(f.fourth as usize),
            9 => return if self.leaks().next().is_some() { Err(25) } else { Ok(Third::None) },
            15 => return self.empty(f.extra),
            _ => {}
        }
        if f.kind == 3 && !after.iter().all(|&w| valid_byte(w, self.width)) {
            coverage::width(|| self.beyond_positions(after));
            return Err(2);
        }
        self.made(&f)?;
        match f.kind {
            1 => self.deallocate(&f),
            2 | 3 => self.load_or_store(&f, after),
            7 => self.inside(&f, f.address as i128, f.fourth as i128).map(|()| Third::None),
            _ => {
                let len = f.fourth as i32 as i128;
                let start = f.address as i128 + len.min(0);
                self.inside(&f, start, len.abs()).map(|()| Third::None)
            }
        }
    }

    fn leaks(&self) -> impl Iterator<Item = usize> + '_ {
        (0..self.allocs.len()).filter(|&i| self.allocs[i].live && self.allocs[i].kind == 1)
    }

    /// 4.
    fn made(&self, f: &Fields) -> Result<(), u8> {
        let made = self.allocs.get(f.allocation).is_some_and(|a| f.node < a.nodes.len());
        if f.has && !made {
            Err(4)
        } else {
            Ok(())
        }
    }

    /// 7, 8 and 9.
    fn inside(&self, f: &Fields, start: i128, len: i128) -> Result<(), u8> {
        if len == 0 {
            return Ok(());
        }
        if !f.has {
            return Err(7);
        }
        let a = &self.allocs[f.allocation];
        if !a.live {
            return Err(8);
        }
        let low = a.address as i128;
        let high = low + a.words.len() as i128;
        if start < low || start + len > high {
            Err(9)
        } else {
            Ok(())
        }
    }

    fn allocate(&mut self, f: &Fields) -> Outcome {
        let (start, size) = (f.address as u128, f.fourth as u128);
        let end = start + size;
        let aligned = start > 0 && start % (1 << f.exponent) == 0;
        let fits = aligned && end < 1 << self.width;
        let clash = self.allocs.iter().filter(|a| a.live).any(|a| {
            let low = a.address as u128;
            let high = low + a.words.len() as u128;
            low == start || low < end && start < high
        });
        if !fits || clash {
            coverage::width(|| self.beyond_last(aligned && !clash));
            return Err(5);
        }
        let words: usize = self.allocs.iter().map(|a| a.words.len()).sum();
        let room = self.allocs.len() < 128
            && words as u128 + size <= 4096
            && self.nodes() < 1024
            && self.codes() as u128 + size <= 32768;
        coverage::width(|| self.up_to_last(end, size));
        if !room {
            return Err(15);
        }
        let size = size as usize;
        let root = Node { parent: 0, protector: 0, codes: vec![3; size] };
        self.allocs.push(Alloc {
            live: true,
            kind: f.extra,
            exponent: f.exponent,
            address: f.address,
            words: vec![0; size],
            nodes: vec![root],
        });
        Ok(Third::Pointer(self.allocs.len() - 1, 0))
    }

    pub fn nodes(&self) -> usize {
        self.allocs.iter().map(|a| a.nodes.len()).sum()
    }

    pub fn codes(&self) -> usize {
        self.allocs.iter().map(|a| a.nodes.len() * a.words.len()).sum()
    }

    fn deallocate(&mut self, f: &Fields) -> Outcome {
        if !f.has {
            return Err(7);
        }
        let a = &self.allocs[f.allocation];
        let conditions = [
            (8, a.live),
            (10, a.address == f.address),
            (11, a.kind == f.extra),
            (12, a.words.len() == f.fourth as usize),
            (13, a.exponent == f.exponent),
        ];
        if let Some((refusal, _)) = conditions.iter().find(|(_, holds)| !holds) {
            return Err(*refusal);
        }
        let mut after = a.nodes.clone();
        access(&mut after, f.node, 0..a.words.len(), WRITE)?;
        let prevents = |n: &Node| n.protector == 2 && n.codes.iter().any(|c| [8, 10, 11, 13].contains(c));
        if after.iter().any(prevents) {
            return Err(24);
        }
        let a = &mut self.allocs[f.allocation];
        a.nodes = after;
        a.live = false;
        Ok(Third::None)
    }

    fn load_or_store(&mut self, f: &Fields, bytes: &[u32]) -> Outcome {
        if f.address % (1 << f.exponent) != 0 {
            return Err(6);
        }
        self.inside(f, f.address as i128, f.fourth as i128)?;
        if f.fourth == 0 {
            return Ok(Third::None);
        }
        let a = &mut self.allocs[f.allocation];
        let from = (f.address - a.address) as usize;
        let range = from..from + f.fourth as usize;
        let kind = if f.kind == 3 { WRITE } else { READ };
        let mut after = a.nodes.clone();
        access(&mut after, f.node, range.clone(), kind)?;
        a.nodes = after;
        if f.kind == 3 {
            a.words[range].copy_from_slice(bytes);
            coverage::width(|| highest_positions(bytes, self.width));
            return Ok(Third::None);
        }
        Ok(Third::Words(a.words[range].to_vec()))
    }

    fn retag(&mut self, f: &Fields, words: &[u32]) -> Outcome {
        let reads_layout = !f.leaves_pointer();
        let entry = f.extra < 3 && f.function_entry();
        if entry && self.frames[f.frame()].is_none() {
            return Err(2);
        }
        if reads_layout && words.first().is_some_and(|w| w >> 30 == 3 || w >> 30 != 1 && w << 2 != 0) {
            return Err(2);
        }
        let mask = if reads_layout { mask(words).ok_or(3)? } else { Vec::new() };
        coverage::layouts(|| describe(f, words));
        self.made(f)?;
        let same = if f.has { Third::Pointer(f.allocation, f.node) } else { Third::None };
        if !reads_layout || mask.is_empty() && !f.has {
            return Ok(same);
        }
        self.inside(f, f.address as i128, mask.len() as i128)?;
        let a = &self.allocs[f.allocation];
        if f.address < a.address {
            return Err(14);
        }
        let full = entry && self.frames[f.frame()].as_ref().unwrap().len() >= 64;
        if full || self.nodes() >= 1024 || self.codes() + a.words.len() > 32768 {
            return Err(15);
        }
        let number = a.nodes.len();
        let from = (f.address - a.address) as usize;
        let mut after = a.nodes.clone();
        let outside = initial_code(f, f.freeze());
        let mut codes = vec![outside; a.words.len()];
        if !mask.is_empty() {
            let inside = mask.iter().map(|&freeze| initial_code(f, freeze));
            codes.splice(from..from + mask.len(), inside);
        }
        let is_cell = |code: u8| code == 0 || code == 6;
        let read: Vec<usize> = (from..from + mask.len()).filter(|&i| !is_cell(codes[i])).collect();
        let protector = if !entry {
            0
        } else if f.extra == 2 {
            1
        } else {
            2
        };
        after.push(Node { parent: f.node, protector, codes });
        for byte in read {
            access(&mut after, number, byte..byte + 1, READ)?;
        }
        self.allocs[f.allocation].nodes = after;
        if entry {
            self.frames[f.frame()].as_mut().unwrap().push((f.allocation, number));
        }
        Ok(Third::Pointer(f.allocation, number))
    }

    /// Nothing is left but the width that is asked for.
    fn empty(&mut self, extra: u32) -> Outcome {
        let width = [16, 32, 64][extra as usize];
        coverage::width(|| self.emptied(width));
        *self = Reference { width, ..Reference::new() };
        Ok(Third::None)
    }

    fn new_call(&mut self, frame: usize) -> Outcome {
        if self.frames[frame].is_some() {
            return Err(2);
        }
        self.frames[frame] = Some(Vec::new());
        Ok(Third::None)
    }

    fn end_call(&mut self, frame: usize) -> Outcome {
        let entries = self.frames[frame].clone().ok_or(2)?;
        let made = |&(a, n): &(usize, usize)| self.allocs.get(a).is_some_and(|alloc| n < alloc.nodes.len());
        if !entries.iter().all(made) {
            return Err(4);
        }
        let mut allocs = self.allocs.clone();
        for (allocation, node) in entries {
            release(&mut allocs[allocation], node)?;
        }
        self.allocs = allocs;
        self.frames[frame] = None;
        Ok(Third::None)
    }
}

/// A byte's first code: Frozen or Reserved where it is frozen, Cell or ReservedIm where not, and each
/// protected at function entry, where a mutable reference's cell bytes are Reserved too.
fn initial_code(f: &Fields, freeze: bool) -> u8 {
    match (f.function_entry(), f.extra == 0, freeze) {
        (false, true, true) => 4,
        (false, true, false) => 0,
        (false, false, true) => 1,
        (false, false, false) => 2,
        (true, true, true) => 12,
        (true, true, false) => 6,
        (true, false, _) => 7,
    }
}

/// Nodes with each parent before its children and children in the order of making.
fn visiting_order(nodes: &[Node]) -> Vec<usize> {
    let mut children = vec![Vec::new(); nodes.len()];
    (1..nodes.len()).for_each(|n| children[nodes[n].parent].push(n));
    let mut order = Vec::new();
    let mut waiting = vec![0];
    while let Some(node) = waiting.pop() {
        order.push(node);
        waiting.extend(children[node].iter().rev());
    }
    order
}

/// Is `node` on the path from the root to `target`?
fn on_path(nodes: &[Node]) -> impl Fn(usize, usize) -> bool + '_ {
    move |node, target| {
        let mut at = target;
        while at > node {
            at = nodes[at].parent;
        }
        at == node
    }
}

fn access(nodes: &mut [Node], target: usize, bytes: std::ops::Range<usize>, kind: u8) -> Result<(), u8> {
    if bytes.is_empty() {
        return Ok(());
    }
    let mut local = vec![false; nodes.len()];
    let mut at = target;
    loop {
        local[at] = true;
        if at == 0 {
            break;
        }
        at = nodes[at].parent;
    }
    for node in visiting_order(nodes) {
        let relation = if local[node] { LOCAL } else { FOREIGN };
        for byte in bytes.clone() {
            change(&mut nodes[node].codes[byte], kind, relation)?;
        }
    }
    Ok(())
}

fn change(code: &mut u8, kind: u8, relation: u8) -> Result<(), u8> {
    let next = NEXT[relation as usize][kind as usize][*code as usize];
    coverage::pair(*code, kind, relation);
    if next >= 17 {
        return Err(next);
    }
    *code = next;
    Ok(())
}

/// The end of one protector.
fn release(alloc: &mut Alloc, node: usize) -> Result<(), u8> {
    let given = alloc.nodes[node].codes.clone();
    if alloc.nodes[node].protector == 0 || given.iter().any(|&code| code < 6) {
        return Err(16);
    }
    for code in &mut alloc.nodes[node].codes {
        *code = UNPROTECTED[*code as usize - 6];
    }
    if !alloc.live {
        return Ok(());
    }
    alloc.nodes[node].protector = 0;
    let tree = alloc.nodes.clone();
    let above = on_path(&tree);
    for other in visiting_order(&tree) {
        if above(node, other) {
            continue;
        }
        let relation = if above(other, node) { LOCAL } else { FOREIGN };
        for (byte, code) in given.iter().enumerate() {
            match code {
                11 => change(&mut alloc.nodes[other].codes[byte], WRITE, relation)?,
                8 | 10 | 13 => change(&mut alloc.nodes[other].codes[byte], READ, relation)?,
                _ => {}
            }
        }
    }
    Ok(())
}

/// A retag and its layout in words, for the counts.
fn describe(f: &Fields, words: &[u32]) -> Vec<String> {
    let pointer = ["shared", "mutable", "box", "raw", "function", "vtable"][f.extra as usize];
    if f.extra >= 3 {
        return vec![format!("retag {pointer}")];
    }
    let mut flags = String::new();
    for (set, name) in [(f.function_entry(), " entry"), (f.unpin(), " unpin"), (f.freeze(), " freeze")] {
        flags += if set { name } else { "" };
    }
    if f.leaves_pointer() {
        return vec![format!("retag {pointer}{flags} skipped")];
    }
    let mut tuples = 0;
    let mut rest = &words[1..];
    let mut celled = false;
    let tail = loop {
        let cells = (rest[0] >> 22 & 255) as usize;
        celled |= cells > 0;
        match rest[0] >> 30 {
            3 => tuples += 1,
            other => break ["sized", "slice", "trait object"][other as usize],
        }
        rest = &rest[1 + cells..];
    };
    let celled = if celled { " with cells" } else { "" };
    let metadata = ["none", "count", "vtable"][(words[0] >> 30) as usize];
    vec![
        format!("retag {pointer}{flags}, {tail}{celled}"),
        format!("layout {tuples} tuples {tail}{celled}, metadata {metadata}"),
    ]
}

/// What depends on the width, in words, for the counts.
impl Reference {
    fn named(&self, names: &[(bool, &str)]) -> Vec<String> {
        let held = names.iter().filter(|(holds, _)| *holds);
        held.map(|(_, name)| format!("width {}: {name}", self.width)).collect()
    }

    fn too_big(&self, f: &Fields) -> Vec<String> {
        let touches = matches!(f.kind, 2 | 3 | 7 | 8);
        let mut names = self.named(&[
            (true, "2 by the address"),
            (touches && f.fourth == 0, "2 by the address, length 0"),
            (touches && !f.has, "2 by the address, without provenance"),
            (f.address == 1 << self.width, "2 by the lowest address that is too big"),
        ]);
        names.push(format!("width {}: 2 by the address, kind {}", self.width, f.kind));
        names
    }

    fn beyond_positions(&self, bytes: &[u32]) -> Vec<String> {
        self.named(&[
            (bytes.iter().all(|&w| valid_byte(w, 64)), "2 by a position"),
            (
                bytes.iter().any(|&w| w >> 30 == 3 && position(w) == self.width / 8),
                "2 by the lowest position",
            ),
        ])
    }

    fn beyond_last(&self, alone: bool) -> Vec<String> {
        self.named(&[(alone, "5 by address plus size")])
    }

    fn up_to_last(&self, end: u128, size: u128) -> Vec<String> {
        self.named(&[
            (end == last_address(self.width) as u128, "address plus size is the last address"),
            (size >= 1 << (self.width - 1), "half of all addresses are asked for"),
        ])
    }

    fn emptied(&self, width: u32) -> Vec<String> {
        let mut names = self.named(&[
            (self.allocs.iter().any(|a| a.live), "emptied with a live allocation"),
            (
                self.frames.iter().flatten().any(|entries| !entries.is_empty()),
                "emptied with an entry in a frame",
            ),
        ]);
        names.push(format!("width {width}: by an emptying"));
        names
    }
}

fn highest_positions(bytes: &[u32], width: u32) -> Vec<String> {
    let stored = bytes.iter().any(|&w| w >> 30 == 3 && position(w) == width / 8 - 1);
    if stored {
        vec![format!("width {width}: the highest position")]
    } else {
        Vec::new()
    }
}

/// The whole output of a run, or of a list.
pub fn output(input: &[u8], list: bool) -> String {
    output_from(Reference::new(), input, list)
}

/// The same, from a memory that is there already.
pub fn output_from(mut memory: Reference, input: &[u8], list: bool) -> String {
    let mut text = String::new();
    let (mut at, mut index) = (0, 0);
    while at < input.len() {
        let (words, next) = next_request(input, at);
        let words = words.as_deref();
        let answer = if list { memory.step(words) } else { memory.step_in_run(words) };
        writeln!(text, "{index} {} {}", answer.refusal, third(&answer.third)).unwrap();
        if answer.refusal != 0 && !list {
            break;
        }
        at = next;
        index += 1;
    }
    text + &memory.text(list)
}

fn third(third: &Third) -> String {
    match third {
        Third::None => "-".into(),
        Third::Pointer(allocation, node) => format!("{allocation}.{node}"),
        Third::Words(words) => hexadecimal(words),
        Third::Leak(allocation) => allocation.to_string(),
    }
}

fn hexadecimal(words: &[u32]) -> String {
    if words.is_empty() {
        return "-".into();
    }
    words.iter().map(|w| format!("{w:08x}")).collect::<Vec<_>>().join(" ")
}

impl Reference {
    /// The memory's lines, and those of the open frames and the width in a list.
    pub fn text(&self, list: bool) -> String {
        let mut text = String::new();
        for (i, a) in self.allocs.iter().enumerate() {
            let state = if a.live { "live" } else { "dead" };
            let kind = ["stack", "heap", "global", "function", "vtable"][a.kind as usize];
            let (address, size, exponent) = (a.address, a.words.len(), a.exponent);
            writeln!(text, "a {i} {state} {kind} {address} {size} {exponent}").unwrap();
            writeln!(text, "d {i} {}", hexadecimal(&a.words)).unwrap();
            for (number, node) in a.nodes.iter().enumerate() {
                let parent = if number == 0 { "-".into() } else { node.parent.to_string() };
                let protector = ["no", "weak", "strong"][node.protector as usize];
                let mut codes: String =
                    node.codes.iter().map(|&c| char::from_digit(c as u32, 16).unwrap()).collect();
                if codes.is_empty() {
                    codes.push('-');
                }
                writeln!(text, "n {i} {number} {parent} {protector} {codes}").unwrap();
            }
        }
        for (i, frame) in self.frames.iter().enumerate().filter(|_| list) {
            let Some(entries) = frame else { continue };
            let mut line: Vec<String> = entries.iter().map(|(a, n)| format!("{a}.{n}")).collect();
            if line.is_empty() {
                line.push("-".into());
            }
            writeln!(text, "f {i} {}", line.join(" ")).unwrap();
        }
        if list {
            writeln!(text, "w {}", self.width).unwrap();
        }
        text
    }
}

impl Reference {
    /// A memory, frames and width from the text that `text(true)` gives.
    pub fn parse(text: &str) -> Reference {
        let mut memory = Reference::new();
        let place = |list: &[&str], word: &str| list.iter().position(|w| *w == word).unwrap();
        for line in text.lines() {
            let w: Vec<&str> = line.split(' ').collect();
            let number = |i: usize| w[i].parse::<usize>().unwrap();
            match w[0] {
                "a" => memory.allocs.push(Alloc {
                    live: w[2] == "live",
                    kind: place(&["stack", "heap", "global", "function", "vtable"], w[3]) as u32,
                    exponent: number(6) as u32,
                    address: w[4].parse().unwrap(),
                    words: Vec::new(),
                    nodes: Vec::new(),
                }),
                "d" if w[2] != "-" => {
                    let words = w[2..].iter().map(|h| u32::from_str_radix(h, 16).unwrap());
                    memory.allocs[number(1)].words = words.collect();
                }
                "n" => memory.allocs[number(1)].nodes.push(Node {
                    parent: w[3].parse().unwrap_or(0),
                    protector: place(&["no", "weak", "strong"], w[4]) as u8,
                    codes: w[5].chars().filter_map(|c| c.to_digit(16)).map(|c| c as u8).collect(),
                }),
                "f" => {
                    let entries = w[2..].iter().filter_map(|e| e.split_once('.'));
                    let entries = entries.map(|(a, n)| (a.parse().unwrap(), n.parse().unwrap()));
                    memory.frames[number(1)] = Some(entries.collect());
                }
                "w" => memory.width = number(1) as u32,
                _ => {}
            }
        }
        memory
    }
}
