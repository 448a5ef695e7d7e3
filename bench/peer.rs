// The same job as the program `verdict`, in unproved Rust and for speed alone: what the program is measured against. It reads a run from
// standard input and prints what document 01 asks for; bench/whole.rs holds it to print the same as the program. It is for x86-64, whose
// instructions on 16 bytes it uses, and it is unsafe throughout.
//
// How the memory is kept:
// - A code is a byte: the permission's code in the low half, and in the high half a bit for each sort of access (foreign read, foreign write,
//   local read, local write) that would not leave the code alone.
// - The data is kept as the text that a load prints, " xxxxxxxx" for a word: a load copies, a store converts.
// - Beside each code stand two flags: a read (a write) through this node is known to leave this byte alone in every node. They are set after
//   a visit that passes, and cleared when a code of the byte changes. So a repeated access tests one flag a byte, whatever the number of nodes,
//   and a retag, which reads, asks the flags of its parent. A node without flags points to a row of zeros.
#![allow(static_mut_refs)]
use std::arch::x86_64::*;

extern "C" {
    fn write(fd: i32, p: *const u8, n: usize) -> isize;
    fn read(fd: i32, p: *mut u8, n: usize) -> isize;
}

// ---- permissions

/// The sorts of access: foreign read and write, local read and write.
const FR: usize = 0;
const FW: usize = 1;
const LR: usize = 2;
const LW: usize = 3;

/// The code after an access, or 16 + the refusal.
const fn step(c: u8, access: usize) -> u8 {
    match access {
        FR => match c {
            3 => 4,
            7 => 9,
            8 => 10,
            11 => 16 + 21,
            _ => c,
        },
        FW => match c {
            0 | 2 | 5 | 6 | 14 => c,
            1 | 3 | 4 => 5,
            8 | 10 | 13 => 16 + 22,
            11 => 16 + 23,
            15 => c,
            _ => 14,
        },
        LR => match c {
            5 => 16 + 17,
            14 => 16 + 26,
            7 => 8,
            9 => 10,
            12 => 13,
            _ => c,
        },
        _ => match c {
            0 | 6 | 3 | 11 => c,
            1 | 2 => 3,
            7 | 8 => 11,
            4 => 16 + 18,
            5 => 16 + 19,
            12 | 13 => 16 + 27,
            14 => 16 + 28,
            9 | 10 => 16 + 20,
            _ => c,
        },
    }
}

/// A code with its four bits.
const fn enc(c: u8) -> u8 {
    let mut r = c;
    let mut k = 0;
    while k < 4 {
        if step(c, k) != c {
            r |= 16 << k;
        }
        k += 1;
    }
    r
}

/// What each access changes; the fifth row is the end of a protector.
const PAIRS: [&[(u8, u8)]; 5] = [
    &[(3, 4), (7, 9), (8, 10)],
    &[(1, 5), (3, 5), (4, 5), (7, 14), (9, 14), (12, 14)],
    &[(7, 8), (9, 10), (12, 13)],
    &[(1, 3), (2, 3), (7, 11), (8, 11)],
    &[(6, 0), (7, 1), (8, 1), (9, 1), (10, 1), (11, 3), (12, 4), (13, 4), (14, 5)],
];
/// What each access refuses.
const REFUSE: [&[u8]; 4] = [&[11], &[8, 10, 13, 11], &[5, 14], &[4, 12, 13, 5, 14, 9, 10]];

/// Sixteen bytes.
type V = __m128i;
#[inline(always)]
unsafe fn ld(p: *const u8) -> V {
    _mm_loadu_si128(p as *const V)
}

#[inline(always)]
unsafe fn st(p: *mut u8, v: V) {
    _mm_storeu_si128(p as *mut V, v)
}

#[inline(always)]
unsafe fn b(x: u8) -> V {
    _mm_set1_epi8(x as i8)
}

/// The codes after access T.
#[inline(always)]
unsafe fn xf<const T: usize>(v: V) -> V {
    let mut r = v;
    for &(f, t) in PAIRS[T] {
        r = _mm_xor_si128(r, _mm_and_si128(_mm_cmpeq_epi8(v, b(enc(f))), b(enc(f) ^ enc(t))));
    }
    r
}

/// 255 where access T refuses the code.
#[inline(always)]
unsafe fn refuses<const T: usize>(v: V) -> V {
    let mut r = _mm_setzero_si128();
    for &f in REFUSE[T] {
        r = _mm_or_si128(r, _mm_cmpeq_epi8(v, b(enc(f))));
    }
    r
}

/// x where m is 255, y where it is 0.
#[inline(always)]
unsafe fn sel(m: V, x: V, y: V) -> V {
    _mm_or_si128(_mm_and_si128(m, x), _mm_andnot_si128(m, y))
}

/// Some byte is not 0.
#[inline(always)]
unsafe fn any(v: V) -> bool {
    _mm_movemask_epi8(_mm_cmpeq_epi8(v, _mm_setzero_si128())) != 0xffff
}

static EDGE: [u8; 32] = {
    let mut e = [0u8; 32];
    let mut i = 0;
    while i < 16 {
        e[i] = 255;
        i += 1;
    }
    e
};

/// 255 in the first n bytes (n at most 16).
#[inline(always)]
unsafe fn front(n: usize) -> V {
    ld(EDGE.as_ptr().add(16 - n))
}

// ---- state

/// The most codes, and the zeros in front of the flags: the row of a node that has none.
const MAXC: usize = 32768;
const ZROW: usize = 4096 + 64;
/// Where a node's codes and flags start, its parent, and its protector (0 none, 1 weak, 2 strong).
#[derive(Clone, Copy)]
struct Node {
    row: u32,
    fr: u32,
    fw: u32,
    parent: u16,
    prot: u8,
}

/// What the quick loop needs of an allocation. `live_size` is 0 when it is dead, `nn` is the number of its nodes.
#[repr(C)]
struct Hot {
    addr: u64,
    nodes: *mut Node,
    text: *mut u8,
    live_size: u32,
    nn: u32,
}

static mut HOT: [Hot; 128] = unsafe { std::mem::zeroed() };
struct Alloc {
    addr: u64,
    nodes: *mut Node,
    nn: u32,
    /// its number, and for how many nodes there is room
    at: u32,
    cap: u32,
    /// where its words start in the text
    text: u32,
    size: u32,
    live: bool,
    kind: u8,
    exp: u8,
    /// the nodes that have flags
    reads: Vec<u16>,
    writes: Vec<u16>,
}

/// A frame and its entries: allocation and node.
struct Frame {
    open: bool,
    n: usize,
    e: [(u8, u16); 64],
}

static mut ALLOCS: [Alloc; 128] = [A0; 128];
struct State {
    frames: [Frame; 32],
    /// how many allocations, words, nodes, codes and live heap allocations there are
    na: usize,
    nw: usize,
    nodes: usize,
    ncodes: usize,
    heap: usize,
    /// each buffer has room behind it, since sixteen bytes and more are taken at a time
    codes: [u8; MAXC + 64],
    fr: [u8; ZROW + MAXC + 64],
    fw: [u8; ZROW + MAXC + 64],
    input: [u8; IN + 64],
    text: [u8; 4096 * 9 + 128],
    out: [u8; OUT + 49152],
    /// of a release: which nodes are descendants, and for each byte which bits of a code have to be looked at, whether it is read and written
    desc: [u8; 1024],
    need: [u8; 4096 + 64],
    mr: [u8; 4096 + 64],
    mw: [u8; 4096 + 64],
    /// of a retag's layout: 1 for a byte outside cells
    mask: [u8; 4096 + 64],
}

/// What is printed is written out when there is more than this; what is read is at most a request more than this.
const OUT: usize = 65536;
const IN: usize = 65536 + 16400;
const A0: Alloc = Alloc {
    addr: 0,
    nodes: std::ptr::null_mut(),
    nn: 0,
    at: 0,
    cap: 0,
    text: 0,
    size: 0,
    live: false,
    kind: 0,
    exp: 0,
    reads: Vec::new(),
    writes: Vec::new(),
};

static mut S: State = unsafe { std::mem::zeroed() };
/// The bits of an address that an alignment exponent forbids; all of them for exponents above 29.
static AMASK: [u64; 32] = {
    let mut m = [u64::MAX; 32];
    let mut i = 0;
    while i < 30 {
        m[i] = (1 << i) - 1;
        i += 1;
    }
    m
};

/// A word of the input, and two.
#[inline(always)]
unsafe fn be32(p: *const u8) -> u32 {
    u32::from_be((p as *const u32).read_unaligned())
}

#[inline(always)]
unsafe fn be64(p: *const u8) -> u64 {
    u64::from_be((p as *const u64).read_unaligned())
}

// ---- output
#[cold]
#[inline(never)]
unsafe fn flush(o: *mut u8) -> *mut u8 {
    let base = S.out.as_mut_ptr();
    let mut p = base as *const u8;
    while p < o {
        let n = write(1, p, o as usize - p as usize);
        if n <= 0 {
            std::process::exit(1);
        }
        p = p.add(n as usize);
    }
    base
}

#[inline(always)]
unsafe fn flushed(o: *mut u8) -> *mut u8 {
    if o as usize > S.out.as_ptr() as usize + OUT {
        flush(o)
    } else {
        o
    }
}

/// A number in decimal digits. This and the next give back where the output goes on.
unsafe fn num(mut o: *mut u8, mut x: u64) -> *mut u8 {
    let mut t = [0u8; 20];
    let mut i = 20;
    loop {
        i -= 1;
        t[i] = b'0' + (x % 10) as u8;
        x /= 10;
        if x == 0 {
            break;
        }
    }
    while i < 20 {
        *o = t[i];
        o = o.add(1);
        i += 1;
    }
    o
}

#[inline(always)]
unsafe fn put(o: *mut u8, s: &[u8]) -> *mut u8 {
    std::ptr::copy_nonoverlapping(s.as_ptr(), o, s.len());
    o.add(s.len())
}

/// The index of a line as its digits, left-aligned in a number, and how many there are; what adds one to the last; how often that still goes
/// without a carry; and the tens, for an index of more than 8 digits.
struct Index {
    dig: u64,
    nd: usize,
    inc: u64,
    left: u32,
    tens: u64,
}

impl Index {
    #[inline(always)]
    unsafe fn put(&self, o: *mut u8) -> *mut u8 {
        if self.nd <= 8 {
            (o as *mut u64).write_unaligned(self.dig);
            o.add(self.nd)
        } else {
            num(o, self.tens * 10 + (10 - self.left as u64))
        }
    }
    #[inline(always)]
    fn next(&mut self) {
        self.left -= 1;
        if self.left == 0 {
            self.carry();
        } else {
            self.dig += self.inc;
        }
    }
    #[inline(never)]
    fn carry(&mut self) {
        self.left = 10;
        self.tens += 1;
        if self.nd > 8 {
            return;
        }
        let mut at = 8 * (self.nd - 1);
        self.dig -= 9 << at;
        loop {
            if at == 0 {
                self.nd += 1;
                self.inc <<= 8;
                if self.nd <= 8 {
                    self.dig = self.dig << 8 | b'1' as u64;
                } else {
                    self.inc = 0;
                }
                return;
            }
            at -= 8;
            if self.dig >> at & 255 == b'9' as u64 {
                self.dig -= 9 << at;
            } else {
                self.dig += 1 << at;
                return;
            }
        }
    }
}

/// The 32 digits of four words (16 bytes, as they lie in the input).
#[inline(always)]
unsafe fn hex4(x: V) -> (V, V) {
    let m = b(15);
    let hi = _mm_and_si128(_mm_srli_epi16(x, 4), m);
    let lo = _mm_and_si128(x, m);
    (digit(_mm_unpacklo_epi8(hi, lo)), digit(_mm_unpackhi_epi8(hi, lo)))
}

/// The digits of sixteen numbers below 16.
#[inline(always)]
unsafe fn digit(n: V) -> V {
    _mm_add_epi8(_mm_add_epi8(n, b(b'0')), _mm_and_si128(_mm_cmpgt_epi8(n, b(9)), b(39)))
}

/// A bit for each of four words that is well formed.
#[inline(always)]
unsafe fn good4(x: V) -> i32 {
    let z = _mm_cmpeq_epi32(x, _mm_setzero_si128());
    let plain = _mm_cmpeq_epi32(_mm_and_si128(x, _mm_set1_epi32(0x00ff_ffff)), _mm_set1_epi32(0x80));
    let frag = _mm_cmpeq_epi32(_mm_and_si128(x, _mm_set1_epi32(0xc0)), _mm_set1_epi32(0xc0));
    _mm_movemask_ps(_mm_castsi128_ps(_mm_or_si128(z, _mm_or_si128(plain, frag))))
}

#[inline(always)]
unsafe fn lo8(p: *mut u8, v: V) {
    _mm_storel_epi64(p as *mut V, v)
}

#[inline(always)]
unsafe fn hi8(p: *mut u8, v: V) {
    _mm_storeh_pd(p as *mut f64, _mm_castsi128_pd(v))
}

/// Four words of the input to the text; and fewer than four.
#[inline(always)]
unsafe fn put4(t: *mut u8, x: V) {
    let (p, q) = hex4(x);
    lo8(t.add(1), p);
    hi8(t.add(10), p);
    lo8(t.add(19), q);
    hi8(t.add(28), q);
}

#[inline(always)]
unsafe fn put_rest(t: *mut u8, x: V, n: usize) {
    let (p, q) = hex4(x);
    if n > 0 {
        lo8(t.add(1), p);
    }
    if n > 1 {
        hi8(t.add(10), p);
    }
    if n > 2 {
        lo8(t.add(19), q);
    }
}

/// Words of the input to the text; may read 15 bytes behind them.
#[inline(always)]
unsafe fn put_words(mut t: *mut u8, mut p: *const u8, mut n: usize) {
    while n >= 4 {
        put4(t, ld(p));
        t = t.add(36);
        p = p.add(16);
        n -= 4;
    }
    if n > 0 {
        put_rest(t, ld(p), n);
    }
}

/// Words of the input are well formed; may read 15 bytes behind them.
#[inline(always)]
unsafe fn good_words(mut p: *const u8, mut n: usize) -> bool {
    while n >= 4 {
        if good4(ld(p)) != 15 {
            return false;
        }
        p = p.add(16);
        n -= 4;
    }
    n == 0 || (good4(ld(p)) | (15 << n)) & 15 == 15
}

// ---- the tree

#[inline(always)]
unsafe fn row(a: &Alloc, n: usize) -> *mut u8 {
    S.codes.as_mut_ptr().add((*a.nodes.add(n)).row as usize)
}

/// The codes of a row, joined.
#[inline(always)]
unsafe fn or_row(p: *const u8, len: usize) -> V {
    let mut acc = _mm_setzero_si128();
    let mut i = 0;
    while i + 16 <= len {
        acc = _mm_or_si128(acc, ld(p.add(i)));
        i += 16;
    }
    if i < len {
        acc = _mm_or_si128(acc, _mm_and_si128(ld(p.add(i)), front(len - i)));
    }
    acc
}

/// No code of these bytes is changed or refused by an access through the node. F is what other nodes see, L what its ancestors and itself see.
#[inline(always)]
unsafe fn quiet<const F: usize, const L: usize>(a: &Alloc, node: usize, off: usize, len: usize) -> bool {
    let codes = S.codes.as_ptr().add(off);
    let mut path = node;
    let mut m = a.nn as usize;
    if len <= 8 {
        let (mut f, mut l) = (0u64, 0u64);
        while m > 0 {
            m -= 1;
            let n = &*a.nodes.add(m);
            let v = (codes.add(n.row as usize) as *const u64).read_unaligned();
            if m == path {
                l |= v;
                path = n.parent as usize;
            } else {
                f |= v;
            }
        }
        let k = 0x0101_0101_0101_0101u64;
        ((f & k << (4 + F)) | (l & k << (4 + L))) << (64 - 8 * len) == 0
    } else {
        let (mut f, mut l) = (_mm_setzero_si128(), _mm_setzero_si128());
        while m > 0 {
            m -= 1;
            let n = &*a.nodes.add(m);
            let v = or_row(codes.add(n.row as usize), len);
            if m == path {
                l = _mm_or_si128(l, v);
                path = n.parent as usize;
            } else {
                f = _mm_or_si128(f, v);
            }
        }
        !any(_mm_or_si128(_mm_and_si128(f, b(16 << F)), _mm_and_si128(l, b(16 << L))))
    }
}

#[inline(always)]
unsafe fn row_refuses<const T: usize>(p: *const u8, len: usize) -> bool {
    let mut i = 0;
    let mut acc = _mm_setzero_si128();
    while i < len {
        let v = ld(p.add(i));
        let m = if len - i < 16 { front(len - i) } else { b(255) };
        acc = _mm_or_si128(acc, _mm_and_si128(m, refuses::<T>(v)));
        i += 16;
    }
    any(acc)
}

#[inline(always)]
unsafe fn row_apply<const T: usize>(p: *mut u8, len: usize) {
    let mut i = 0;
    while i < len {
        let v = ld(p.add(i));
        let x = xf::<T>(v);
        st(p.add(i), if len - i < 16 { sel(front(len - i), x, v) } else { x });
        i += 16;
    }
}

/// Some node refuses an access.
#[inline(always)]
unsafe fn refused<const F: usize, const L: usize>(a: &Alloc, node: usize, off: usize, len: usize) -> bool {
    let mut path = node;
    for m in (0..a.nn as usize).rev() {
        let p = row(a, m).add(off);
        if m == path {
            if row_refuses::<L>(p, len) {
                return true;
            }
            path = (*a.nodes.add(m)).parent as usize;
        } else if row_refuses::<F>(p, len) {
            return true;
        }
    }
    false
}

/// Every node sees an access that none refuses.
#[inline(always)]
unsafe fn apply<const F: usize, const L: usize>(a: &Alloc, node: usize, off: usize, len: usize) {
    let mut path = node;
    for m in (0..a.nn as usize).rev() {
        let p = row(a, m).add(off);
        if m == path {
            row_apply::<L>(p, len);
            path = (*a.nodes.add(m)).parent as usize;
        } else {
            row_apply::<F>(p, len);
        }
    }
}

/// Parents before children, children in the order they were made; and which are on the path.
#[cold]
unsafe fn order(a: &Alloc, node: usize) -> Vec<(usize, bool)> {
    let nn = a.nn as usize;
    let mut kids = vec![Vec::new(); nn];
    for m in 1..nn {
        kids[(*a.nodes.add(m)).parent as usize].push(m);
    }
    let mut on = vec![false; nn];
    let mut m = node;
    loop {
        on[m] = true;
        if m == 0 {
            break;
        }
        m = (*a.nodes.add(m)).parent as usize;
    }
    let (mut out, mut stack) = (Vec::new(), vec![0]);
    while let Some(m) = stack.pop() {
        out.push((m, on[m]));
        stack.extend(kids[m].iter().rev());
    }
    out
}

/// The first refusal in visiting order.
#[cold]
unsafe fn first_refusal(a: &Alloc, node: usize, off: usize, len: usize, write: bool) -> u8 {
    for (m, local) in order(a, node) {
        for i in 0..len {
            let r = step(*row(a, m).add(off + i) & 15, write as usize + 2 * local as usize);
            if r >= 16 {
                return r - 16;
            }
        }
    }
    unreachable!()
}

/// No read (write) through any node is known to leave anything alone.
unsafe fn forget_reads(a: &mut Alloc) {
    for &n in &a.reads {
        (*a.nodes.add(n as usize)).fr = 0;
    }
    a.reads.clear();
}

unsafe fn forget_writes(a: &mut Alloc) {
    for &n in &a.writes {
        (*a.nodes.add(n as usize)).fw = 0;
    }
    a.writes.clear();
}

/// A read (write) through this node leaves these bytes alone.
unsafe fn know_reads(a: &mut Alloc, node: usize, off: usize, len: usize) {
    let n = &mut *a.nodes.add(node);
    if n.fr == 0 {
        n.fr = ZROW as u32 + n.row;
        std::ptr::write_bytes(S.fr.as_mut_ptr().add(n.fr as usize), 0, a.size as usize);
        a.reads.push(node as u16);
    }
    std::ptr::write_bytes(S.fr.as_mut_ptr().add(n.fr as usize + off), 1, len);
}

unsafe fn know_writes(a: &mut Alloc, node: usize, off: usize, len: usize) {
    let n = &mut *a.nodes.add(node);
    if n.fw == 0 {
        n.fw = ZROW as u32 + n.row;
        std::ptr::write_bytes(S.fw.as_mut_ptr().add(n.fw as usize), 0, a.size as usize);
        a.writes.push(node as u16);
    }
    std::ptr::write_bytes(S.fw.as_mut_ptr().add(n.fw as usize + off), 1, len);
}

/// Codes of these bytes change.
unsafe fn forget_columns(a: &mut Alloc, off: usize, len: usize) {
    for &n in &a.reads {
        std::ptr::write_bytes(S.fr.as_mut_ptr().add((*a.nodes.add(n as usize)).fr as usize + off), 0, len);
    }
    for &n in &a.writes {
        std::ptr::write_bytes(S.fw.as_mut_ptr().add((*a.nodes.add(n as usize)).fw as usize + off), 0, len);
    }
}

/// All of these flags are set.
#[inline(always)]
unsafe fn all_set(f: *const u8, len: usize) -> bool {
    if len <= 8 {
        return len == 0 || (!(f as *const u64).read_unaligned() & 0x0101_0101_0101_0101) << (64 - 8 * len) == 0;
    }
    let mut i = 0;
    let mut acc = b(1);
    while i + 16 <= len {
        acc = _mm_and_si128(acc, ld(f.add(i)));
        i += 16;
    }
    if i < len {
        acc = _mm_and_si128(acc, _mm_or_si128(ld(f.add(i)), _mm_xor_si128(front(len - i), b(255))));
    }
    _mm_movemask_epi8(_mm_cmpeq_epi8(acc, b(1))) == 0xffff
}

/// A load's or a store's visit: 0 or the first refusal.
#[inline(always)]
unsafe fn access<const F: usize, const L: usize>(a: &mut Alloc, node: usize, off: usize, len: usize) -> u8 {
    if !quiet::<F, L>(a, node, off, len) {
        if refused::<F, L>(a, node, off, len) {
            return first_refusal(a, node, off, len, F == FW);
        }
        apply::<F, L>(a, node, off, len);
        forget_columns(a, off, len);
    }
    // what a write leaves alone, a read does too
    know_reads(a, node, off, len);
    if F == FW {
        know_writes(a, node, off, len);
    }
    0
}

#[inline(never)]
unsafe fn read_access(a: &mut Alloc, node: usize, off: usize, len: usize) -> u8 {
    access::<FR, LR>(a, node, off, len)
}

#[inline(never)]
unsafe fn write_access(a: &mut Alloc, node: usize, off: usize, len: usize) -> u8 {
    access::<FW, LW>(a, node, off, len)
}

unsafe fn add_node(a: &mut Alloc, parent: usize, prot: u8) -> usize {
    if a.nn == a.cap {
        let cap = if a.cap == 0 { 8 } else { a.cap * 2 };
        let mut v: Vec<Node> = Vec::with_capacity(cap as usize);
        std::ptr::copy_nonoverlapping(a.nodes, v.as_mut_ptr(), if a.nn == 0 { 0 } else { a.nn as usize });
        a.nodes = v.as_mut_ptr();
        std::mem::forget(v);
        a.cap = cap;
    }
    let n = a.nn as usize;
    *a.nodes.add(n) = Node { row: S.ncodes as u32, fr: 0, fw: 0, parent: parent as u16, prot };
    a.nn += 1;
    HOT[a.at as usize].nn = a.nn;
    HOT[a.at as usize].nodes = a.nodes;
    S.nodes += 1;
    S.ncodes += a.size as usize;
    n
}

// ---- requests

/// What is answered: a refusal, the allocation that leaks, nothing, a new pointer, the same pointer (if it has provenance), or loaded words: where
/// they start in the text, and how many.
enum Ans {
    Refused(u8),
    Leak(usize),
    None,
    Ptr(u32, u32),
    Same(bool, u32, u32),
    Words(u32, u32),
}

use Ans::*;

#[inline(always)]
unsafe fn never_made(has: bool, a: u32, n: u32) -> bool {
    has && n >= ALLOCS[a as usize].nn
}

#[inline(always)]
unsafe fn bounds(has: bool, al: &Alloc, addr: u64, len: u64) -> u8 {
    if len == 0 {
        return 0;
    }
    if !has {
        return 7;
    }
    if !al.live {
        return 8;
    }
    let off = addr.wrapping_sub(al.addr);
    if addr < al.addr || off > al.size as u64 || al.size as u64 - off < len {
        return 9;
    }
    0
}

/// The mask's length and whether it has cells (then S.mask is filled: 1 for a freeze byte), or a refusal.
unsafe fn layout(p: *const u8, n: usize) -> Result<(usize, bool), u8> {
    if n == 0 {
        return Err(3);
    }
    let meta = be32(p);
    let (mk, count) = (meta >> 30, meta & 0x3fff_ffff);
    if mk == 3 || (mk != 1 && count != 0) {
        return Err(2);
    }
    if n == 2 && be32(p.add(4)) >> 22 == 0 {
        let size = be32(p.add(4)) as usize;
        return if size <= 4096 { Ok((size, false)) } else { Err(3) };
    }
    let (mut at, mut tuples, mut total) = (1usize, 0, 0u64);
    let mask = S.mask.as_mut_ptr();
    loop {
        if at >= n {
            return Err(3);
        }
        let h = be32(p.add(4 * at));
        let (lay, nc, size) = (h >> 30, (h >> 22 & 255) as usize, (h & 0x3f_ffff) as u64);
        if n - at - 1 < nc {
            return Err(3);
        }
        if lay == 1 && mk != 1 || lay == 2 && mk != 2 {
            return Err(3);
        }
        let fits = total + size <= 4096;
        let times = if lay == 1 { count as u64 } else { 1 };
        let fill = fits && times > 0;
        if fill {
            std::ptr::write_bytes(mask.add(total as usize), 1, size as usize);
        }
        let mut end = 0u64;
        for c in 0..nc {
            let w = be32(p.add(4 * (at + 1 + c)));
            let (o, l) = ((w >> 16) as u64, (w & 0xffff) as u64);
            if o < end || o + l > size {
                return Err(3);
            }
            end = o + l;
            if fill {
                std::ptr::write_bytes(mask.add((total + o) as usize), 0, l as usize);
            }
        }
        at += 1 + nc;
        let part = size * times;
        if total + part > 4096 {
            return Err(3);
        }
        if size > 0 && times > 1 {
            let (s, t) = (total as usize, size as usize);
            for k in 1..times as usize {
                std::ptr::copy_nonoverlapping(mask.add(s), mask.add(s + k * t), t);
            }
        }
        total += part;
        if lay != 3 {
            break;
        }
        tuples += 1;
        if tuples > 8 {
            return Err(3);
        }
    }
    if at != n {
        return Err(3);
    }
    Ok((total as usize, true))
}

#[inline(never)]
unsafe fn retag(has: bool, a: u32, n: u32, addr: u64, extra: u32, fourth: u32, rest: *const u8) -> Ans {
    if extra >= 3 {
        if fourth != 0 {
            return Refused(2);
        }
        if never_made(has, a, n) {
            return Refused(4);
        }
        return Same(has, a, n);
    }
    let (entry, unpin, freeze, zero, frame) =
        (fourth >> 31 != 0, fourth >> 30 & 1 != 0, fourth >> 29 & 1 != 0, fourth >> 28 & 1 != 0, (fourth >> 23 & 31) as usize);
    if zero || (frame != 0 && !entry) || (entry && !S.frames[frame].open) {
        return Refused(2);
    }
    if extra == 1 && !unpin {
        if never_made(has, a, n) {
            return Refused(4);
        }
        return Same(has, a, n);
    }
    let (len, cells) = match layout(rest, (fourth & 0x7f_ffff) as usize) {
        Ok(x) => x,
        Err(r) => return Refused(r),
    };
    if never_made(has, a, n) {
        return Refused(4);
    }
    if len == 0 && !has {
        return Same(has, a, n);
    }
    let al = &mut *ALLOCS.as_mut_ptr().add(a as usize);
    let r = bounds(has, al, addr, len as u64);
    if r != 0 {
        return Refused(r);
    }
    if len == 0 && addr < al.addr {
        return Refused(14);
    }
    let size = al.size as usize;
    if S.nodes + 1 > 1024 || S.ncodes + size > MAXC || entry && S.frames[frame].n >= 64 {
        return Refused(15);
    }
    let prot = if !entry {
        0
    } else if extra == 2 {
        1
    } else {
        2
    };
    let (fz, cell) = match (extra == 0, entry) {
        (true, true) => (12, 6),
        (true, false) => (4, 0),
        (false, true) => (7, 7),
        (false, false) => (1, 2),
    };
    // as the read through the new node leaves them
    let (fz_read, cell_read) = (
        if fz == 12 {
            13
        } else if fz == 7 {
            8
        } else {
            fz
        },
        if cell == 7 { 8 } else { cell },
    );
    let off = if len == 0 { 0 } else { (addr - al.addr) as usize };
    let node = n as usize;
    let whole = !cells || cell != 0 && cell != 6;
    let mask = S.mask.as_ptr();
    // the read bytes: all, or the runs of freeze bytes
    let next_run = |from: usize| -> (usize, usize) {
        if whole {
            return (from, len);
        }
        let mut s = from;
        while s < len && *mask.add(s) == 0 {
            s += 1;
        }
        let mut e = s;
        while e < len && *mask.add(e) != 0 {
            e += 1;
        }
        (s, e)
    };
    let mut at = 0;
    let mut loud = false;
    while at < len {
        let (s, e) = next_run(at);
        if s < e
            && !all_set(S.fr.as_ptr().add((*al.nodes.add(node)).fr as usize + off + s), e - s)
            && !quiet::<FR, LR>(al, node, off + s, e - s)
        {
            loud = true;
            if refused::<FR, LR>(al, node, off + s, e - s) {
                let ord = order(al, node);
                for i in s..e {
                    for &(m, local) in &ord {
                        let r = step(*row(al, m).add(off + i) & 15, if local { LR } else { FR });
                        if r >= 16 {
                            return Refused(r - 16);
                        }
                    }
                }
            }
        }
        at = e;
    }
    if loud {
        at = 0;
        while at < len {
            let (s, e) = next_run(at);
            if s < e {
                apply::<FR, LR>(al, node, off + s, e - s);
                forget_columns(al, off + s, e - s);
            }
            at = e;
        }
    }
    let new = add_node(al, node, prot);
    let r = row(al, new);
    std::ptr::write_bytes(r, enc(if freeze { fz } else { cell }), size);
    if cells {
        let (x, y) = (enc(fz_read), enc(cell_read));
        for i in 0..len {
            *r.add(off + i) = if *mask.add(i) != 0 { x } else { y };
        }
    } else {
        std::ptr::write_bytes(r.add(off), enc(fz_read), len);
    }
    // a foreign write would change the new row, and a foreign read where it is a protected Reserved
    forget_writes(al);
    if entry && extra != 0 {
        forget_reads(al);
    } else if whole && len > 0 {
        know_reads(al, node, off, len);
    }
    if whole && len > 0 {
        know_reads(al, new, off, len);
    }
    if entry {
        let f = &mut *S.frames.as_mut_ptr().add(frame);
        f.e[f.n] = (a as u8, new as u16);
        f.n += 1;
    }
    Ptr(a, new as u32)
}

/// An entry of a frame that ends. No run is known in which this is refused; it would end the process.
unsafe fn release(a: usize, n: usize) {
    let al = &mut *ALLOCS.as_mut_ptr().add(a);
    let size = al.size as usize;
    let r = row(al, n);
    forget_reads(al);
    forget_writes(al);
    if !al.live {
        row_apply::<4>(r, size);
        return;
    }
    (*al.nodes.add(n)).prot = 0;
    let (need, mr, mw) = (S.need.as_mut_ptr(), S.mr.as_mut_ptr(), S.mw.as_mut_ptr());
    let mut some = _mm_setzero_si128();
    let mut i = 0;
    while i < size {
        let v = ld(r.add(i));
        let edge = front((size - i).min(16));
        let w = _mm_and_si128(edge, _mm_cmpeq_epi8(v, b(enc(11))));
        let x = _mm_and_si128(
            edge,
            _mm_or_si128(_mm_or_si128(_mm_cmpeq_epi8(v, b(enc(8))), _mm_cmpeq_epi8(v, b(enc(10)))), _mm_cmpeq_epi8(v, b(enc(13)))),
        );
        st(mw.add(i), w);
        st(mr.add(i), x);
        let nd = _mm_or_si128(_mm_and_si128(w, b(16 << FW)), _mm_and_si128(x, b(16 << FR)));
        st(need.add(i), nd);
        some = _mm_or_si128(some, nd);
        st(r.add(i), sel(edge, xf::<4>(v), v));
        i += 16;
    }
    if !any(some) {
        return;
    }
    let nn = al.nn as usize;
    let desc = S.desc.as_mut_ptr();
    std::ptr::write_bytes(desc, 0, nn);
    *desc.add(n) = 1;
    for m in n + 1..nn {
        *desc.add(m) |= *desc.add((*al.nodes.add(m)).parent as usize);
    }
    *desc.add(n) = 1;
    let mut path = (*al.nodes.add(n)).parent as usize;
    for m in (0..nn).rev() {
        if *desc.add(m) != 0 {
            continue;
        }
        let p = row(al, m);
        let local = m == path && m < n;
        if local {
            path = (*al.nodes.add(m)).parent as usize;
        }
        let mut i = 0;
        while i < size {
            let v = ld(p.add(i));
            let nd = ld(need.add(i));
            let nd = if local { _mm_slli_epi16(nd, 2) } else { nd };
            if any(_mm_and_si128(v, nd)) {
                let (x, w) = (ld(mr.add(i)), ld(mw.add(i)));
                let (rd, wr, bad) = if local {
                    (xf::<LR>(v), xf::<LW>(v), _mm_or_si128(_mm_and_si128(x, refuses::<LR>(v)), _mm_and_si128(w, refuses::<LW>(v))))
                } else {
                    (xf::<FR>(v), xf::<FW>(v), _mm_or_si128(_mm_and_si128(x, refuses::<FR>(v)), _mm_and_si128(w, refuses::<FW>(v))))
                };
                if any(bad) {
                    eprintln!("a release is refused");
                    std::process::exit(70);
                }
                st(p.add(i), sel(w, wr, sel(x, rd, v)));
            }
            i += 16;
        }
    }
}

#[inline(never)]
unsafe fn allocate(kind: u32, exp: u32, addr: u64, len: u32) -> Ans {
    let (end, over) = addr.overflowing_add(len as u64);
    if addr == 0 || addr & AMASK[exp as usize] != 0 || over {
        return Refused(5);
    }
    for o in ALLOCS[..S.na].iter() {
        if o.live && (o.addr == addr || (o.addr < end && addr < o.addr + o.size as u64)) {
            return Refused(5);
        }
    }
    let size = len as usize;
    if S.na + 1 > 128 || S.nw + size > 4096 || S.nodes + 1 > 1024 || S.ncodes + size > MAXC {
        return Refused(15);
    }
    let a = S.na;
    S.na += 1;
    let al = &mut *ALLOCS.as_mut_ptr().add(a);
    al.addr = addr;
    al.at = a as u32;
    HOT[a] = Hot { addr, nodes: std::ptr::null_mut(), text: S.text.as_mut_ptr().add(9 * S.nw), live_size: len, nn: 0 };
    al.size = len;
    al.live = true;
    al.kind = kind as u8;
    al.exp = exp as u8;
    al.text = 9 * S.nw as u32;
    let mut t = S.text.as_mut_ptr().add(al.text as usize);
    for _ in 0..size {
        (t as *mut u64).write_unaligned(0x3030_3030_3030_3020);
        *t.add(8) = b'0';
        t = t.add(9);
    }
    S.nw += size;
    if kind == 1 {
        S.heap += 1;
    }
    add_node(al, 0, 0);
    std::ptr::write_bytes(row(al, 0), enc(3), size);
    Ptr(a as u32, 0)
}

#[inline(never)]
unsafe fn deallocate(has: bool, a: u32, n: u32, kind: u32, exp: u32, addr: u64, len: u32) -> Ans {
    if never_made(has, a, n) {
        return Refused(4);
    }
    if !has {
        return Refused(7);
    }
    let al = &mut *ALLOCS.as_mut_ptr().add(a as usize);
    let r = if !al.live {
        8
    } else if addr != al.addr {
        10
    } else if kind != al.kind as u32 {
        11
    } else if len != al.size {
        12
    } else if exp != al.exp as u32 {
        13
    } else {
        0
    };
    if r != 0 {
        return Refused(r);
    }
    let (node, size) = (n as usize, al.size as usize);
    let loud = size > 0 && !quiet::<FW, LW>(al, node, 0, size);
    if loud && refused::<FW, LW>(al, node, 0, size) {
        return Refused(first_refusal(al, node, 0, size, true));
    }
    // 24, on the codes as written
    let mut path = node;
    for m in (0..al.nn as usize).rev() {
        let local = m == path;
        if local {
            path = (*al.nodes.add(m)).parent as usize;
        }
        if (*al.nodes.add(m)).prot != 2 {
            continue;
        }
        for i in 0..size {
            let c = step(*row(al, m).add(i) & 15, if local { LW } else { FW });
            if matches!(c, 8 | 10 | 11 | 13) {
                return Refused(24);
            }
        }
    }
    if loud {
        apply::<FW, LW>(al, node, 0, size);
    }
    al.live = false;
    HOT[a as usize].live_size = 0;
    if al.kind == 1 {
        S.heap -= 1;
    }
    None
}

/// A request whose words are all there.
#[inline(never)]
unsafe fn request(p: *const u8) -> Ans {
    let w0 = be32(p);
    let (kind, a, n, has, exp, extra) = (w0 >> 28, w0 >> 21 & 127, w0 >> 9 & 4095, w0 >> 8 & 1 != 0, w0 >> 3 & 31, w0 & 7);
    let (addr, fourth) = (be64(p.add(4)), be32(p.add(12)));
    if kind >= 10 || !has && w0 & 0x0fff_fe00 != 0 {
        return Refused(2);
    }
    if matches!(kind, 0 | 5 | 6 | 9) && w0 & 0x0fff_ff00 != 0 {
        return Refused(2);
    }
    if exp > if kind <= 3 { 29 } else { 0 } {
        return Refused(2);
    }
    if extra
        > match kind {
            0 | 1 => 4,
            4 => 5,
            _ => 0,
        }
    {
        return Refused(2);
    }
    if matches!(kind, 5 | 6 | 9) && addr != 0 {
        return Refused(2);
    }
    match kind {
        0 => allocate(extra, exp, addr, fourth),
        1 => deallocate(has, a, n, extra, exp, addr, fourth),
        2 | 3 => {
            let len = fourth as usize;
            if kind == 3 {
                // exact: nothing behind the words is read
                let mut bad = false;
                for i in 0..len {
                    let w = be32(p.add(16 + 4 * i));
                    bad |= w < 1 << 31 && w != 0 || w >> 30 == 2 && w >> 8 & 0x3f_ffff != 0;
                }
                if bad {
                    return Refused(2);
                }
            }
            if never_made(has, a, n) {
                return Refused(4);
            }
            if addr & AMASK[exp as usize] != 0 {
                return Refused(6);
            }
            let al = &mut *ALLOCS.as_mut_ptr().add(a as usize);
            let r = bounds(has, al, addr, fourth as u64);
            if r != 0 {
                return Refused(r);
            }
            if len == 0 {
                return None;
            }
            let off = (addr - al.addr) as usize;
            let r = if kind == 3 { write_access(al, n as usize, off, len) } else { read_access(al, n as usize, off, len) };
            if r != 0 {
                return Refused(r);
            }
            let t = S.text.as_mut_ptr().add(al.text as usize + 9 * off);
            if kind == 2 {
                return Words(al.text + 9 * off as u32, fourth);
            }
            let full = len & !3;
            put_words(t, p.add(16), full);
            if len > full {
                let mut last = [0u8; 16];
                std::ptr::copy_nonoverlapping(p.add(16 + 4 * full), last.as_mut_ptr(), 4 * (len - full));
                put_rest(t.add(9 * full), ld(last.as_ptr()), len - full);
            }
            None
        }
        4 => retag(has, a, n, addr, extra, fourth, p.add(16)),
        5 | 6 => {
            if fourth > 31 {
                return Refused(2);
            }
            let f = &mut *S.frames.as_mut_ptr().add(fourth as usize);
            if f.open == (kind == 5) {
                return Refused(2);
            }
            f.open = kind == 5;
            if kind == 6 {
                for i in 0..f.n {
                    release(f.e[i].0 as usize, f.e[i].1 as usize);
                }
                f.n = 0;
            }
            None
        }
        7 | 8 => {
            if never_made(has, a, n) {
                return Refused(4);
            }
            let al = &*ALLOCS.as_ptr().add(a as usize);
            let r = if kind == 8 && fourth >> 31 != 0 {
                let back = (fourth as i32).unsigned_abs() as u64;
                if has && al.live && addr < back {
                    9
                } else {
                    bounds(has, al, addr.wrapping_sub(back), back)
                }
            } else {
                bounds(has, al, addr, fourth as u64)
            };
            if r != 0 {
                Refused(r)
            } else {
                None
            }
        }
        _ => {
            if fourth != 0 {
                return Refused(2);
            }
            if S.heap == 0 {
                return None;
            }
            Leak(ALLOCS[..S.na].iter().position(|o| o.live && o.kind == 1).unwrap())
        }
    }
}

#[inline(always)]
unsafe fn copy_text(o: *mut u8, t: *const u8, n: usize) {
    // 32 bytes at a time: up to 31 more than asked for
    let mut i = 0;
    loop {
        let (x, y) = (ld(t.add(i)), ld(t.add(i + 16)));
        st(o.add(i), x);
        st(o.add(i + 16), y);
        i += 32;
        if i >= n {
            break;
        }
    }
}

/// What follows the index of a request that gives nothing.
const TAIL: u64 = u64::from_le_bytes(*b" 0 -\n\0\0\0");

/// Where the input and the output go on; up to where a request of 8 bytes is surely there whole; and the index.
struct Cursor {
    p: *const u8,
    o: *mut u8,
    fast: *const u8,
    ix: Index,
}

/// Loads, and stores of at most 8 bytes, that are known to change no code; calls without entries; dereference tests. Up to the first other request.
#[inline(never)]
unsafe fn quick(c: &mut Cursor) {
    let (mut p, mut o, fast) = (c.p, c.o, c.fast);
    let (mut dig, mut nd, mut inc, mut left) = (c.ix.dig, c.ix.nd, c.ix.inc, c.ix.left);
    let hot = HOT.as_ptr();
    let lim = S.out.as_mut_ptr().add(OUT);
    if nd > 8 {
        return;
    }
    while p < fast && o < lim {
        let w0 = be32(p);
        let size;
        if w0 & 0xe000_0107 == 0x2000_0100 {
            let al = &*hot.add((w0 >> 21 & 127) as usize);
            let node = w0 >> 9 & 4095;
            let addr = be64(p.add(4));
            let len = be32(p.add(12));
            let off = addr.wrapping_sub(al.addr);
            if node >= al.nn
                || off >= al.live_size as u64
                || (al.live_size - off as u32) < len
                || addr & AMASK[(w0 >> 3 & 31) as usize] != 0
                || len == 0
            {
                break;
            }
            let (off, len) = (off as usize, len as usize);
            let n = &*al.nodes.add(node as usize);
            let t = al.text.add(9 * off);
            if len > 8 {
                if w0 & 0x1000_0000 != 0 {
                    break;
                }
                if !all_set(S.fr.as_ptr().add(n.fr as usize + off), len) {
                    break;
                }
                (o as *mut u64).write_unaligned(dig);
                let q = o.add(nd);
                (q as *mut u16).write_unaligned(0x3020);
                copy_text(q.add(2), t, 9 * len);
                let q = q.add(2 + 9 * len);
                *q = b'\n';
                o = q.add(1);
                size = 16;
            } else if w0 & 0x1000_0000 == 0 {
                {
                    let x = (S.fr.as_ptr().add(n.fr as usize + off) as *const u64).read_unaligned();
                    if (!x & 0x0101_0101_0101_0101) << (64 - 8 * len) != 0 {
                        break;
                    }
                }
                (o as *mut u64).write_unaligned(dig);
                let q = o.add(nd);
                (q as *mut u16).write_unaligned(0x3020);
                st(q.add(2), ld(t));
                st(q.add(18), ld(t.add(16)));
                st(q.add(34), ld(t.add(32)));
                st(q.add(50), ld(t.add(48)));
                (q.add(66) as *mut u64).write_unaligned((t.add(64) as *const u64).read_unaligned());
                let q = q.add(2 + 9 * len);
                *q = b'\n';
                o = q.add(1);
                size = 16;
            } else {
                {
                    let x = (S.fw.as_ptr().add(n.fw as usize + off) as *const u64).read_unaligned();
                    if (!x & 0x0101_0101_0101_0101) << (64 - 8 * len) != 0 {
                        break;
                    }
                }
                let w = ld(p.add(16));
                if len >= 4 {
                    let w2 = ld(p.add(32));
                    if (good4(w) | good4(w2) << 4 | 0xff << len) & 0xff != 0xff {
                        break;
                    }
                    put4(t, w);
                    if len == 8 {
                        put4(t.add(36), w2);
                    } else {
                        put_rest(t.add(36), w2, len - 4);
                    }
                } else {
                    if (good4(w) | 15 << len) & 15 != 15 {
                        break;
                    }
                    put_rest(t, w, len);
                }
                (o as *mut u64).write_unaligned(dig);
                let q = o.add(nd);
                (q as *mut u64).write_unaligned(TAIL);
                o = q.add(5);
                size = 16 + 4 * len;
            }
        } else if w0 == 0x6000_0000 || w0 == 0x5000_0000 {
            // a call without entries
            let f = &mut *S.frames.as_mut_ptr().add((be32(p.add(12)) & 31) as usize);
            let opens = w0 == 0x5000_0000;
            if be64(p.add(4)) != 0 || be32(p.add(12)) >= 32 || f.open == opens || f.n != 0 {
                break;
            }
            f.open = opens;
            (o as *mut u64).write_unaligned(dig);
            let q = o.add(nd);
            (q as *mut u64).write_unaligned(TAIL);
            o = q.add(5);
            size = 16;
        } else if w0 & 0xf000_01ff == 0x7000_0100 || w0 & 0xf000_01ff == 0x8000_0100 {
            // a test of bytes inside a live allocation
            let al = &*hot.add((w0 >> 21 & 127) as usize);
            let l = be32(p.add(12));
            let back = if w0 >> 28 == 8 && (l as i32) < 0 { l.wrapping_neg() } else { 0 };
            let len = if back != 0 { back } else { l };
            let off = be64(p.add(4)).wrapping_sub(al.addr).wrapping_sub(back as u64);
            if w0 >> 9 & 4095 >= al.nn || len != 0 && (off >= al.live_size as u64 || al.live_size - (off as u32) < len) {
                break;
            }
            (o as *mut u64).write_unaligned(dig);
            let q = o.add(nd);
            (q as *mut u64).write_unaligned(TAIL);
            o = q.add(5);
            size = 16;
        } else {
            break;
        }
        p = p.add(size);
        left -= 1;
        if left == 0 {
            c.ix.dig = dig;
            c.ix.carry();
            (dig, nd, inc, left) = (c.ix.dig, c.ix.nd, c.ix.inc, c.ix.left);
            if nd > 8 {
                break;
            }
        } else {
            dig += inc;
        }
    }
    c.p = p;
    c.o = o;
    (c.ix.dig, c.ix.nd, c.ix.inc, c.ix.left) = (dig, nd, inc, left);
}

/// Reads on behind what is left of the input.
#[cold]
#[inline(never)]
unsafe fn refill(p: *const u8, left: usize) -> usize {
    let input = S.input.as_mut_ptr();
    std::ptr::copy(p, input, left);
    read(0, input.add(left), IN - left) as usize
}

/// Answers requests up to the end or the first refusal.
unsafe fn run() -> *mut u8 {
    let buf = S.input.as_ptr();
    let mut end = buf;
    let ix = Index { dig: b'0' as u64, nd: 1, inc: 1, left: 10, tens: 0 };
    let mut c = Cursor { p: buf, o: S.out.as_mut_ptr(), fast: buf, ix };
    let mut more_may_come = true;
    let text = S.text.as_mut_ptr();
    loop {
        quick(&mut c);
        let mut o = flushed(c.o);
        c.o = o;
        let mut p = c.p;
        if p < c.fast {
            // loads and stores of more than 8 bytes
            let w0 = be32(p);
            let (addr, len) = (be64(p.add(4)), be32(p.add(12)) as usize);
            if w0 & 0xe000_0107 == 0x2000_0100 && len > 8 && len <= 4096 && addr & AMASK[(w0 >> 3 & 31) as usize] == 0 {
                let al = &mut *ALLOCS.as_mut_ptr().add((w0 >> 21 & 127) as usize);
                let node = (w0 >> 9 & 4095) as usize;
                let off = addr.wrapping_sub(al.addr);
                let is_in = node < al.nn as usize && al.live && off < al.size as u64 && al.size as u64 - off >= len as u64;
                if is_in {
                    let off = off as usize;
                    let n = &*al.nodes.add(node);
                    let t = text.add(al.text as usize + 9 * off);
                    if w0 & 0x1000_0000 == 0 {
                        if all_set(S.fr.as_ptr().add(n.fr as usize + off), len) || read_access(al, node, off, len) == 0 {
                            o = c.ix.put(o);
                            (o as *mut u16).write_unaligned(0x3020);
                            copy_text(o.add(2), t, 9 * len);
                            o = o.add(2 + 9 * len);
                            *o = b'\n';
                            c.o = o.add(1);
                            c.ix.next();
                            c.p = p.add(16);
                            continue;
                        }
                    } else if (end as usize - p as usize) >= 32 + 4 * len
                        && good_words(p.add(16), len)
                        && (all_set(S.fw.as_ptr().add(n.fw as usize + off), len) || write_access(al, node, off, len) == 0)
                    {
                        put_words(t, p.add(16), len);
                        o = c.ix.put(o);
                        (o as *mut u64).write_unaligned(TAIL);
                        c.o = o.add(5);
                        c.ix.next();
                        c.p = p.add(16 + 4 * len);
                        continue;
                    }
                }
            }
        }
        // any other request
        let left = end as usize - p as usize;
        let (w0, w3) = if left < 16 { (0, 0) } else { (be32(p), be32(p.add(12)) as usize) };
        let words = if w0 >> 28 == 3 {
            w3
        } else if w0 >> 28 == 4 && w0 & 7 < 3 {
            w3 & 0x7f_ffff
        } else {
            0
        };
        let lacks = left < 16 || left - 16 < 4 * words;
        if lacks && words <= 4096 && more_may_come {
            let got = refill(p, left);
            if got as isize <= 0 {
                more_may_come = false;
            }
            c.p = buf;
            end = buf.add(left + if more_may_come { got } else { 0 });
            c.fast = if end as usize - buf as usize >= 48 { end.sub(47) } else { buf };
            continue;
        }
        if left == 0 {
            return o;
        }
        let ans = if lacks || words > 4096 { Refused(2) } else { request(p) };
        let next = p.wrapping_add(16 + 4 * words);
        o = c.ix.put(o);
        match ans {
            Refused(r) => {
                *o = b' ';
                o = num(o.add(1), r as u64);
                return put(o, b" -\n");
            }
            Leak(a) => {
                o = put(o, b" 25 ");
                o = num(o, a as u64);
                return put(o, b"\n");
            }
            None => o = put(o, b" 0 -\n"),
            Same(false, _, _) => o = put(o, b" 0 -\n"),
            Ptr(a, n) | Same(true, a, n) => {
                o = put(o, b" 0 ");
                o = num(o, a as u64);
                *o = b'.';
                o = num(o.add(1), n as u64);
                *o = b'\n';
                o = o.add(1);
            }
            Words(t, n) => {
                o = put(o, b" 0");
                copy_text(o, text.add(t as usize), 9 * n as usize);
                o = o.add(9 * n as usize);
                *o = b'\n';
                o = o.add(1);
            }
        }
        c.ix.next();
        c.o = o;
        p = next;
        c.p = p;
    }
}

/// Prints the memory.
unsafe fn memory(mut o: *mut u8) -> *mut u8 {
    for a in 0..S.na {
        let al = &*ALLOCS.as_ptr().add(a);
        let size = al.size as usize;
        o = flushed(o);
        o = put(o, b"a ");
        o = num(o, a as u64);
        o = put(o, if al.live { b" live " } else { b" dead " });
        o = put(o, [&b"stack "[..], b"heap ", b"global ", b"function ", b"vtable "][al.kind as usize]);
        o = num(o, al.addr);
        o = put(o, b" ");
        o = num(o, size as u64);
        o = put(o, b" ");
        o = num(o, al.exp as u64);
        o = put(o, b"\nd ");
        o = num(o, a as u64);
        if size == 0 {
            o = put(o, b" -");
        } else {
            std::ptr::copy_nonoverlapping(S.text.as_ptr().add(al.text as usize), o, 9 * size);
            o = o.add(9 * size);
        }
        o = put(o, b"\n");
        let mut head = [0u8; 8];
        let hl = put(num(put(head.as_mut_ptr(), b"n "), a as u64), b" ") as usize - head.as_ptr() as usize;
        for n in 0..al.nn as usize {
            o = flushed(o);
            (o as *mut [u8; 8]).write_unaligned(head);
            o = o.add(hl);
            o = num(o, n as u64);
            let nd = &*al.nodes.add(n);
            if n == 0 {
                o = put(o, b" -");
            } else {
                *o = b' ';
                o = num(o.add(1), nd.parent as u64);
            }
            o = match nd.prot {
                0 => put(o, b" no "),
                1 => put(o, b" weak "),
                _ => put(o, b" strong "),
            };
            if size == 0 {
                o = put(o, b"-");
            } else {
                let r = row(al, n);
                let mut i = 0;
                while i < size {
                    st(o.add(i), digit(_mm_and_si128(ld(r.add(i)), b(15))));
                    i += 16;
                }
                o = o.add(size);
            }
            *o = b'\n';
            o = o.add(1);
        }
    }
    o
}

fn main() {
    unsafe {
        let o = run();
        flush(memory(o));
    }
}
