//! Requests as words.

/// One request's words.
pub type Words = Vec<u32>;

#[derive(Clone, Copy, Debug)]
pub struct Ptr {
    pub address: u64,
    pub provenance: Option<(usize, usize)>,
}

fn first(kind: u32, provenance: Option<(usize, usize)>, exponent: u32, extra: u32) -> u32 {
    let (allocation, node) = provenance.unwrap_or((0, 0));
    let has = provenance.is_some() as u32;
    kind << 28
        | (allocation as u32 & 0x7f) << 21
        | (node as u32 & 0xfff) << 9
        | has << 8
        | exponent << 3
        | extra
}

fn four(first: u32, address: u64, fourth: u32) -> Words {
    vec![first, (address >> 32) as u32, address as u32, fourth]
}

pub fn allocate(kind: u32, exponent: u32, address: u64, size: u32) -> Words {
    four(first(0, None, exponent, kind), address, size)
}

pub fn deallocate(at: Ptr, kind: u32, exponent: u32, size: u32) -> Words {
    four(first(1, at.provenance, exponent, kind), at.address, size)
}

pub fn load(at: Ptr, exponent: u32, len: u32) -> Words {
    four(first(2, at.provenance, exponent, 0), at.address, len)
}

pub fn store(at: Ptr, exponent: u32, bytes: &[u32]) -> Words {
    let mut words = four(first(3, at.provenance, exponent, 0), at.address, bytes.len() as u32);
    words.extend(bytes);
    words
}

/// The flags of a retag's fourth word.
#[derive(Clone, Copy, Debug)]
pub struct Flags {
    /// The frame of a function entry.
    pub frame: Option<u32>,
    pub unpin: bool,
    pub freeze: bool,
}

pub fn retag(at: Ptr, extra: u32, flags: Flags, layout: &[u32]) -> Words {
    let entry = flags.frame.is_some() as u32;
    let fourth = entry << 31
        | (flags.unpin as u32) << 30
        | (flags.freeze as u32) << 29
        | flags.frame.unwrap_or(0) << 23
        | layout.len() as u32;
    let mut words = four(first(4, at.provenance, 0, extra), at.address, fourth);
    words.extend(layout);
    words
}

/// Raw, function and vtable pointers (extra 3 to 5).
pub fn retag_unsafe(at: Ptr, extra: u32) -> Words {
    four(first(4, at.provenance, 0, extra), at.address, 0)
}

pub fn new_call(frame: u32) -> Words {
    four(5 << 28, 0, frame)
}

pub fn end_call(frame: u32) -> Words {
    four(6 << 28, 0, frame)
}

pub fn dereferenceable(at: Ptr, len: u32) -> Words {
    four(first(7, at.provenance, 0, 0), at.address, len)
}

pub fn signed_dereferenceable(at: Ptr, len: i32) -> Words {
    four(first(8, at.provenance, 0, 0), at.address, len as u32)
}

pub fn leak_check() -> Words {
    four(9 << 28, 0, 0)
}

/// Empties the memory, to 16, 32 or 64 bits.
pub fn empty(width: u32) -> Words {
    four(first(15, None, 0, width / 32), 0, 0)
}

pub fn metadata(kind: u32, count: u32) -> u32 {
    kind << 30 | count
}

/// A header and its cells, each offset and size.
pub fn header(layout: u32, size: u32, cells: &[(u32, u32)]) -> Words {
    let mut words = vec![layout << 30 | (cells.len() as u32) << 22 | size];
    words.extend(cells.iter().map(|(offset, size)| offset << 16 | size));
    words
}

pub fn byte(value: u8) -> u32 {
    1 << 31 | value as u32
}

pub fn fragment(value: u8, position: u32, allocation: u32, node: u32) -> u32 {
    3 << 30 | position << 27 | allocation << 20 | node << 8 | value as u32
}

/// A run as bytes.
pub fn bytes(requests: &[Words]) -> Vec<u8> {
    requests.iter().flatten().flat_map(|word| word.to_be_bytes()).collect()
}
