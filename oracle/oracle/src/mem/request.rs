//! Words to a request: the fields of each kind, and refusal 2 as far as the words alone decide it.

/// A number from document 01's list.
pub type Refusal = u8;

/// The most words that may follow a request's fourth in a run. A list has no such limit.
pub const MOST_WORDS: usize = 4096;

#[derive(Clone, Copy)]
pub struct Pointer {
    pub address: u64,
    /// Allocation and node.
    pub provenance: Option<(usize, usize)>,
}

pub enum Request<'a> {
    Allocate { kind: u32, exponent: u32, address: u64, size: u32 },
    Deallocate { pointer: Pointer, kind: u32, exponent: u32, size: u32 },
    Load { pointer: Pointer, exponent: u32, len: u32 },
    Store { pointer: Pointer, exponent: u32, words: &'a [u32] },
    Retag { pointer: Pointer, retag: Retag<'a> },
    NewCall { frame: usize },
    EndCall { frame: usize },
    Dereferenceable { pointer: Pointer, len: u32 },
    SignedDereferenceable { pointer: Pointer, len: i32 },
    LeakCheck,
}

/// What a retag says beyond its pointer.
#[derive(Clone, Copy)]
pub enum Retag<'a> {
    /// Raw, function and vtable pointers.
    Unsafe { extra: u32 },
    /// References and boxes; `extra` is 0 shared, 1 mutable, 2 box.
    Safe { extra: u32, frame: Option<usize>, unpin: bool, freeze: bool, words: &'a [u32] },
}

impl Retag<'_> {
    /// The frame of a function entry.
    pub fn frame(self) -> Option<usize> {
        match self {
            Retag::Safe { frame, .. } => frame,
            Retag::Unsafe { .. } => None,
        }
    }

    /// A mutable reference that isn't unpin: its layout words are not read.
    pub fn is_pinned(self) -> bool {
        matches!(self, Retag::Safe { extra: 1, unpin: false, .. })
    }
}

/// The words of one request, or none when the input ends inside it; and where the next one starts.
pub fn cut(input: &[u8], start: usize) -> (Option<Vec<u32>>, usize) {
    let word = |at: usize| u32::from_be_bytes([input[at], input[at + 1], input[at + 2], input[at + 3]]);
    if input.len() - start < 16 {
        return (None, input.len());
    }
    let first = word(start);
    let fourth = word(start + 12);
    let end = start + 16 + 4 * words_after_fourth(first, fourth);
    if end > input.len() {
        return (None, input.len());
    }
    ((start..end).step_by(4).map(word).map(Some).collect(), end)
}

fn words_after_fourth(first: u32, fourth: u32) -> usize {
    match (first >> 28, first & 7) {
        (3, _) => fourth as usize,
        (4, 0..=2) => (fourth & 0x7f_ffff) as usize,
        _ => 0,
    }
}

/// The width that the words empty the memory to: kind 15, with extra 0, 1 or 2 and zeros everywhere else.
pub fn empties_to(words: &[u32]) -> Option<u32> {
    let (first, rest) = words.split_first()?;
    let width = *[16, 32, 64].get(first.checked_sub(15 << 28)? as usize)?;
    (rest == [0; 3]).then_some(width)
}

/// The request that the words hold, in a run of so many bits.
pub fn decode(words: &[u32], width: u32) -> Result<Request<'_>, Refusal> {
    demand(words[0] >> 3 & 31 <= 29)?;
    demand((address(words) as u128) < 1 << width)?;
    let request = fields(words)?;
    if let Request::Store { words, .. } = request {
        demand(words.iter().all(|word| word >> 27 & 7 < width / 8))?;
    }
    Ok(request)
}

fn address(words: &[u32]) -> u64 {
    (words[1] as u64) << 32 | words[2] as u64
}

/// The same without the port's bound on exponents and without the width: 2 where no call of the Rust has such fields.
pub fn fields(words: &[u32]) -> Result<Request<'_>, Refusal> {
    let (first, fourth, after) = (words[0], words[3], &words[4..]);
    let exponent = first >> 3 & 31;
    let extra = first & 7;
    match first >> 28 {
        0 => {
            demand(provenance_fields(first) == 0 && extra <= 4)?;
            Ok(Request::Allocate { kind: extra, exponent, address: address(words), size: fourth })
        }
        1 => {
            demand(extra <= 4)?;
            Ok(Request::Deallocate { pointer: pointer(words)?, kind: extra, exponent, size: fourth })
        }
        2 => {
            demand(extra == 0)?;
            Ok(Request::Load { pointer: pointer(words)?, exponent, len: fourth })
        }
        3 => {
            demand(extra == 0 && after.iter().all(|&word| is_byte(word)))?;
            Ok(Request::Store { pointer: pointer(words)?, exponent, words: after })
        }
        4 => {
            demand(exponent == 0)?;
            Ok(Request::Retag { pointer: pointer(words)?, retag: retag(extra, fourth, after)? })
        }
        5 => Ok(Request::NewCall { frame: frame(words)? }),
        6 => Ok(Request::EndCall { frame: frame(words)? }),
        7 => {
            demand(exponent == 0 && extra == 0)?;
            Ok(Request::Dereferenceable { pointer: pointer(words)?, len: fourth })
        }
        8 => {
            demand(exponent == 0 && extra == 0)?;
            Ok(Request::SignedDereferenceable { pointer: pointer(words)?, len: fourth as i32 })
        }
        9 => {
            demand(words[..] == [9 << 28, 0, 0, 0])?;
            Ok(Request::LeakCheck)
        }
        _ => Err(2),
    }
}

fn demand(holds: bool) -> Result<(), Refusal> {
    if holds {
        Ok(())
    } else {
        Err(2)
    }
}

/// Allocation, node and has provenance, as they stand in the first word.
fn provenance_fields(first: u32) -> u32 {
    first >> 8 & 0xf_ffff
}

fn pointer(words: &[u32]) -> Result<Pointer, Refusal> {
    let fields = provenance_fields(words[0]);
    let address = address(words);
    if fields & 1 == 1 {
        let provenance = Some(((fields >> 13) as usize, (fields >> 1 & 0xfff) as usize));
        return Ok(Pointer { address, provenance });
    }
    demand(fields == 0)?;
    Ok(Pointer { address, provenance: None })
}

/// A byte word: uninitialised is 0, and without provenance the middle fields are 0.
fn is_byte(word: u32) -> bool {
    word == 0 || word >> 30 == 3 || word >> 8 == 0x80_0000
}

fn frame(words: &[u32]) -> Result<usize, Refusal> {
    demand(words[0] & 0x0fff_ffff == 0 && words[1] == 0 && words[2] == 0 && words[3] < 32)?;
    Ok(words[3] as usize)
}

fn retag(extra: u32, fourth: u32, words: &[u32]) -> Result<Retag<'_>, Refusal> {
    match extra {
        0..=2 => {
            let entry = fourth >> 31 == 1;
            let frame = (fourth >> 23 & 31) as usize;
            demand(fourth >> 28 & 1 == 0 && (entry || frame == 0))?;
            let flag = |bit: u32| fourth >> bit & 1 == 1;
            let retag = Retag::Safe {
                extra,
                frame: entry.then_some(frame),
                unpin: flag(30),
                freeze: flag(29),
                words,
            };
            demand(retag.is_pinned() || words.first().map_or(true, |&word| is_metadata(word)))?;
            Ok(retag)
        }
        3..=5 => {
            demand(fourth == 0)?;
            Ok(Retag::Unsafe { extra })
        }
        _ => Err(2),
    }
}

/// Metadata kind none, element count or vtable; only an element count has a count.
fn is_metadata(word: u32) -> bool {
    match word >> 30 {
        0 | 2 => word & 0x3fff_ffff == 0,
        1 => true,
        _ => false,
    }
}
