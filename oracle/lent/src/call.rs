//! One call of an entry: drawn, made, and answered by the reference.

use crate::buffers::{decode, encode, has_width, have_lengths, RECORD};
use crate::lent::{Frame, Lent, AREA, PLACES};
use runs::deep::{self, Style};
use runs::random::Random;
use runs::reference::{last_address, Answer, Reference, Third};
use runs::words::{self, Flags, Ptr, Words};
use tree_borrows::raw::{Pointer, Reply, RetagSettings};

#[derive(Clone, Debug, PartialEq)]
pub enum Call {
    New,
    Allocate { kind: u64, len: u64, exponent: u64, address: u64 },
    Deallocate { at: Pointer, kind: u64, len: u64, exponent: u64 },
    Load { at: Pointer, len: u64, exponent: u64 },
    Store { at: Pointer, bytes: Vec<u32>, exponent: u64 },
    Retag { at: Pointer, settings: RetagSettings, layout: Vec<u32> },
    NewCall,
    EndCall,
    Dereferenceable { at: Pointer, len: u64 },
    SignedDereferenceable { at: Pointer, len: i64 },
    LeakCheck,
}

/// A call, drawn with the memory in view, and the frame that is lent for it. `kinds` are the weights of document 01's
/// kinds.
pub fn draw(r: &mut Random, m: &Reference, kinds: [u64; 10]) -> (Call, Frame) {
    let mut style = Style::draw(r);
    style.kinds = kinds;
    style.wild = r.pick(&[6, 40, 1000]);
    loop {
        let request = deep::candidate(r, m, &style);
        let Some(mut call) = Call::of(&request) else { continue };
        let named = match call {
            Call::Retag { settings, .. } if settings.function_entry == 1 => {
                m.frames[(request[3] >> 23 & 31) as usize].as_deref()
            }
            _ => None,
        };
        let frame = named.map_or_else(|| Frame::draw(r, m), Frame::of);
        if r.one_in(8) {
            call.widen(r);
        }
        return (call, frame);
    }
}

/// A number that no run holds.
fn large(r: &mut Random) -> u64 {
    match r.below(4) {
        0 => 1 << r.range(32, 63),
        1 => u64::MAX - r.below(3),
        2 => r.next(),
        _ => (1 << 32) + r.below(5),
    }
}

impl Call {
    /// A request's words as a call. A new call is none.
    fn of(w: &[u32]) -> Option<Call> {
        let at = Pointer {
            address: (w[1] as u64) << 32 | w[2] as u64,
            provenance: (w[0] >> 8 & 1) as u8,
            allocation: w[0] >> 21 & 127,
            node: w[0] >> 9 & 4095,
        };
        let (exponent, extra, len) = ((w[0] >> 3 & 31) as u64, (w[0] & 7) as u64, w[3] as u64);
        let settings = RetagSettings {
            extra: extra as u32,
            function_entry: (w[3] >> 31) as u8,
            unpin: (w[3] >> 30 & 1) as u8,
            freeze: (w[3] >> 29 & 1) as u8,
        };
        Some(match w[0] >> 28 {
            0 => Call::Allocate { kind: extra, len, exponent, address: at.address },
            1 => Call::Deallocate { at, kind: extra, len, exponent },
            2 => Call::Load { at, len, exponent },
            3 => Call::Store { at, bytes: w[4..].to_vec(), exponent },
            4 => Call::Retag { at, settings, layout: w[4..].to_vec() },
            6 => Call::EndCall,
            7 => Call::Dereferenceable { at, len },
            8 => Call::SignedDereferenceable { at, len: w[3] as i32 as i64 },
            9 => Call::LeakCheck,
            _ => return None,
        })
    }

    /// One field becomes a number that no run holds, or one that a run has no use for.
    fn widen(&mut self, r: &mut Random) {
        let number = large(r);
        let field = r.below(3);
        match self {
            Call::Allocate { kind, len, exponent, .. } | Call::Deallocate { kind, len, exponent, .. } => {
                *[kind, len, exponent][field as usize] = number
            }
            Call::Load { len, exponent, .. } if field < 2 => *[len, exponent][field as usize] = number,
            Call::Store { exponent, .. } if field < 1 => *exponent = number,
            Call::Dereferenceable { len, .. } if field < 1 => *len = number,
            Call::SignedDereferenceable { len, .. } if field < 1 => *len = number as i64,
            Call::Retag { settings, .. } if field < 1 => match r.below(3) {
                0 => settings.extra = number as u32,
                1 => settings.unpin ^= 1,
                _ => settings.function_entry = 1,
            },
            Call::Retag { layout, .. } if field < 2 => layout.resize(4097 + r.index(3), 0),
            _ => {}
        }
        if let Some(at) = self.pointer() {
            match field {
                1 => at.allocation = number as u32,
                2 => at.node = (number >> 16) as u32,
                _ => {}
            }
        }
    }

    /// A flag is neither 0 nor 1, or a pointer without provenance names something.
    fn is_outside_lists(&self) -> bool {
        let bad_pointer =
            |at: &Pointer| at.provenance > 1 || at.provenance == 0 && (at.allocation, at.node) != (0, 0);
        match self {
            Call::Deallocate { at, .. } | Call::Load { at, .. } | Call::Store { at, .. } => bad_pointer(at),
            Call::Dereferenceable { at, .. } | Call::SignedDereferenceable { at, .. } => bad_pointer(at),
            Call::Retag { at, settings: s, .. } => {
                bad_pointer(at) || [s.function_entry, s.unpin, s.freeze].iter().any(|flag| *flag > 1)
            }
            Call::New | Call::Allocate { .. } | Call::NewCall | Call::EndCall | Call::LeakCheck => false,
        }
    }

    /// Takes a flag or a name out of its list, where the call has one, and says how.
    pub fn leave_lists(&mut self, r: &mut Random) -> Option<&'static str> {
        let other = r.pick(&[2, 3, 128, 254, 255]);
        if let (Call::Retag { settings, .. }, true) = (&mut *self, r.one_in(2)) {
            let (flag, name) = match r.below(3) {
                0 => (&mut settings.function_entry, "function entry neither 0 nor 1"),
                1 => (&mut settings.unpin, "unpin neither 0 nor 1"),
                _ => (&mut settings.freeze, "freeze neither 0 nor 1"),
            };
            *flag = other;
            return Some(name);
        }
        let at = self.pointer()?;
        if r.one_in(2) {
            at.provenance = other;
            return Some("provenance neither 0 nor 1");
        }
        let name = r.range(1, 5) as u32;
        let (allocation, node) = r.pick(&[(name, 0), (0, name), (name, name), (u32::MAX, 0), (0, 1 << 31)]);
        *at = Pointer { provenance: 0, allocation, node, ..*at };
        Some("a name without provenance")
    }

    /// Gives the call an address or a position that is too big for the width, where it has one, and says which.
    pub fn leave_width(&mut self, r: &mut Random, width: u32) -> Option<&'static str> {
        if width == 64 {
            return None;
        }
        if let (Call::Store { bytes, .. }, true) = (&mut *self, r.one_in(2)) {
            let at = r.index(bytes.len().max(1));
            *bytes.get_mut(at)? = words::fragment(1, r.range(width as u64 / 8, 7) as u32, 0, 0);
            return Some("position too big");
        }
        let first = 1 << width;
        let address = r.pick(&[first, first, first + 1, first + (1 << 15), first * 2, 1 << 63, u64::MAX]);
        match self {
            Call::Allocate { address: own, len, .. } => {
                let other = large(r);
                *own = address;
                *len = r.pick(&[*len, 0, other]);
            }
            _ => self.pointer()?.address = address,
        }
        Some("address too big")
    }

    fn pointer(&mut self) -> Option<&mut Pointer> {
        match self {
            Call::Deallocate { at, .. } | Call::Load { at, .. } | Call::Store { at, .. } => Some(at),
            Call::Dereferenceable { at, .. } | Call::SignedDereferenceable { at, .. } => Some(at),
            Call::Retag { at, .. } => Some(at),
            _ => None,
        }
    }

    pub fn name(&self) -> &'static str {
        match self {
            Call::New => "new",
            Call::Allocate { .. } => "allocate",
            Call::Deallocate { .. } => "deallocate",
            Call::Load { .. } => "load",
            Call::Store { .. } => "store",
            Call::Retag { .. } => "retag",
            Call::NewCall => "new_call",
            Call::EndCall => "end_call",
            Call::Dereferenceable { .. } => "dereferenceable",
            Call::SignedDereferenceable { .. } => "signed_dereferenceable",
            Call::LeakCheck => "leak_check",
        }
    }

    /// Calls the entry. A frame has as many entries after a retag as the library says.
    pub fn make(&self, lent: &mut Lent) -> Reply {
        let (b, frame) = (&mut lent.buffers, &mut lent.frame);
        match *self {
            Call::New => b.empty(),
            Call::Allocate { kind, len, exponent, address } => b.allocate(kind, len, exponent, address),
            Call::Deallocate { at, kind, len, exponent } => b.deallocate(at, kind, len, exponent),
            Call::Load { at, len, exponent } => b.load(at, len, exponent),
            Call::Store { at, ref bytes, exponent } => b.store(at, bytes, exponent),
            Call::Retag { at, settings, ref layout } => {
                let made = b.retag(&mut frame.places, frame.count, layout, at, settings);
                frame.count = made.count;
                made.reply
            }
            Call::NewCall => {
                let made = tree_borrows::new_call(&mut frame.places);
                assert_eq!(made.count, 0);
                frame.count = if made.reply.refusal == 0 { 0 } else { frame.count };
                made.reply
            }
            Call::EndCall => b.end_call(&frame.places, frame.count, &mut lent.area),
            Call::Dereferenceable { at, len } => b.dereferenceable(at, len),
            Call::SignedDereferenceable { at, len } => b.signed_dereferenceable(at, len),
            Call::LeakCheck => b.leak_check(),
        }
    }

    /// What document 01 says of the call, and what is lent afterwards: 1, and nothing changes; else what the reference
    /// answers on the memory that the buffers hold, with the frame as number 0.
    pub fn outcome(&self, lent: &Lent) -> (Answer, Lent) {
        match self {
            Call::New => new(lent),
            Call::NewCall => new_call(lent),
            _ => self.outcome_on_memory(lent),
        }
    }

    fn outcome_on_memory(&self, lent: &Lent) -> (Answer, Lent) {
        let memory = if self.has_its_lengths(lent) { decode(&lent.buffers) } else { None };
        let Some(mut m) = memory else {
            return (refused(1), lent.clone());
        };
        m.frames = self.frames(lent);
        let answer = self.answer(&mut m);
        let mut after = lent.clone();
        after.buffers = encode(&m);
        match self {
            Call::EndCall => after.area.fill(0),
            Call::Retag { .. } => after.frame.write(m.frames[0].as_ref().expect("it was open")),
            _ => {}
        }
        (answer, after)
    }

    /// Of what is lent beside the memory.
    fn has_its_lengths(&self, lent: &Lent) -> bool {
        match self {
            Call::EndCall => lent.frame.has_its_length() && lent.area.len() == AREA,
            Call::Retag { .. } => lent.frame.has_its_length(),
            _ => true,
        }
    }

    pub fn takes_frame(&self) -> bool {
        matches!(self, Call::EndCall | Call::Retag { .. })
    }

    /// The frames of a run that makes the request: the lent one is number 0.
    pub fn frames(&self, lent: &Lent) -> Vec<Option<Vec<(usize, usize)>>> {
        let mut frames = vec![None; 32];
        if self.takes_frame() {
            frames[0] = Some(lent.frame.entries());
        }
        frames
    }

    fn answer(&self, m: &mut Reference) -> Answer {
        match self {
            _ if self.is_outside_lists() => refused(2),
            Call::Allocate { kind, len, exponent, address } if *len > u32::MAX as u64 => {
                let bad = *kind > 4 || *exponent > 29 || *address > last_address(m.width);
                let pick = || could_be_picked(m, *address as u128, *len as u128, *exponent);
                refused(if bad {
                    2
                } else if pick() {
                    15
                } else {
                    5
                })
            }
            _ => m.step(Some(&self.words())),
        }
    }

    /// A list can make the request, and means the same by it.
    pub fn fits_a_list(&self) -> bool {
        !matches!(self, Call::New | Call::NewCall) && Call::of(&self.words()).as_ref() == Some(self)
    }

    /// The request that has the call's answer. Where a number of the call fits no list, another one stands for it:
    /// exponents from 31 on, kinds and extras from 7 on are all outside their lists, lengths from 2^32 - 1 on are above
    /// all sizes, and no allocation has a node 4,095.
    pub fn words(&self) -> Words {
        let ptr = |at: &Pointer| {
            let named = (at.allocation as usize, at.node as usize);
            let named = if named.0 > 127 || named.1 > 4095 { (0, 4095) } else { named };
            Ptr { address: at.address, provenance: (at.provenance == 1).then_some(named) }
        };
        let exponent = |e: &u64| *e.min(&31) as u32;
        let kind = |k: &u64| *k.min(&7) as u32;
        let length = |len: u64| len.min(u32::MAX as u64) as u32;
        match self {
            Call::Allocate { kind: k, len, exponent: e, address } => {
                words::allocate(kind(k), exponent(e), *address, length(*len))
            }
            Call::Deallocate { at, kind: k, len, exponent: e } => {
                words::deallocate(ptr(at), kind(k), exponent(e), length(*len))
            }
            Call::Load { at, len, exponent: e } => words::load(ptr(at), exponent(e), length(*len)),
            Call::Store { at, bytes, exponent: e } => words::store(ptr(at), exponent(e), bytes),
            Call::Retag { at, settings, .. } if settings.extra > 2 => {
                words::retag_unsafe(ptr(at), settings.extra.min(7))
            }
            Call::Retag { at, settings, layout } => {
                let frame = (settings.function_entry == 1).then_some(0);
                let flags = Flags { frame, unpin: settings.unpin == 1, freeze: settings.freeze == 1 };
                words::retag(ptr(at), settings.extra, flags, layout)
            }
            Call::New => Words::new(),
            Call::NewCall => words::new_call(0),
            Call::EndCall => words::end_call(0),
            Call::Dereferenceable { at, len } => words::dereferenceable(ptr(at), length(*len)),
            Call::SignedDereferenceable { at, len } => {
                let len = (*len).clamp(i32::MIN as i64, i32::MAX as i64) as i32;
                words::signed_dereferenceable(ptr(at), len)
            }
            Call::LeakCheck => words::leak_check(),
        }
    }
}

fn refused(refusal: u8) -> Answer {
    Answer { refusal, third: Third::None }
}

/// The empty memory at the width, whatever the buffers hold; 1 for another length, or for a width that is none.
fn new(lent: &Lent) -> (Answer, Lent) {
    if !have_lengths(&lent.buffers) || !has_width(&lent.buffers) {
        return (refused(1), lent.clone());
    }
    let empty = Reference { width: lent.buffers.width as u32, ..Reference::new() };
    (refused(0), Lent { buffers: encode(&empty), ..lent.clone() })
}

/// No entries, and places that are zero, whatever they hold; 1 for another number of places.
fn new_call(lent: &Lent) -> (Answer, Lent) {
    if lent.frame.places.len() != PLACES {
        return (refused(1), lent.clone());
    }
    (refused(0), Lent { frame: Frame::of(&[]), ..lent.clone() })
}

/// `pick`'s test, for lengths that no run holds.
fn could_be_picked(m: &Reference, address: u128, len: u128, exponent: u64) -> bool {
    let clash = m.allocs.iter().filter(|a| a.live).any(|a| {
        let (low, high) = (a.address as u128, a.address as u128 + a.words.len() as u128);
        low == address || low < address + len && address < high
    });
    address > 0 && address % (1 << exponent) == 0 && address + len < 1 << m.width && !clash
}

/// A reply's third field; loaded words stand in the lent data.
pub fn third(reply: &Reply, lent: &Lent) -> Third {
    let (first, second) = (reply.first as usize, reply.second as usize);
    match reply.gives {
        1 => Third::Pointer(first, second),
        2 if second > 0 => Third::Words(lent.buffers.words[first..first + second].to_vec()),
        3 => Third::Leak(first),
        _ => Third::None,
    }
}

/// Does the reply to the call say what the answer says? An accepted load of no bytes names none of the data, from its
/// start.
pub fn agrees(call: &Call, reply: &Reply, answer: &Answer, lent: &Lent) -> bool {
    let given = |gives, first, second| Reply { refusal: answer.refusal, gives, first, second };
    match (&answer.third, call) {
        (Third::None, Call::Load { .. }) if answer.refusal == 0 => *reply == given(2, 0, 0),
        (Third::None, _) => *reply == given(0, 0, 0),
        (Third::Pointer(allocation, node), _) => *reply == given(1, *allocation as u64, *node as u64),
        (Third::Leak(allocation), _) => *reply == given(3, *allocation as u64, 0),
        (Third::Words(words), Call::Load { at, .. }) => {
            let b = &lent.buffers;
            let records: Vec<&[u64]> = b.allocs.chunks_exact(RECORD).take(at.allocation as usize + 1).collect();
            let (own, earlier) = records.split_last().expect("the allocation was made");
            let start = earlier.iter().map(|record| record[4]).sum::<u64>() + at.address - own[3];
            let part = &b.words[start as usize..start as usize + words.len()];
            *reply == given(2, start, words.len() as u64) && part == words
        }
        (Third::Words(_), _) => false,
    }
}
