//! The targets of a run: the Rust's own x86_64, and two with narrow pointers. A size is valid up to half of the
//! address space on each, as it is there.

use super::refusals::set_message;
use super::request;
use super::state::{Answer, Options, State, Value};
use super::*;

macro_rules! target {
    ($name:ident, $bits:literal) => {
        #[derive(GcCompat, Debug, Clone, Copy, PartialEq, Eq, Hash, PartialOrd, Ord)]
        pub struct $name;

        impl Target for $name {
            const PTR_SIZE: Size = Size::from_bits_const($bits).unwrap();
            const PTR_ALIGN: Align = Align::from_bits_const($bits).unwrap();
            const INT_MAX_ALIGN: Align = Align::from_bits_const($bits).unwrap();
            const ENDIANNESS: Endianness = LittleEndian;
            const MAX_ATOMIC_SIZE: Size = Size::from_bits_const($bits).unwrap();
            fn valid_size(size: Size) -> bool {
                size.bytes().in_bounds(Signed, Self::PTR_SIZE)
            }
        }
    };
}

target!(Bits16, 16);
target!(Bits32, 32);

/// The same pointers without a bound on sizes: what `pick` says where the Rust asks it nothing, as the size is
/// tested first.
#[derive(GcCompat, Debug, Clone, Copy, PartialEq, Eq, Hash, PartialOrd, Ord)]
pub struct AnySize<T: Target>(std::marker::PhantomData<T>);

impl<T: Target> Target for AnySize<T> {
    const PTR_SIZE: Size = T::PTR_SIZE;
    const PTR_ALIGN: Align = T::PTR_ALIGN;
    const INT_MAX_ALIGN: Align = T::INT_MAX_ALIGN;
    const ENDIANNESS: Endianness = T::ENDIANNESS;
    const MAX_ATOMIC_SIZE: Size = T::MAX_ATOMIC_SIZE;
    fn valid_size(_: Size) -> bool {
        true
    }
}

/// A target's width in bits.
pub fn width<T: Target>() -> u32 {
    T::PTR_SIZE.bits().index() as u32
}

/// A state over the target of its width.
pub enum AnyState {
    Bits16(State<Bits16>),
    Bits32(State<Bits32>),
    Bits64(State<x86_64>),
}

/// Does the same on whichever state it is.
macro_rules! on {
    ($any:expr, $state:ident => $work:expr) => {
        match $any {
            crate::mem::targets::AnyState::Bits16($state) => $work,
            crate::mem::targets::AnyState::Bits32($state) => $work,
            crate::mem::targets::AnyState::Bits64($state) => $work,
        }
    };
}
pub(super) use on;

impl AnyState {
    /// The empty memory at 16, 32 or 64 bits, with all frames closed.
    pub fn new(width: u32, options: Options) -> AnyState {
        match width {
            16 => AnyState::Bits16(State::new(options)),
            32 => AnyState::Bits32(State::new(options)),
            64 => AnyState::Bits64(State::new(options)),
            _ => panic!("no target has {width} bits"),
        }
    }

    /// Answer one request. The words are those that `cut` found.
    pub fn step(&mut self, words: Option<&[u32]>) -> Answer {
        if self.is_emptied(words) {
            set_message(None);
            return Ok(Value::Nothing);
        }
        on!(self, state => state.step(words))
    }

    /// Whether the words empty the memory: then it is a new one, over the target that they name.
    pub fn is_emptied(&mut self, words: Option<&[u32]>) -> bool {
        let Some(width) = words.and_then(request::empties_to) else { return false };
        *self = AnyState::new(width, on!(self, state => state.options));
        true
    }

    /// How long so many repetitions of a request take, each from the memory as it stands.
    pub fn time_of(&mut self, words: Option<&[u32]>, times: u32) -> std::time::Duration {
        if let Some(width) = words.and_then(request::empties_to) {
            let start = std::time::Instant::now();
            (0..times).for_each(|_| drop(std::hint::black_box(AnyState::new(width, Options::default()))));
            return start.elapsed();
        }
        on!(self, state => state.time_of(words, times))
    }
}
