//! Choices. The one that mem.rs makes in a run is the address of an allocation.
//!
//! The caller proposes a number first; `pick` has just that outcome, and none when its test turns the
//! number down. So what the Rust may choose is exactly what may be proposed with success.

use crate::int::{Int, IntDistribution};
use std::cell::Cell;
use std::convert::Infallible;
use std::ops::{ControlFlow, FromResidual, Residual, Try, Yeet};

thread_local! {
    static PROPOSED: Cell<i128> = const { Cell::new(0) };
}

/// Say which number the next `pick` is to choose.
pub fn propose(number: i128) {
    PROPOSED.set(number);
}

/// Choose the proposed number, if it passes the test.
pub fn pick(_where: IntDistribution, test: impl Fn(Int) -> bool) -> Nondet<Int> {
    let number = Int::new(PROPOSED.get());
    if test(number) {
        Nondet::Chosen(number)
    } else {
        Nondet::NoChoice
    }
}

/// Angelic choice, for casts of integers to pointers: no request makes one.
pub fn predict<T>(_test: impl Fn(T) -> bool) -> Nondet<T> {
    panic!("no request casts an integer to a pointer")
}

/// The outcome of a computation that did not fail.
pub fn ret<R: Try>(value: R::Output) -> R {
    R::from_output(value)
}

pub enum Nondet<T> {
    Chosen(T),
    NoChoice,
}

/// A computation that makes choices and may fail.
pub enum NdResult<T, E> {
    Done(T),
    Failed(E),
    NoChoice,
}

impl<T> Try for Nondet<T> {
    type Output = T;
    type Residual = Nondet<Infallible>;
    fn from_output(value: T) -> Self {
        Nondet::Chosen(value)
    }
    fn branch(self) -> ControlFlow<Self::Residual, T> {
        match self {
            Nondet::Chosen(value) => ControlFlow::Continue(value),
            Nondet::NoChoice => ControlFlow::Break(Nondet::NoChoice),
        }
    }
}
impl<T> FromResidual<Nondet<Infallible>> for Nondet<T> {
    fn from_residual(_: Nondet<Infallible>) -> Self {
        Nondet::NoChoice
    }
}
impl<T> Residual<T> for Nondet<Infallible> {
    type TryType = Nondet<T>;
}

impl<T, E> Try for NdResult<T, E> {
    type Output = T;
    type Residual = NdResult<Infallible, E>;
    fn from_output(value: T) -> Self {
        NdResult::Done(value)
    }
    fn branch(self) -> ControlFlow<Self::Residual, T> {
        match self {
            NdResult::Done(value) => ControlFlow::Continue(value),
            NdResult::Failed(error) => ControlFlow::Break(NdResult::Failed(error)),
            NdResult::NoChoice => ControlFlow::Break(NdResult::NoChoice),
        }
    }
}
impl<T, E> FromResidual<NdResult<Infallible, E>> for NdResult<T, E> {
    fn from_residual(residual: NdResult<Infallible, E>) -> Self {
        match residual {
            NdResult::Done(never) => match never {},
            NdResult::Failed(error) => NdResult::Failed(error),
            NdResult::NoChoice => NdResult::NoChoice,
        }
    }
}
impl<T, E> FromResidual<Nondet<Infallible>> for NdResult<T, E> {
    fn from_residual(_: Nondet<Infallible>) -> Self {
        NdResult::NoChoice
    }
}
impl<T, E> FromResidual<Result<Infallible, E>> for NdResult<T, E> {
    fn from_residual(residual: Result<Infallible, E>) -> Self {
        match residual {
            Ok(never) => match never {},
            Err(error) => NdResult::Failed(error),
        }
    }
}
impl<T, E> FromResidual<Yeet<E>> for NdResult<T, E> {
    fn from_residual(Yeet(error): Yeet<E>) -> Self {
        NdResult::Failed(error)
    }
}
