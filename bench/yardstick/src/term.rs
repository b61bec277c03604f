//! The data terms, integers and floating ones, and what the processes do with them.

use crate::answer::Refusal::{self, OutOfRange};
use crate::cell::Cell;

#[derive(Clone, Copy)]
pub enum Term {
    Int(i32),
    /// Finite.
    Float(f32),
}

impl Term {
    #[inline(always)]
    pub fn cell(self) -> Cell {
        match self {
            Term::Int(i) => Cell::Int(i),
            Term::Float(x) => Cell::Float(x.to_bits()),
        }
    }

    /// 29
    #[inline(always)]
    pub fn negated(self) -> Result<Term, Refusal> {
        match self {
            Term::Int(i) => int(i.checked_neg()),
            Term::Float(x) => float(-x),
        }
    }

    /// The pair of this term and the zero of its sort.
    #[inline(always)]
    pub fn and_zero(self) -> Pair {
        match self {
            Term::Int(i) => Pair::Ints(i, 0),
            Term::Float(x) => Pair::Floats(x, 0.0),
        }
    }
}

/// Two terms of one sort.
#[derive(Clone, Copy)]
pub enum Pair {
    Ints(i32, i32),
    Floats(f32, f32),
}

impl Pair {
    /// 29
    #[inline(always)]
    pub fn sum(self) -> Result<Term, Refusal> {
        match self {
            Pair::Ints(a, b) => int(a.checked_add(b)),
            Pair::Floats(a, b) => float(a + b),
        }
    }

    /// 29
    #[inline(always)]
    pub fn difference(self) -> Result<Term, Refusal> {
        match self {
            Pair::Ints(a, b) => int(a.checked_sub(b)),
            Pair::Floats(a, b) => float(a - b),
        }
    }

    /// -0 equals 0.
    #[inline(always)]
    pub fn is_equal(self) -> bool {
        match self {
            Pair::Ints(a, b) => a == b,
            Pair::Floats(a, b) => a == b,
        }
    }

    /// The first is above the second.
    #[inline(always)]
    pub fn is_above(self) -> bool {
        match self {
            Pair::Ints(a, b) => a > b,
            Pair::Floats(a, b) => a > b,
        }
    }

    /// The first is below the second.
    #[inline(always)]
    pub fn is_below(self) -> bool {
        match self {
            Pair::Ints(a, b) => a < b,
            Pair::Floats(a, b) => a < b,
        }
    }
}

/// 29
#[inline(always)]
fn int(i: Option<i32>) -> Result<Term, Refusal> {
    i.map(Term::Int).ok_or(OutOfRange)
}

/// 29
#[inline(always)]
fn float(x: f32) -> Result<Term, Refusal> {
    if x.is_finite() {
        Ok(Term::Float(x))
    } else {
        Err(OutOfRange)
    }
}
