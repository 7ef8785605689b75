//! The calls, with their arguments, and the sizes of the maps.
use std::fmt;

/// The positions of a map of n levels.
pub fn positions(n: usize) -> u64 {
    1 << (4 * n)
}

/// The words of a map of n levels.
pub fn words(n: usize) -> usize {
    (0..n).fold(0, |w, _| 1 + 16 * w)
}

/// The words on the way down to a position, the map's own first, each with the position's bit in it.
pub fn way(n: usize, p: u64) -> Vec<(usize, u16)> {
    let mut at = 0;
    let mut way = Vec::new();
    for level in (1..=n).rev() {
        let i = p % positions(level) / positions(level - 1);
        way.push((at, 1 << i));
        at += 1 + i as usize * words(level - 1);
    }
    way
}

#[derive(Clone, Copy, PartialEq, Eq, Debug, PartialOrd, Ord)]
pub enum Call {
    Alloc,
    Run,
    RunAt,
    Next,
    Dealloc,
    DeallocRunOld,
    Insert,
    Remove,
    IsEmpty,
    Test,
    DeallocRun,
}

pub use Call::*;

/// The calls that the crate has.
pub const CALLS: [Call; 10] = [Alloc, Run, RunAt, Next, Dealloc, DeallocRunOld, Insert, Remove, IsEmpty, Test];

/// And the one that it has not, the run give-back that is all or nothing: the plain model judges it.
pub const ALL: [Call; 11] = [
    Alloc,
    Run,
    RunAt,
    Next,
    Dealloc,
    DeallocRunOld,
    Insert,
    Remove,
    IsEmpty,
    Test,
    DeallocRun,
];

impl Call {
    /// The name in the C library, without its prefix.
    pub fn name(self) -> &'static str {
        match self {
            Alloc => "alloc",
            Run => "alloc_contiguous",
            RunAt => "alloc_contiguous_at",
            Next => "next",
            Dealloc => "dealloc",
            DeallocRunOld => "dealloc_contiguous_old",
            Insert => "insert",
            Remove => "remove",
            IsEmpty => "is_empty",
            Test => "test",
            DeallocRun => "dealloc_contiguous",
        }
    }

    /// How many numbers it takes.
    pub fn arity(self) -> usize {
        match self {
            Alloc | IsEmpty => 0,
            Next | Dealloc | Test => 1,
            Run | DeallocRunOld | Insert | Remove | DeallocRun => 2,
            RunAt => 3,
        }
    }
}

/// A call with its numbers, in the order of the C library's parameters; those that it does not take are 0.
#[derive(Clone, Copy, PartialEq, Eq, Debug)]
pub struct Op {
    pub call: Call,
    pub args: [u64; 3],
}

pub fn op(call: Call, args: &[u64]) -> Op {
    assert_eq!(args.len(), call.arity());
    let mut all = [0; 3];
    all[..args.len()].copy_from_slice(args);
    Op { call, args: all }
}

impl Op {
    pub fn numbers(&self) -> &[u64] {
        &self.args[..self.call.arity()]
    }
}

impl fmt::Display for Op {
    fn fmt(&self, f: &mut fmt::Formatter) -> fmt::Result {
        write!(f, "{}", self.call.name())?;
        for x in self.numbers() {
            write!(f, " {}", number(*x))?;
        }
        Ok(())
    }
}

/// A number as a person would write it: the largest ones by their distance from a power of two.
pub fn number(x: u64) -> String {
    if x > u64::MAX - 100_000_000 {
        format!("2^64-{}", u64::MAX - x + 1)
    } else if x == 1 << 63 {
        "2^63".to_string()
    } else {
        x.to_string()
    }
}
