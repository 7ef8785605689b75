//! What document 01's table of numbers says of a call, and the classes in which answers are counted.
use crate::calls::*;
use crate::oracle::Outcome;
use crate::sides::{given, refused, Answer};

/// The refusal that the arguments alone decide, in 01's order; the sums are exact.
pub fn refusal(o: &Op, n: usize) -> Option<u64> {
    let cap = positions(n) as u128;
    let [a, b, c] = o.args.map(|x| x as u128);
    let misfit = |align: u128| align >= 64 || 1u128 << align > cap;
    let rules: &[(bool, u64)] = match o.call {
        Alloc | Next | IsEmpty => &[],
        Test | Dealloc => &[(a >= cap, 2)],
        Run => &[(misfit(b), 4), (a == 0, 3)],
        RunAt => &[(misfit(c) || a % (1 << c) != 0, 4), (b == 0, 3), (a + b > cap, 2)],
        Insert | Remove => &[(a > b || b > cap, 2), (a == b, 3)],
        DeallocRunOld | DeallocRun => &[(a + b > cap, 2), (b == 0, 3)],
    };
    rules.iter().find(|rule| rule.0).map(|rule| rule.1)
}

/// The call lies outside the domain of equality: the Rust panics there, or the range is empty. `test`, `dealloc`, `insert`, `remove`
/// and `dealloc_contiguous_old` are outside wherever their arguments are refused, but for a run past the end that the Rust answers by
/// false.
pub fn outside(o: &Op, n: usize) -> bool {
    let past_end_is_false = o.call == DeallocRunOld && n > 1 && o.args[1] != 0 && o.args[0].checked_add(o.args[1]).is_some();
    refusal(o, n).is_some() && !matches!(o.call, Run | RunAt | DeallocRun) && !past_end_is_false
}

/// What docs/DIFFERENCES.md says that the crate does outside the domain, on a true map: its outcome, and what a panic says. It changes
/// no word there.
pub fn theirs_outside(o: &Op, n: usize) -> (Outcome, &'static str) {
    let cap = positions(n);
    let panic = |says| (Outcome::Panic, says);
    let (a, b) = match o.call {
        Test if n > 1 => return panic("index out of bounds: the len is 16"),
        Test | Dealloc => return panic("assertion failed: bit < Self::BIT_LENGTH"),
        DeallocRunOld => match o.args[0].checked_add(o.args[1]) {
            None => return panic("attempt to add with overflow"),
            Some(end) => (o.args[0], end),
        },
        _ => (o.args[0], o.args[1]),
    };
    match (n, o.call) {
        (1, _) if a >= 16 => panic("assertion failed: range.start < Self::BIT_LENGTH"),
        (1, _) if b > 16 => panic("assertion failed: range.end <= Self::BIT_LENGTH"),
        (1, _) => panic("assertion failed: range.start < range.end"),
        (_, DeallocRunOld) if a > cap => (Outcome::Bool(false), ""),
        (_, DeallocRunOld) if a > 0 && a % 16 == 0 => (Outcome::Bool(true), ""),
        (_, Insert | Remove) if a > b => panic("assertion failed: start <= end"),
        (_, Insert | Remove) if b > cap => panic("assertion failed: end <= Self::CAP"),
        (_, Insert | Remove) if a > 0 && a % 16 == 0 => (Outcome::Unit, ""),
        _ if a == 0 => panic("attempt to subtract with overflow"),
        _ => panic("assertion failed: range.start < range.end"),
    }
}

/// What our side has to answer, where the crate came to this outcome; or why no answer could be right.
pub fn expected(o: &Op, n: usize, theirs: Outcome) -> Result<Answer, &'static str> {
    if let Some(number) = refusal(o, n) {
        let refuses = match theirs {
            Outcome::None | Outcome::Bool(false) | Outcome::Panic => true,
            _ => outside(o, n),
        };
        return if refuses {
            Ok(refused(number))
        } else {
            Err("the crate succeeds where document 01 refuses")
        };
    }
    match (o.call, theirs) {
        (Alloc | Run | RunAt | Next, Outcome::Position(p)) => Ok(given(p)),
        (Alloc | Run | RunAt | Next, Outcome::None) => Ok(refused(5)),
        (Alloc, Outcome::Panic) => Ok(refused(7)),
        (Dealloc | DeallocRunOld, Outcome::Bool(true)) => Ok(given(0)),
        (Dealloc | DeallocRunOld, Outcome::Bool(false)) => Ok(refused(6)),
        (Insert | Remove, Outcome::Unit) => Ok(given(0)),
        (IsEmpty | Test, Outcome::Bool(b)) => Ok(given(b as u64)),
        _ => Err("the crate panics inside the domain"),
    }
}

/// The classes of answers.
#[derive(Clone, Copy, PartialEq, Eq, Debug)]
pub enum Class {
    Done,
    Yes,
    Not,
    PastEnd,
    SumOver,
    Reversed,
    NoSize,
    Align64,
    AlignOver,
    NoMultiple,
    SizeOver,
    NoneFree,
    NoFit,
    KeyPast,
    FreeAlready,
    EarlierFreed,
    EarlierKept,
    Untrue,
    StopsAtLeaf,
    StopsAbove,
}

pub use Class::*;

pub const CLASSES: usize = 20;

impl Class {
    pub fn name(self) -> &'static str {
        match self {
            Done => "done",
            Yes => "yes",
            Not => "not",
            PastEnd => "2 past the end",
            SumOver => "2 the sum is 2^64 or more",
            Reversed => "2 start after end",
            NoSize => "3 nothing in it",
            Align64 => "4 align_log2 of 64 or more",
            AlignOver => "4 alignment over the map",
            NoMultiple => "4 base is no multiple",
            SizeOver => "5 size over the map",
            NoneFree => "5 nothing free",
            NoFit => "5 nothing that fits",
            KeyPast => "5 key past the end",
            FreeAlready => "6 nothing freed",
            EarlierFreed => "6 earlier words freed",
            EarlierKept => "6 where the old way changes words",
            Untrue => "7 a 0 word below a set bit",
            StopsAtLeaf => "done, and the crate sets bits above the leaf word",
            StopsAbove => "done, and the crate sets bits above a summary word",
        }
    }
}

/// The classes that each call's answers can have on a true map.
pub fn classes(call: Call, n: usize) -> &'static [Class] {
    match call {
        Alloc => &[Done, NoneFree],
        Run => &[Done, Align64, AlignOver, NoSize, SizeOver, NoneFree, NoFit],
        RunAt => &[Done, Align64, AlignOver, NoMultiple, NoSize, PastEnd, SumOver, NoFit],
        Next => &[Done, NoFit, KeyPast],
        Dealloc => &[Done, FreeAlready, PastEnd],
        DeallocRunOld | DeallocRun if n == 1 => &[Done, FreeAlready, PastEnd, SumOver, NoSize],
        DeallocRunOld => &[Done, FreeAlready, EarlierFreed, PastEnd, SumOver, NoSize],
        DeallocRun => &[Done, FreeAlready, EarlierKept, PastEnd, SumOver, NoSize],
        Insert | Remove => &[Done, Reversed, PastEnd, NoSize],
        IsEmpty => &[Yes, Not],
        Test => &[Yes, Not, PastEnd],
    }
}

/// And those that they can have on an untrue map only.
pub fn untrue_classes(call: Call) -> &'static [Class] {
    match call {
        Alloc => &[Untrue],
        Dealloc => &[StopsAtLeaf, StopsAbove],
        _ => &[],
    }
}

/// The class of an answer, given the arguments, the first word before the call, and whether the call changed any word; of a
/// `dealloc_contiguous` whether the old way changes any.
pub fn class(o: &Op, n: usize, answer: Answer, first_word: u16, changed: bool) -> Class {
    let cap = positions(n);
    let [a, b, c] = o.args;
    let align = if o.call == Run { b } else { c };
    match answer.refusal {
        0 if matches!(o.call, IsEmpty | Test) => {
            if answer.value == 1 {
                Yes
            } else {
                Not
            }
        }
        0 => Done,
        2 if matches!(o.call, Insert | Remove) => {
            if a > b {
                Reversed
            } else {
                PastEnd
            }
        }
        2 if matches!(o.call, RunAt | DeallocRunOld | DeallocRun) => {
            if a.checked_add(b).is_none() {
                SumOver
            } else {
                PastEnd
            }
        }
        2 => PastEnd,
        3 => NoSize,
        4 if align >= 64 => Align64,
        4 if 1 << align > cap => AlignOver,
        4 => NoMultiple,
        5 => match o.call {
            Alloc => NoneFree,
            Run => {
                if a > cap {
                    SizeOver
                } else if first_word == 0 {
                    NoneFree
                } else {
                    NoFit
                }
            }
            Next => {
                if a >= cap {
                    KeyPast
                } else {
                    NoFit
                }
            }
            _ => NoFit,
        },
        6 if !changed => FreeAlready,
        6 if o.call == DeallocRun => EarlierKept,
        6 => EarlierFreed,
        _ => Untrue,
    }
}
