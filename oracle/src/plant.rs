//! Faults that can be planted in our side, to see that the runs find them and shrink them. Each is met rarely, and depends on the call
//! and the words alone.
use crate::calls::*;
use crate::sides::{ours, refused, Answer};

#[derive(Clone, Copy, PartialEq, Eq, Debug)]
pub enum Plant {
    None,
    /// one answer: a look-up that passes from one sixteenth of the map to the next, to its last word's last position, says that none is free
    Answer,
    /// one leaf bit: an insert that ends one past a multiple of 256 leaves its last position as it was
    Leaf,
    /// one summary bit: a give-back of one position into the last child, where that child was empty, leaves its summary bit 0
    Summary,
    /// a run give-back that should be all or nothing frees the lower part before it refuses, as the old way does
    Whole,
    /// a give-back of one position sets each bit on its way, as the crate does: seen on untrue maps alone
    Way,
}

impl Plant {
    pub fn named(name: &str) -> Option<Plant> {
        match name {
            "answer" => Some(Plant::Answer),
            "leaf" => Some(Plant::Leaf),
            "summary" => Some(Plant::Summary),
            "whole" => Some(Plant::Whole),
            "way" => Some(Plant::Way),
            _ => None,
        }
    }

    pub fn change(self, o: &Op, n: usize, before: &[u16], answer: &mut Answer, store: &mut [u16]) {
        if self == Plant::None || n == 1 {
            return;
        }
        let child = positions(n - 1);
        match (self, o.call, answer.refusal) {
            (Plant::Answer, Next, 0) if answer.value % child == child - 1 && o.args[0] / child < answer.value / child => {
                *answer = refused(5)
            }
            (Plant::Leaf, Insert, 0) if o.args[1] % 256 == 1 && o.args[1] > 256 => {
                let p = o.args[1] - 1;
                let (at, bit) = way(n, p)[n - 1];
                store[at] = store[at] & !bit | before[at] & bit;
            }
            (Plant::Summary, Dealloc, 0) if o.args[0] / child == 15 && before[0] >> 15 == 0 => store[0] &= 0x7fff,
            (Plant::Whole, DeallocRun, 6) => {
                ours(&op(DeallocRunOld, o.numbers()), store);
            }
            (Plant::Way, Dealloc, 0) => way(n, o.args[0]).into_iter().for_each(|(at, bit)| store[at] |= bit),
            _ => {}
        }
    }
}
