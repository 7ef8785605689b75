//! Makes a failing list small: one call if one is enough, the smallest map, the fewest positions, the smallest numbers.
use crate::calls::*;
use crate::make::{from_leaves, to_leaves};
use crate::order::Order;
use crate::pair::{Maps, Pair, Tally};
use crate::plant::Plant;

/// The words that both sides start from, and the calls.
#[derive(Clone, Debug)]
pub struct Case {
    pub n: usize,
    pub maps: Maps,
    pub start: Vec<u16>,
    pub ops: Vec<Op>,
}

pub struct Shrinker<'a> {
    pub orders: &'a [Order],
    pub plant: Plant,
}

impl Shrinker<'_> {
    /// How the case fails: after how many calls, and how.
    fn fails(&self, case: &Case) -> Option<(usize, String)> {
        let mut pair = Pair::new(case.n, case.maps, self.plant, &self.orders[case.n]);
        pair.set(&case.start);
        let mut tally = Tally::default();
        case.ops
            .iter()
            .enumerate()
            .find_map(|(i, o)| pair.step(o, &mut tally).err().map(|how| (i + 1, how)))
    }

    /// The words before the last call of the case, on both sides.
    fn before_last(&self, case: &Case) -> Vec<u16> {
        let mut pair = Pair::new(case.n, case.maps, self.plant, &self.orders[case.n]);
        pair.set(&case.start);
        let mut tally = Tally::default();
        for o in &case.ops[..case.ops.len() - 1] {
            pair.step(o, &mut tally).unwrap();
        }
        pair.words().to_vec()
    }

    /// Takes the smaller case if it fails too.
    fn smaller(&self, case: &mut Case, mut new: Case) -> bool {
        if let Some((calls, _)) = self.fails(&new) {
            new.ops.truncate(calls);
            *case = new;
            return true;
        }
        false
    }

    pub fn shrink(&self, mut case: Case) -> Case {
        let (calls, _) = self.fails(&case).expect("a case to shrink has to fail");
        case.ops.truncate(calls);
        // The sides were equal before the last call: it should be enough by itself.
        let one = Case {
            start: self.before_last(&case),
            ops: vec![*case.ops.last().unwrap()],
            ..case.clone()
        };
        if !self.smaller(&mut case, one) {
            self.fewer_calls(&mut case);
        }
        loop {
            let size = measure(&case);
            self.fewer_levels(&mut case);
            self.fewer_positions(&mut case);
            self.lower_positions(&mut case);
            self.smaller_numbers(&mut case);
            if measure(&case) == size {
                return case;
            }
        }
    }

    fn fewer_calls(&self, case: &mut Case) {
        let mut part = case.ops.len() / 2;
        while part > 0 {
            let mut at = 0;
            while at + part <= case.ops.len() {
                let mut new = case.clone();
                new.ops.drain(at..at + part);
                if !self.smaller(case, new) {
                    at += part;
                }
            }
            part /= 2;
        }
    }

    /// The same on a child, with the numbers that name a position moved there.
    fn fewer_levels(&self, case: &mut Case) {
        while case.n > 1 {
            let inner = positions(case.n - 1);
            let found = (0..16).any(|i| {
                let child = 1 + i * words(case.n - 1);
                let start = case.start[child..child + words(case.n - 1)].to_vec();
                let moved = |o: &Op| {
                    let mut o = *o;
                    let named = match o.call {
                        Next | Dealloc | Test | RunAt | DeallocRunOld | DeallocRun => 1,
                        Insert | Remove => 2,
                        Alloc | Run | IsEmpty => 0,
                    };
                    o.args[..named]
                        .iter_mut()
                        .for_each(|x| *x = x.saturating_sub(i as u64 * inner));
                    o
                };
                let ops = case.ops.iter().map(moved).collect();
                let new = Case {
                    n: case.n - 1,
                    maps: case.maps,
                    start,
                    ops,
                };
                self.smaller(case, new)
            });
            if !found {
                return;
            }
        }
    }

    /// Zeroes as many words and then bits as can be; of a true map the leaf words, with the summaries made anew.
    fn fewer_positions(&self, case: &mut Case) {
        let (n, maps) = (case.n, case.maps);
        let mut list = if maps == Maps::True {
            to_leaves(n, &case.start)
        } else {
            case.start.clone()
        };
        let attempt = |case: &mut Case, list: &mut Vec<u16>, new: Vec<u16>| {
            let start = if maps == Maps::True {
                from_leaves(n, &new)
            } else {
                new.clone()
            };
            let smaller = Case { start, ..case.clone() };
            if self.smaller(case, smaller) {
                *list = new;
            }
        };
        let mut part = list.len();
        while part > 0 {
            for at in (0..list.len()).step_by(part) {
                let end = list.len().min(at + part);
                if list[at..end].iter().any(|w| *w != 0) {
                    let mut new = list.clone();
                    new[at..end].fill(0);
                    attempt(case, &mut list, new);
                }
            }
            part /= 2;
        }
        for at in 0..list.len() {
            for bit in 0..16 {
                if list[at] >> bit & 1 == 1 {
                    let mut new = list.clone();
                    new[at] ^= 1 << bit;
                    attempt(case, &mut list, new);
                }
            }
        }
    }

    /// Moves the free positions of a true map down, where they are few.
    fn lower_positions(&self, case: &mut Case) {
        let n = case.n;
        let set = |leaves: &[u16], p: usize| leaves[p / 16] >> (p % 16) & 1 == 1;
        let mut leaves = to_leaves(n, &case.start);
        if case.maps == Maps::Untrue || leaves.iter().map(|w| w.count_ones()).sum::<u32>() > 40 {
            return;
        }
        for p in 0..16 * leaves.len() {
            let mut p = p;
            // to 0, and then down by powers of two, which keep a position's place in its word and child
            for step in std::iter::once(p).chain((0..4 * n).rev().map(|e| 1 << e)) {
                while step > 0 && step <= p && set(&leaves, p) && !set(&leaves, p - step) {
                    let mut new = leaves.clone();
                    new[p / 16] ^= 1 << (p % 16);
                    new[(p - step) / 16] ^= 1 << ((p - step) % 16);
                    let moved = Case {
                        start: from_leaves(n, &new),
                        ..case.clone()
                    };
                    if !self.smaller(case, moved) {
                        break;
                    }
                    (leaves, p) = (new, p - step);
                }
            }
        }
    }

    fn smaller_numbers(&self, case: &mut Case) {
        for at in 0..case.ops.len() {
            for i in 0..case.ops[at].call.arity() {
                let mut step = u64::MAX;
                while step > 0 && at < case.ops.len() {
                    let x = case.ops[at].args[i];
                    let mut new = case.clone();
                    new.ops[at].args[i] = x.saturating_sub(step);
                    if x == 0 || !self.smaller(case, new) {
                        step /= 2;
                    }
                }
            }
        }
    }

    /// The case as text: from an all taken map by calls alone where the map is true, and otherwise by its words.
    pub fn tell(&self, case: &Case) -> String {
        let mut text = String::new();
        let mut case = case.clone();
        if case.maps == Maps::True {
            let mut ops = free_runs(&to_leaves(case.n, &case.start));
            ops.append(&mut case.ops);
            case = Case {
                ops,
                start: vec![0; words(case.n)],
                ..case
            };
        }
        let (calls, how) = self.fails(&case).expect("the shrunk case fails");
        text += &format!("  n = {} ({} positions), ", case.n, positions(case.n));
        if case.start.iter().all(|w| *w == 0) {
            text += "all taken\n";
        } else {
            text += "words all 0 but\n";
            for (i, w) in case.start.iter().enumerate().filter(|(_, w)| **w != 0) {
                text += &format!("  word {i} is {w:#06x}\n");
            }
        }
        for o in &case.ops[..calls] {
            text += &format!("  {o}\n");
        }
        text += &format!("  {how}\n");
        text
    }
}

/// How large a case is.
fn measure(case: &Case) -> (usize, usize, u32, usize, u128) {
    let bits = case.start.iter().map(|w| w.count_ones()).sum();
    let places = case.start.iter().enumerate().map(|(i, w)| i * w.count_ones() as usize).sum();
    let sum = case.ops.iter().flat_map(|o| o.args).map(|x| x as u128).sum();
    (case.n, case.ops.len(), bits, places, sum)
}

/// The inserts that make the free positions of these leaf words from a map that is all taken.
fn free_runs(leaves: &[u16]) -> Vec<Op> {
    let mut ops = Vec::new();
    let mut since = None;
    for p in 0..=16 * leaves.len() as u64 {
        let free = p < 16 * leaves.len() as u64 && leaves[p as usize / 16] >> (p % 16) & 1 == 1;
        match (since, free) {
            (None, true) => since = Some(p),
            (Some(a), false) => {
                ops.push(op(Insert, &[a, p]));
                since = None;
            }
            _ => {}
        }
    }
    ops
}
