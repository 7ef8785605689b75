//! The crate's map and ours side by side: each call is made on both, and its answer and every word afterwards are compared. The call
//! that the crate has not is made on the plain model in its place.
use crate::calls::*;
use crate::oracle::{self, Map, Outcome};
use crate::order::Order;
use crate::paper::{self, Class, Done, StopsAbove, StopsAtLeaf, CLASSES};
use crate::plant::Plant;
use crate::sides::{model, ours, Answer};
use std::collections::BTreeMap;

/// What the maps are: the domain of equality has true maps only.
#[derive(Clone, Copy, PartialEq, Eq, Debug)]
pub enum Maps {
    True,
    Untrue,
}

/// What was met.
#[derive(Clone)]
pub struct Tally {
    /// call × class × levels, on true maps and on untrue ones
    pub met: [[[u64; 6]; CLASSES]; ALL.len()],
    pub met_untrue: [[[u64; 6]; CLASSES]; ALL.len()],
    /// outside the domain: call, class, whether n is 1, what the crate did; how often, and the smallest input met
    pub outside: BTreeMap<(Call, &'static str, bool, String), (u64, Outside)>,
}

/// An input outside the domain, ordered by what is easiest to read.
#[derive(Clone, PartialEq, Eq, PartialOrd, Ord, Debug)]
pub struct Outside {
    n: usize,
    largest: u64,
    sum: u128,
    free: u32,
    pub text: String,
}

impl Default for Tally {
    fn default() -> Self {
        let none = [[[0; 6]; CLASSES]; ALL.len()];
        Tally {
            met: none,
            met_untrue: none,
            outside: BTreeMap::new(),
        }
    }
}

impl Tally {
    pub fn compared(&self, n: usize) -> u64 {
        self.met[..CALLS.len()].iter().flatten().map(|by_n| by_n[n]).sum()
    }

    pub fn compared_untrue(&self, n: usize) -> u64 {
        self.met_untrue[..CALLS.len()].iter().flatten().map(|by_n| by_n[n]).sum()
    }

    /// Beside the model, at every size, on true maps and on untrue ones.
    pub fn beside_model(&self) -> u64 {
        let met = self.met[CALLS.len()..].iter().chain(&self.met_untrue[CALLS.len()..]);
        met.flatten().flatten().sum()
    }
}

pub struct Pair {
    pub n: usize,
    maps: Maps,
    plant: Plant,
    order: Order,
    theirs: Box<dyn Map>,
    ours: Vec<u16>,
    before: Vec<u16>,
    model: Vec<u16>,
    old: Vec<u16>,
}

impl Pair {
    /// Both maps all taken.
    pub fn new(n: usize, maps: Maps, plant: Plant, order: &Order) -> Pair {
        Pair {
            n,
            maps,
            plant,
            order: order.clone(),
            theirs: oracle::map(n),
            ours: vec![0; words(n)],
            before: vec![0; words(n)],
            model: vec![0; words(n)],
            old: vec![0; words(n)],
        }
    }

    /// Sets both maps to these words.
    pub fn set(&mut self, words: &[u16]) {
        self.ours.copy_from_slice(words);
        self.before.copy_from_slice(words);
        self.order.set(self.theirs.words_mut(), words);
    }

    pub fn words(&self) -> &[u16] {
        &self.before
    }

    /// Our side alone on arguments that are outside the domain: it has to refuse them and change nothing.
    pub fn refuses(&mut self, o: &Op) -> Result<(), String> {
        let number = paper::refusal(o, self.n).unwrap();
        let answer = ours(o, &mut self.ours);
        if answer != crate::sides::refused(number) {
            return Err(format!("document 01 makes this refusal {number}; ours says {answer}"));
        }
        if self.ours != self.before {
            return Err("ours refuses, and changes words".to_string());
        }
        Ok(())
    }

    /// Makes a call on both sides. The error says how they differ.
    pub fn step(&mut self, o: &Op, tally: &mut Tally) -> Result<Answer, String> {
        if o.call == DeallocRun {
            return self.judged(o, tally);
        }
        let theirs = self.theirs.call(o);
        let mut answer = ours(o, &mut self.ours);
        self.plant.change(o, self.n, &self.before, &mut answer, &mut self.ours);
        let want = paper::expected(o, self.n, theirs).map_err(|why| format!("{why}: it says {theirs}; ours says {answer}"))?;
        if answer != want {
            return Err(format!(
                "the crate says {theirs}, which document 01 makes {want}; ours says {answer}"
            ));
        }
        if theirs == Outcome::Panic && o.call == Alloc && self.maps == Maps::True {
            return Err(format!("the crate's take panics on a true map; ours says {answer}"));
        }
        let changed = self.ours != self.before;
        let outside = paper::outside(o, self.n);
        let mut class = paper::class(o, self.n, answer, self.before[0], changed);
        if outside || theirs == Outcome::Panic {
            if changed {
                return Err(format!(
                    "ours says {answer}, and changes word {}",
                    (0..).find(|i| self.ours[*i] != self.before[*i]).unwrap()
                ));
            }
            if outside && self.maps == Maps::True {
                let (outcome, says) = paper::theirs_outside(o, self.n);
                let moved = self.order.difference(self.theirs.words(), &self.before).is_some();
                if theirs != outcome || moved || theirs == Outcome::Panic && oracle::last_panic() != says {
                    return Err(format!(
                        "outside the domain the crate came to: {}; and not to {outcome:?} {says}",
                        self.did(theirs)
                    ));
                }
            }
            if self.maps == Maps::True || !outside {
                self.keep_outside(o, class, self.did(theirs), tally);
            }
            self.order.set(self.theirs.words_mut(), &self.before);
        } else if self.maps == Maps::Untrue && o.call == Dealloc {
            class = self.untrue_dealloc(o, answer, class, tally)?;
        } else if let Some(i) = self.order.difference(self.theirs.words(), &self.ours) {
            return Err(format!(
                "word {i} is {:#06x} in the crate and {:#06x} in ours",
                self.order.word(self.theirs.words(), i),
                self.ours[i]
            ));
        }
        self.met(o, class, changed, tally);
        Ok(answer)
    }

    /// The run give-back that is all or nothing: the model judges it. The old way has to answer the same, and to leave the same words
    /// where none of the run is free. The crate's map is then set to ours.
    fn judged(&mut self, o: &Op, tally: &mut Tally) -> Result<Answer, String> {
        let mut answer = ours(o, &mut self.ours);
        self.plant.change(o, self.n, &self.before, &mut answer, &mut self.ours);
        self.beside_model(o, answer)?;
        self.old.copy_from_slice(&self.before);
        let old = ours(&op(DeallocRunOld, o.numbers()), &mut self.old);
        if old != answer || answer.refusal == 0 && self.old != self.ours {
            return Err(format!("ours says {answer}; the old way says {old}, or leaves other words"));
        }
        let class = paper::class(o, self.n, answer, self.before[0], self.old != self.before);
        let changed = self.ours != self.before;
        if changed {
            self.order.set(self.theirs.words_mut(), &self.ours);
        }
        self.met(o, class, changed, tally);
        Ok(answer)
    }

    /// Ours has to answer what the model does, and to leave its words.
    fn beside_model(&mut self, o: &Op, answer: Answer) -> Result<(), String> {
        self.model.copy_from_slice(&self.before);
        let want = model(o, &mut self.model);
        if answer != want {
            return Err(format!("the model says {want}; ours says {answer}"));
        }
        if self.ours != self.model {
            let i = (0..).find(|i| self.ours[*i] != self.model[*i]).unwrap();
            return Err(format!(
                "both say {want}; word {i} is {:#06x} in the model and {:#06x} in ours",
                self.model[i], self.ours[i]
            ));
        }
        Ok(())
    }

    /// Counts a call that was made and was the same on both sides, and goes on from its words.
    fn met(&mut self, o: &Op, class: Class, changed: bool, tally: &mut Tally) {
        let met = if self.maps == Maps::True {
            &mut tally.met
        } else {
            &mut tally.met_untrue
        };
        met[o.call as usize][class as usize][self.n] += 1;
        if changed {
            self.before.copy_from_slice(&self.ours);
        }
    }

    /// The listed differences of a dealloc on an untrue map. The crate sets each bit on the way to its key, also where it refuses. Ours
    /// keeps the words above the lowest one on the way that was not 0, since that one goes neither way. Both maps have to be exactly
    /// so, and the crate's is then set to ours. Where the two differ, the class says at what word ours stopped.
    fn untrue_dealloc(&mut self, o: &Op, answer: Answer, class: Class, tally: &mut Tally) -> Result<Class, String> {
        self.beside_model(o, answer)?;
        let way = way(self.n, o.args[0]);
        let stop = way.iter().rposition(|(at, _)| self.before[*at] != 0).unwrap_or(0);
        let (mut theirs, mut want) = (self.before.clone(), self.before.clone());
        for (depth, (at, bit)) in way.into_iter().enumerate() {
            theirs[at] |= bit;
            if depth >= stop {
                want[at] |= bit;
            }
        }
        if let Some(i) = self.order.difference(self.theirs.words(), &theirs) {
            return Err(format!(
                "after a dealloc word {i} is {:#06x} in the crate, where its way would make it {:#06x}",
                self.order.word(self.theirs.words(), i),
                theirs[i]
            ));
        }
        // with --model the model stands in our place, and only this holds it
        if self.ours != want {
            return Err("ours goes on above a word that went neither way, or stops below it".to_string());
        }
        if theirs == want {
            return Ok(class);
        }
        let (class, said) = match class {
            Done if stop == self.n - 1 => (StopsAtLeaf, "true"),
            Done => (StopsAbove, "true"),
            _ => (class, "false"),
        };
        self.keep_outside(o, class, format!("{said}, and summary bits above the key set"), tally);
        self.order.set(self.theirs.words_mut(), &self.ours);
        Ok(class)
    }

    /// What the crate did, and whether it changed words.
    fn did(&self, theirs: Outcome) -> String {
        let moved = self.order.difference(self.theirs.words(), &self.before).is_some();
        match (theirs, moved) {
            (Outcome::Panic, false) => theirs.to_string(),
            (Outcome::Panic, true) => format!("{theirs}, with words changed before it"),
            (Outcome::Unit, false) => "does nothing".to_string(),
            (Outcome::Unit, true) => "changes words".to_string(),
            (_, false) => format!("{theirs}, nothing changed"),
            (_, true) => format!("{theirs}, words changed"),
        }
    }

    /// Notes what the crate did outside the domain, with the smallest input.
    fn keep_outside(&self, o: &Op, class: Class, did: String, tally: &mut Tally) {
        let entry = tally.outside.entry((o.call, class.name(), self.n == 1, did));
        let largest = o.numbers().iter().max().copied().unwrap_or(0);
        let sum = o.numbers().iter().map(|x| *x as u128).sum();
        let new = || {
            let free = self.before.iter().map(|w| w.count_ones()).sum();
            let words = self.before.iter().enumerate().filter(|(_, w)| **w != 0).take(4);
            let words: Vec<String> = words.map(|(i, w)| format!("word {i} {w:#06x}")).collect();
            let map = if free == 0 {
                "all taken".to_string()
            } else {
                words.join(", ")
            };
            Outside {
                n: self.n,
                largest,
                sum,
                free,
                text: format!("n = {}, {map}: {o}", self.n),
            }
        };
        match entry {
            std::collections::btree_map::Entry::Vacant(e) => {
                e.insert((1, new()));
            }
            std::collections::btree_map::Entry::Occupied(mut e) => {
                let (count, least) = e.get_mut();
                *count += 1;
                if (self.n, largest, sum) <= (least.n, least.largest, least.sum) {
                    let new = new();
                    if new < *least {
                        *least = new;
                    }
                }
            }
        }
    }
}
