//! The runs beside the crate: every word of the smallest map, grids around the borders, random lists, long lists, and untrue maps.
use crate::calls::*;
use crate::make::{self, Kind, Rng};
use crate::oracle::{self, Outcome};
use crate::order::Order;
use crate::pair::{Maps, Pair, Tally};
use crate::paper;
use crate::plant::Plant;
use crate::shrink::{Case, Shrinker};
use std::io::Write;
use std::time::{Duration, Instant};

pub struct Runs {
    pub seed: u64,
    pub plant: Plant,
    /// how many times less than in a full run is done
    pub less: u64,
    pub orders: Vec<Order>,
    pub tally: Tally,
    pub began: Instant,
    said: Instant,
}

/// A difference, shrunk and told.
pub struct Difference(pub String);

pub type Ran = Result<(), Difference>;

impl Runs {
    pub fn new(seed: u64, plant: Plant, less: u64) -> Runs {
        let sum_overflows = oracle::map(2).call(&op(DeallocRunOld, &[1, u64::MAX]));
        assert!(sum_overflows == Outcome::Panic, "the crate was built without overflow checks");
        let orders: Vec<Order> = std::iter::once(1).chain(1..=5).map(oracle::order).collect();
        let now = Instant::now();
        Runs {
            seed,
            plant,
            less,
            orders,
            tally: Tally::default(),
            began: now,
            said: now,
        }
    }

    fn pair(&self, n: usize, maps: Maps) -> Pair {
        Pair::new(n, maps, self.plant, &self.orders[n])
    }

    /// Says what is being done, and every few seconds how far it is.
    pub fn say(&mut self, what: &str) {
        println!("{:6.1} s  {what}", self.began.elapsed().as_secs_f32());
        std::io::stdout().flush().ok();
        self.said = Instant::now();
    }

    pub fn progress(&mut self, what: &str, done: u64, of: u64) {
        if self.said.elapsed() > Duration::from_secs(5) {
            self.say(&format!("  {what}: {}%", 100 * done / of.max(1)));
        }
    }

    /// A list failed: makes it small and tells it.
    fn difference(&mut self, case: Case) -> Difference {
        self.say("a difference; making it small");
        let shrinker = Shrinker {
            orders: &self.orders,
            plant: self.plant,
        };
        let small = shrinker.shrink(case);
        Difference(shrinker.tell(&small))
    }

    /// One list of calls, each made and compared.
    fn list(&mut self, pair: &mut Pair, maps: Maps, start: &[u16], ops: &[Op]) -> Ran {
        pair.set(start);
        for (i, o) in ops.iter().enumerate() {
            if pair.step(o, &mut self.tally).is_err() {
                return Err(self.difference(Case {
                    n: pair.n,
                    maps,
                    start: start.to_vec(),
                    ops: ops[..=i].to_vec(),
                }));
            }
        }
        Ok(())
    }

    /// n = 1: every word, with every argument up to 17 and the largest, for every call. Where the crate panics whatever the word is,
    /// it is asked at one word in 16, and our side at every word.
    pub fn every_word(&mut self) -> Ran {
        let ops = every_argument();
        self.say(&format!("n = 1: every word with {} calls each", ops.len()));
        let mut pair = self.pair(1, Maps::True);
        let outside: Vec<bool> = ops.iter().map(|o| paper::outside(o, 1)).collect();
        for word in (0..=u16::MAX).step_by(self.less as usize) {
            for (o, outside) in ops.iter().zip(&outside) {
                pair.set(&[word]);
                let ran = if *outside && word % 16 != (word >> 4) % 16 {
                    pair.refuses(o)
                } else {
                    pair.step(o, &mut self.tally).map(|_| ())
                };
                if ran.is_err() {
                    return Err(self.difference(Case {
                        n: 1,
                        maps: Maps::True,
                        start: vec![word],
                        ops: vec![*o],
                    }));
                }
            }
            self.progress("words", word as u64, u16::MAX as u64);
        }
        Ok(())
    }

    /// Each call with the smallest numbers, on maps all taken and all free, so that the smallest input of each class is met.
    pub fn smallest(&mut self, n: usize) -> Ran {
        let cap = positions(n);
        let numbers: Vec<u64> = (0..=18)
            .chain([31, 32, 33, 255, 256, 257, 272, cap - 1, cap, cap + 1, 1 << 63, u64::MAX])
            .collect();
        self.say(&format!("n = {n}: the smallest numbers on maps all taken and all free"));
        let mut pair = self.pair(n, Maps::True);
        for word in [0, 0xffff] {
            let start = make::from_leaves(n, &vec![word; cap as usize / 16]);
            for call in ALL {
                for (a, b) in numbers.iter().flat_map(|a| numbers.iter().map(move |b| (*a, *b))) {
                    let o = match call.arity() {
                        0 => op(call, &[]),
                        1 => op(call, &[a]),
                        2 => op(call, &[a, b]),
                        _ => op(call, &[a, b, 0]),
                    };
                    let again = call.arity() < 2 && b > 0 || call.arity() < 1 && a > 0;
                    if again || word != 0 && heavy(call, b, n) {
                        continue;
                    }
                    if pair.words() != start {
                        pair.set(&start);
                    }
                    if pair.step(&o, &mut self.tally).is_err() {
                        return Err(self.difference(Case {
                            n,
                            maps: Maps::True,
                            start,
                            ops: vec![o],
                        }));
                    }
                }
            }
        }
        Ok(())
    }

    /// Each call with its numbers beside each border, on maps of each kind.
    pub fn borders(&mut self, n: usize) -> Ran {
        let ops = border_calls(n);
        let mut rng = Rng::new(self.seed, 100 + n as u64);
        let kinds = make::KINDS;
        self.say(&format!(
            "n = {n}: {} calls beside the borders on {} kinds of maps",
            ops.len(),
            kinds.len()
        ));
        let mut pair = self.pair(n, Maps::True);
        for (done, kind) in kinds.into_iter().enumerate() {
            let start = make::map(n, kind, &mut rng);
            let mut set = false;
            for (i, o) in ops.iter().enumerate() {
                if i as u64 % self.less != 0 || dense(kind) && heavy(o.call, o.args[1], n) && !rng.once_in(60) {
                    continue;
                }
                if !set {
                    pair.set(&start);
                }
                if pair.step(o, &mut self.tally).is_err() {
                    return Err(self.difference(Case {
                        n,
                        maps: Maps::True,
                        start,
                        ops: vec![*o],
                    }));
                }
                set = pair.words() == start;
                self.progress(
                    "kinds and calls",
                    (done * ops.len() + i) as u64,
                    (kinds.len() * ops.len()) as u64,
                );
            }
        }
        Ok(())
    }

    /// Random lists of each length from 1 to 100, from maps of every kind: some calls at random, some aimed at a class of answer.
    pub fn lists(&mut self, n: usize, calls: u64) -> Ran {
        self.say(&format!("n = {n}: about {calls} calls in lists of 1 to 100"));
        let mut rng = Rng::new(self.seed, 200 + n as u64);
        let mut pair = self.pair(n, Maps::True);
        let mut done = 0;
        let mut length = 0;
        while done < calls / self.less {
            length = length % 100 + 1;
            let thin = rng.once_in(2);
            let kind = if thin { rng.pick(&make::THIN) } else { rng.pick(&make::KINDS) };
            let start = make::map(n, kind, &mut rng);
            let ops = random_list(n, length, dense(kind), if thin { 1 } else { 10 }, &mut rng);
            self.list(&mut pair, Maps::True, &start, &ops)?;
            done += length;
            self.progress("calls", done, calls / self.less);
        }
        Ok(())
    }

    /// Lists that keep one map through thousands of calls, and seldom make all of it taken.
    pub fn long_lists(&mut self, n: usize, calls: u64) -> Ran {
        self.say(&format!("n = {n}: about {calls} calls in lists of 2000 to 6000"));
        let mut rng = Rng::new(self.seed, 250 + n as u64);
        let mut pair = self.pair(n, Maps::True);
        let mut done = 0;
        while done < calls / self.less {
            let length = rng.within(2000, 6000);
            let start = make::map(n, rng.pick(&make::KINDS), &mut rng);
            let ops = random_list(n, length, true, 200, &mut rng);
            self.list(&mut pair, Maps::True, &start, &ops)?;
            done += length;
            self.progress("calls", done, calls / self.less);
        }
        Ok(())
    }

    /// Calls aimed at each class of answer that was met fewer times than that.
    pub fn fill(&mut self, n: usize, least: u64) -> Ran {
        let mut rng = Rng::new(self.seed, 300 + n as u64);
        let mut pair = self.pair(n, Maps::True);
        for call in ALL {
            for class in paper::classes(call, n) {
                let mut tries = 0;
                while self.tally.met[call as usize][*class as usize][n] < least {
                    let start = make::map(n, rng.pick(&make::THIN), &mut rng);
                    let ops: Vec<Op> = (0..8).flat_map(|_| make::aimed(call, *class, n, &mut rng)).collect();
                    self.list(&mut pair, Maps::True, &start, &ops)?;
                    tries += 1;
                    if tries > 4 * least {
                        return Err(Difference(format!(
                            "  n = {n}: {} never answers {}\n",
                            call.name(),
                            class.name()
                        )));
                    }
                }
            }
        }
        Ok(())
    }

    /// Maps that the crate cannot build, set through its memory.
    pub fn untrue(&mut self, n: usize, calls: u64) -> Ran {
        self.say(&format!("n = {n}: about {calls} calls on untrue maps"));
        let mut rng = Rng::new(self.seed, 400 + n as u64);
        let mut pair = self.pair(n, Maps::Untrue);
        // the smallest: a bit that leads to nothing, and a free position that no bit leads to, the one given back or the one beside it
        for at in 0..words(n).min(3) {
            for word in [1, 2] {
                let mut start = vec![0; words(n)];
                start[at] = word;
                for o in [op(Alloc, &[]), op(Dealloc, &[0])] {
                    self.list(&mut pair, Maps::Untrue, &start, &[o])?;
                }
            }
        }
        let mut done = 0;
        while done < calls / self.less {
            let start = make::untrue(n, &mut rng);
            let ops: Vec<Op> = (0..rng.within(1, 12)).map(|_| make::any_call(&ALL, n, &mut rng)).collect();
            self.list(&mut pair, Maps::Untrue, &start, &ops)?;
            done += ops.len() as u64;
            self.progress("calls", done, calls / self.less);
        }
        Ok(())
    }
}

/// The crate looks for a run position by position, about 40 ns each, which takes long on a large map with many free positions.
fn dense(kind: Kind) -> bool {
    !make::THIN.contains(&kind)
}

/// A call that may take long on such a map.
fn heavy(call: Call, size: u64, n: usize) -> bool {
    n >= 4 && (call == Run || call == RunAt && size > 5000)
}

/// Half of the calls at random, half aimed at a class of answer. Those that make the whole map taken are taken once in so many times,
/// and those that take long on a dense map seldom.
fn random_list(n: usize, length: u64, dense: bool, empties: u64, rng: &mut Rng) -> Vec<Op> {
    let mut ops: Vec<Op> = Vec::new();
    while (ops.len() as u64) < length {
        if rng.once_in(2) {
            let o = make::any_call(&ALL, n, rng);
            if !(dense && heavy(o.call, o.args[1], n)) || rng.once_in(12) {
                ops.push(o);
            }
        } else {
            let call = rng.pick(&ALL);
            let class = rng.pick(paper::classes(call, n));
            let seldom = make::empties(call, class) && !rng.once_in(empties) || dense && heavy(call, 0, n) && !rng.once_in(4);
            if !seldom {
                ops.extend(make::aimed(call, class, n, rng));
            }
        }
    }
    ops.truncate(length as usize);
    ops
}

/// Each call with every argument up to 17, and the largest.
fn every_argument() -> Vec<Op> {
    let small = 0..=17u64;
    let numbers: Vec<u64> = small.clone().chain([1 << 63, u64::MAX]).collect();
    let aligns: Vec<u64> = small.chain([63, 64, 1 << 63, u64::MAX]).collect();
    let mut ops = vec![op(Alloc, &[]), op(IsEmpty, &[])];
    for a in &numbers {
        ops.extend([Next, Dealloc, Test].map(|call| op(call, &[*a])));
        for b in &numbers {
            ops.extend([DeallocRunOld, DeallocRun, Insert, Remove].map(|call| op(call, &[*a, *b])));
            ops.extend(aligns.iter().map(|c| op(RunAt, &[*a, *b, *c])));
        }
        ops.extend(aligns.iter().map(|c| op(Run, &[*a, *c])));
    }
    ops
}

/// Each call with numbers beside the multiples of 16, 256, 4,096 and so on, beside the end, and the largest.
pub fn border_calls(n: usize) -> Vec<Op> {
    let cap = positions(n);
    let mut keys: Vec<u64> = vec![
        0,
        1,
        cap / 2,
        cap / 2 + 1,
        cap.saturating_sub(17),
        cap - 16,
        cap - 15,
        1 << 63,
        u64::MAX - 1,
        u64::MAX,
    ];
    for level in 1..=n {
        let step = positions(level);
        keys.extend([step - 1, step, step + 1, cap - step, 3 * step]);
    }
    keys.sort();
    keys.dedup();
    let sizes: Vec<u64> = keys.clone();
    let aligns: Vec<u64> = [
        0,
        1,
        3,
        4,
        5,
        4 * n as u64 - 1,
        4 * n as u64,
        4 * n as u64 + 1,
        63,
        64,
        u64::MAX,
    ]
    .into();
    let mut ops = vec![op(Alloc, &[]), op(IsEmpty, &[])];
    for a in &keys {
        ops.extend([Next, Dealloc, Test].map(|call| op(call, &[*a])));
        for b in &sizes {
            ops.extend([DeallocRunOld, DeallocRun, Insert, Remove].map(|call| op(call, &[*a, *b])));
            ops.extend(aligns.iter().map(|c| op(RunAt, &[*a, *b, *c])));
        }
        ops.extend(aligns.iter().map(|c| op(Run, &[*a, *c])));
    }
    ops
}
