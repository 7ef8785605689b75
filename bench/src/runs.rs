//! A line on one side, ready to run: its map, and turns of its calls.
use crate::lines::{Call, Line};
use crate::plans::Plan;
use crate::sides::{Ours, Side, Theirs};
use crate::whole::{self, Plain};
use bitmap_allocator::{BitAlloc16, BitAlloc16M, BitAlloc1M, BitAlloc256, BitAlloc256M, BitAlloc4K, BitAlloc64K};
use std::hint::black_box;

pub trait Turns {
    /// How many steps a turn has. A step is a call, or a take and its give-back.
    fn steps(&self) -> usize;
    /// So many turns, one after the other.
    fn turn(&mut self, times: usize);
    /// Makes the map what it was at first.
    fn undo(&mut self);
    /// Step i of a turn, with its answers.
    fn step(&mut self, i: usize) -> [u64; 2];
    /// Every word that there is, in our order.
    fn left(&mut self) -> Vec<u16>;
}

struct Run<S: Side> {
    n: usize,
    call: Call,
    args: Vec<[usize; 3]>,
    map: S::Held,
    /// its memory at first
    first: Vec<u16>,
}

impl<S: Side> Run<S> {
    fn new(call: Call, n: usize, plan: Plan) -> Run<S> {
        let mut map = S::held(n, &plan.words);
        let first = S::memory(&mut map).to_vec();
        let args = plan.args;
        Run {
            n,
            call,
            args,
            map,
            first,
        }
    }

    /// The steps, so many times. `call` is inlined, so a turn is a plain loop of calls.
    #[inline(always)]
    fn each<R>(&mut self, times: usize, mut call: impl FnMut(&mut S::Map, [usize; 3]) -> R) {
        let map = &mut *self.map;
        for _ in 0..times {
            for a in &self.args {
                black_box(call(map, *a));
            }
        }
    }
}

impl<S: Side> Turns for Run<S> {
    fn steps(&self) -> usize {
        self.args.len()
    }

    fn turn(&mut self, times: usize) {
        match self.call {
            Call::TakeAndGive => self.each(times, |map, [key, _, _]| {
                black_box(S::counted_take(map));
                S::counted_give(map, key)
            }),
            Call::Take => self.each(times, |map, _| S::counted_take(map)),
            Call::Next => self.each(times, |map, [key, _, _]| S::counted_next(map, key)),
            Call::Test => self.each(times, |map, [key, _, _]| S::counted_test(map, key)),
            Call::Insert => self.each(times, |map, [a, b, _]| S::counted_insert(map, a, b)),
            Call::Remove => self.each(times, |map, [a, b, _]| S::counted_remove(map, a, b)),
            Call::Run => self.each(times, |map, [size, align, _]| S::counted_run(map, size, align)),
            Call::RunAt => self.each(times, |map, [base, size, align]| S::counted_run_at(map, base, size, align)),
            Call::GiveRun => self.each(times, |map, [base, size, _]| S::counted_give_run(map, base, size)),
            Call::GiveRunOld => self.each(times, |map, [base, size, _]| S::counted_give_run_old(map, base, size)),
            Call::Whole(_) => unreachable!(),
        }
    }

    fn undo(&mut self) {
        S::memory(&mut self.map).copy_from_slice(&self.first);
    }

    fn step(&mut self, i: usize) -> [u64; 2] {
        let map = &mut *self.map;
        let [a, b, c] = self.args[i];
        let one = match self.call {
            Call::TakeAndGive => return [S::position(S::counted_take(map)), S::done(S::counted_give(map, a))],
            Call::Take => S::position(S::counted_take(map)),
            Call::Next => S::position(S::counted_next(map, a)),
            Call::Test => S::told(S::counted_test(map, a)),
            Call::Insert => S::nothing(S::counted_insert(map, a, b)),
            Call::Remove => S::nothing(S::counted_remove(map, a, b)),
            Call::Run => S::position(S::counted_run(map, a, b)),
            Call::RunAt => S::position(S::counted_run_at(map, a, b, c)),
            Call::GiveRun => S::done(S::counted_give_run(map, a, b)),
            Call::GiveRunOld => S::done(S::counted_give_run_old(map, a, b)),
            Call::Whole(_) => unreachable!(),
        };
        [one, 0]
    }

    fn left(&mut self) -> Vec<u16> {
        S::words(self.n, &mut self.map)
    }
}

/// The line at n levels on our side.
pub fn ours(line: &Line, n: usize) -> Box<dyn Turns> {
    let plan = (line.plan)(n);
    match line.call {
        Call::Whole(call) => Box::new(whole::Run::<Ours>::new(call, n, plan.words)),
        call => Box::new(Run::<Ours>::new(call, n, plan)),
    }
}

/// The line at n levels on the crate's side; what the crate has not, by plain loops.
pub fn theirs(line: &Line, n: usize) -> Box<dyn Turns> {
    let plan = (line.plan)(n);
    let call = line.call;
    match (call, n) {
        (Call::Whole(call), _) => Box::new(whole::Run::<Plain>::new(call, n, plan.words)),
        (_, 1) => Box::new(Run::<Theirs<BitAlloc16>>::new(call, n, plan)),
        (_, 2) => Box::new(Run::<Theirs<BitAlloc256>>::new(call, n, plan)),
        (_, 3) => Box::new(Run::<Theirs<BitAlloc4K>>::new(call, n, plan)),
        (_, 4) => Box::new(Run::<Theirs<BitAlloc64K>>::new(call, n, plan)),
        (_, 5) => Box::new(Run::<Theirs<BitAlloc1M>>::new(call, n, plan)),
        (_, 6) => Box::new(Run::<Theirs<BitAlloc16M>>::new(call, n, plan)),
        (_, 7) => Box::new(Run::<Theirs<BitAlloc256M>>::new(call, n, plan)),
        _ => unreachable!("no map of {n} levels"),
    }
}
