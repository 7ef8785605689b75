//! The timing run: turns of ours and of the crate in alternation, and the least time of each, less the clock's own.
use crate::lines::LINES;
use crate::runs::{self, Turns};
use std::time::{Duration, Instant};

/// How long a turn should at least take, where turns may follow each other; and how long a line is tried.
const TURN: Duration = Duration::from_micros(20);
const LINE: Duration = Duration::from_millis(400);

fn timed(run: &mut dyn Turns, times: usize, undo: bool) -> f64 {
    let began = Instant::now();
    run.turn(times);
    let took = began.elapsed();
    if undo {
        run.undo();
    }
    took.as_nanos() as f64
}

/// The least time between two readings of the clock.
fn clock() -> f64 {
    (0..10_000).fold(f64::MAX, |least, _| least.min(Instant::now().elapsed().as_nanos() as f64))
}

pub fn all() {
    let clock = clock();
    for line in &LINES {
        for n in 3..=5 {
            let mut sides = [runs::ours(line, n), runs::theirs(line, n)];
            // the first ones find nothing in the caches
            let once = (0..20).fold(f64::MAX, |least, _| least.min(timed(&mut *sides[1], 1, line.changes())));
            let times = if line.repeats() {
                (TURN.as_nanos() as f64 / once).clamp(1.0, 1000.0) as usize
            } else {
                1
            };
            let mut least = [f64::MAX; 2];
            let began = Instant::now();
            let mut rounds = 0;
            while rounds < 60 || rounds < 8000 && began.elapsed() < LINE {
                for (run, least) in sides.iter_mut().zip(&mut least) {
                    *least = least.min(timed(&mut **run, times, line.changes()));
                }
                rounds += 1;
            }
            for (side, least) in ["ours", "theirs"].iter().zip(least) {
                let calls = (times * sides[0].steps()) as f64;
                println!("{} {n} {side} {:.3}", line.id, (least - clock).max(0.0) / calls);
            }
        }
    }
}
