//! The counting run, for callgrind: each line's turn once, and then twice, on each side. Callgrind collects inside the functions named
//! `counted_`, and writes a part at each call of `bench_mark`; this prints what each part is, in order.
use crate::lines::{self, Line};
use crate::runs::{self, Turns};

#[no_mangle]
#[inline(never)]
extern "C" fn bench_mark() {
    // a call that does nothing would be left out
    std::hint::black_box(());
}

fn parts(line: &Line, n: usize, side: &str, mut run: Box<dyn Turns>) {
    for turns in [1, 2] {
        for _ in 0..turns {
            run.turn(1);
            if line.changes() {
                run.undo();
            }
        }
        bench_mark();
        println!("{} {n} {side} {turns} {}", line.id, run.steps());
    }
}

pub fn all() {
    bench_mark();
    for (line, n) in lines::beside() {
        parts(line, n, "ours", runs::ours(line, n));
        parts(line, n, "theirs", runs::theirs(line, n));
    }
    for (line, n) in lines::alone() {
        parts(line, n, "ours", runs::ours(line, n));
    }
}
