//! The checking run: each line's turns on both sides, twice, with every answer and, after every step, every word compared.
use crate::lines;
use crate::runs;

pub fn all() {
    let mut steps = 0;
    for (line, n) in lines::beside().chain(lines::alone()) {
        let (mut ours, mut theirs) = (runs::ours(line, n), runs::theirs(line, n));
        for _ in 0..2 {
            for i in 0..ours.steps() {
                let (a, b) = (ours.step(i), theirs.step(i));
                if a != b || ours.left() != theirs.left() {
                    eprintln!("{}, n = {n}, step {i}: ours answers {a:?}, the crate {b:?}", line.name);
                    eprintln!("words equal: {}", ours.left() == theirs.left());
                    std::process::exit(1);
                }
                if a[0] == crate::sides::NONE {
                    eprintln!("{}, n = {n}, step {i}: refused, so it would measure nothing", line.name);
                    std::process::exit(1);
                }
                steps += 1;
            }
            ours.undo();
            theirs.undo();
        }
    }
    println!("{steps}");
}
