//! The recorded list: a sample of the crate's answers, which crates/replay holds ours against where there is no Rust.
use crate::calls::*;
use crate::make::{self, Rng};
use crate::pair::{Maps, Pair};
use crate::paper;
use crate::runs::{border_calls, Difference, Ran, Runs};
use std::io::Write;

/// A checksum of a map's words, in which every word counts: 33 is odd, so that no two maps that differ in one word share it.
fn checksum(words: &[u16]) -> u64 {
    words
        .iter()
        .fold(0, |sum: u64, w| sum.wrapping_mul(33).wrapping_add(*w as u64))
}

/// Writes to the folder's `stdin` a line for each operation: levels, call (its place in CALLS), three numbers, refusal, value, checksum
/// of the words afterwards; and to its `stdout` what the replay has to print. Every answer is the crate's, on true maps inside the
/// domain. The first operation at each size makes every position taken, whatever the words are.
pub fn record(r: &mut Runs, folder: &str) -> Ran {
    let mut lines = String::new();
    let mut count = 0;
    for n in 1..=5 {
        let mut rng = Rng::new(r.seed, 900 + n as u64);
        let mut pair = Pair::new(n, Maps::True, r.plant, &r.orders[n]);
        let mut ops = vec![op(Remove, &[0, positions(n)])];
        for call in CALLS {
            for class in paper::classes(call, n).repeat(4) {
                ops.extend(make::aimed(call, class, n, &mut rng));
            }
        }
        let borders = border_calls(n);
        for _ in 0..200 {
            let call = rng.pick(&CALLS);
            let of_call: Vec<Op> = borders.iter().filter(|o| o.call == call).copied().collect();
            ops.extend([rng.pick(&of_call), make::any_call(&CALLS, n, &mut rng)]);
        }
        for o in ops.iter().filter(|o| !paper::outside(o, n)) {
            let answer = pair
                .step(o, &mut r.tally)
                .map_err(|how| Difference(format!("  n = {n}: {o}: {how}\n")))?;
            let [a, b, c] = o.args;
            lines += &format!(
                "{n} {} {a} {b} {c} {} {} {}\n",
                o.call as usize,
                answer.refusal,
                answer.value,
                checksum(pair.words())
            );
            count += 1;
        }
    }
    let write =
        |name: &str, text: &str| std::fs::File::create(format!("{folder}/{name}")).and_then(|mut f| f.write_all(text.as_bytes()));
    write("stdin", &lines)
        .and_then(|_| write("stdout", &format!("{count} operations, 0 differences\n")))
        .map_err(|e| Difference(format!("  {folder}: {e}\n")))?;
    println!("{count} operations recorded in {folder}/stdin");
    Ok(())
}
