//! Runs our bitmap beside the Rust crate bitmap-allocator, and what the crate has not beside a plain model. See oracle/README.md.
mod added;
mod calls;
mod lines;
mod make;
mod model;
mod oracle;
mod order;
mod pair;
mod paper;
mod plant;
mod record;
mod runs;
mod shrink;
mod sides;

use added::Added;
use calls::*;
use plant::Plant;
use runs::{Difference, Ran, Runs};
use std::process::ExitCode;

/// How often each class of answer has to be met at each size.
const LEAST: u64 = 1000;

fn all(r: &mut Runs, added: &mut Added) -> Ran {
    let sizes = if cfg!(model_as_ours) { 1..=3 } else { 1..=5 };
    r.every_word()?;
    for n in sizes {
        r.smallest(n)?;
        if n > 1 {
            r.borders(n)?;
        }
        r.lists(n, [0, 500_000, 1_000_000, 600_000, 200_000, 80_000][n])?;
        r.long_lists(n, [0, 200_000, 300_000, 200_000, 100_000, 60_000][n])?;
        r.say(&format!("n = {n}: classes of answers met fewer than {LEAST} times"));
        r.fill(n, LEAST / r.less)?;
    }
    for n in 1..=3 {
        r.untrue(n, 200_000)?;
    }
    if cfg!(model_as_ours) {
        return Ok(());
    }
    added.word_counts(r)?;
    added.checks(r)?;
    added.images(r)?;
    added.line_program(r)
}

fn table(r: &Runs) {
    println!("\nHow often each class of answer was met, on true maps:\n");
    println!("| call | answer | n = 1 | n = 2 | n = 3 | n = 4 | n = 5 |\n|---|---|---|---|---|---|---|");
    for call in ALL {
        for class in paper::classes(call, 2) {
            println!(
                "| {} | {} | {} |",
                call.name(),
                class.name(),
                row(&r.tally.met[call as usize][*class as usize][1..=5])
            );
        }
    }
    println!("\nThe same on untrue maps:\n");
    println!("| call | answer | n = 1 | n = 2 | n = 3 |\n|---|---|---|---|---|");
    for call in ALL {
        for class in paper::classes(call, 2).iter().chain(paper::untrue_classes(call)) {
            println!(
                "| {} | {} | {} |",
                call.name(),
                class.name(),
                row(&r.tally.met_untrue[call as usize][*class as usize][1..=3])
            );
        }
    }
    println!(
        "\nWhat the crate did outside the domain, where ours refuses and changes nothing, or sets fewer bits (smallest input met):\n"
    );
    println!("| call | ours | n | the crate | times | smallest |\n|---|---|---|---|---|---|");
    for ((call, class, one, did), (times, least)) in &r.tally.outside {
        println!(
            "| {} | {class} | {} | {did} | {times} | {} |",
            call.name(),
            if *one { "1" } else { "2 to 5" },
            least.text
        );
    }
}

fn row(counts: &[u64]) -> String {
    counts.iter().map(|x| x.to_string()).collect::<Vec<_>>().join(" | ")
}

fn main() -> ExitCode {
    let mut seed = 1;
    let mut plant = Plant::None;
    let mut less = 1;
    let mut folder = None;
    let mut args = std::env::args().skip(1);
    while let Some(arg) = args.next() {
        match arg.as_str() {
            "--plant" => {
                plant = args
                    .next()
                    .and_then(|name| Plant::named(&name))
                    .expect("answer, leaf, summary, whole or way after --plant")
            }
            "--quick" => less = 20,
            "--record" => folder = args.next(),
            number => seed = number.parse().expect("a number as the seed"),
        }
    }
    oracle::catch_panics();
    let mut r = Runs::new(seed, plant, less);
    r.say(&format!(
        "seed {seed}; the crate's words stand in memory {}",
        r.orders[2].describe()
    ));
    let mut added = Added::default();
    if let Some(folder) = folder {
        return match record::record(&mut r, &folder) {
            Ok(()) => ExitCode::SUCCESS,
            Err(Difference(text)) => {
                println!("compare: a difference while recording:\n{text}");
                ExitCode::FAILURE
            }
        };
    }
    match all(&mut r, &mut added) {
        Ok(()) => {
            table(&r);
            let true_maps: Vec<String> = (1..=5).map(|n| format!("n={n} {}", r.tally.compared(n))).collect();
            let untrue: Vec<String> = (1..=3).map(|n| format!("n={n} {}", r.tally.compared_untrue(n))).collect();
            println!("\nBeside the model, how often each answer was met and was the same:\n");
            println!("| call | answer | times |\n|---|---|---|");
            for ((what, answer), times) in &added.met {
                println!("| {what} | {answer} | {times} |");
            }
            println!(
                "\ncompare: operations compared {}; on untrue maps {}; beside the model {}: 0 differences, in {} s",
                true_maps.join(", "),
                untrue.join(", "),
                r.tally.beside_model() + added.compared(),
                r.began.elapsed().as_secs()
            );
            ExitCode::SUCCESS
        }
        Err(Difference(text)) => {
            println!("\ncompare: a difference. The smallest list found:\n{text}");
            ExitCode::FAILURE
        }
    }
}
