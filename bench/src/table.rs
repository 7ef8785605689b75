//! The tables, in Markdown, made from what the other modes wrote. Ends with status 1 where a run of one costs more than three takes.
use crate::calls::words;
use crate::lines::{Line, GIVEN, GROWTH, LINES, ONES};
use std::collections::HashMap;
use std::process::ExitCode;

/// What was measured: by line, levels and side.
type Figures = HashMap<(String, usize, String), f64>;

struct Tables {
    counts: Figures,
    times: Figures,
    stacks: Vec<(String, String)>,
    /// the most that a frame has besides its saved registers
    frame: Option<String>,
}

fn rows(folder: &str, name: &str) -> Vec<Vec<String>> {
    let text = std::fs::read_to_string(format!("{folder}/{name}")).unwrap_or_default();
    let row = |line: &str| line.split(' ').map(str::to_string).collect();
    text.lines().map(row).collect()
}

fn number(text: &str) -> f64 {
    text.parse().expect("a number")
}

/// The instructions of a call: those of two turns less those of one, over the calls of a turn.
fn counts(rows: Vec<Vec<String>>) -> Figures {
    let mut figures = Figures::new();
    for row in rows {
        let [id, n, side, turns, steps, total] = &row[..] else {
            panic!("a count has six words: {row:?}")
        };
        let all = number(total) / number(steps);
        let figure = figures.entry((id.clone(), number(n) as usize, side.clone())).or_default();
        *figure += if turns == "1" { -all } else { all };
    }
    // where callgrind knows none of the names that it was told, it collects nothing
    assert!(figures.values().all(|figure| *figure > 0.0), "a line without an instruction");
    figures
}

fn times(rows: Vec<Vec<String>>) -> Figures {
    let key = |row: &[String]| (row[0].clone(), number(&row[1]) as usize, row[2].clone());
    rows.iter().map(|row| (key(row), number(&row[3]))).collect()
}

fn of(figures: &Figures, line: &Line, n: usize, side: &str) -> f64 {
    figures[&(line.id.to_string(), n, side.to_string())]
}

fn ratio(figures: &Figures, line: &Line, n: usize) -> f64 {
    of(figures, line, n, "ours") / of(figures, line, n, "theirs")
}

fn listed(items: impl Iterator<Item = String>) -> String {
    items.collect::<Vec<_>>().join(" / ")
}

/// A count with commas, and one decimal where it is an average that is not whole.
fn grouped(x: f64) -> String {
    let (whole, rest) = ((x + 0.05).floor() as u64, (x * 10.0).round() as u64 % 10);
    let digits = whole.to_string();
    let mut out = String::new();
    for (i, digit) in digits.chars().enumerate() {
        if i > 0 && (digits.len() - i) % 3 == 0 {
            out.push(',');
        }
        out.push(digit);
    }
    if rest > 0 && whole < 1000 {
        out += &format!(".{rest}");
    }
    out
}

impl Tables {
    fn beside(&self) {
        let timed = !self.times.is_empty();
        let (head, rule) = if timed { (" time, n = 3 / 4 / 5 |", "---|") } else { ("", "") };
        println!("## Beside the crate\n\nOurs over the crate's, at n = 3 / 4 / 5:\n");
        println!("| line | target | instructions, n = 3 / 4 / 5 |{head} the target is |\n|---|---|---|{rule}---|");
        let (mut met, mut of) = (0, 0);
        for line in &LINES {
            let ratios = [3, 4, 5].map(|n| ratio(&self.counts, line, n));
            let time = || listed((3..=5).map(|n| format!("{:.2}", ratio(&self.times, line, n))));
            let time = if timed { format!(" {} |", time()) } else { String::new() };
            let (target, verdict) = match line.targets {
                None => ("none".to_string(), "".to_string()),
                Some(targets) => {
                    let missed: Vec<String> = (0..3)
                        .filter(|i| ratios[*i] > targets[*i])
                        .map(|i| (i + 3).to_string())
                        .collect();
                    met += 3 - missed.len();
                    of += 3;
                    let target = if targets[0] == targets[1] {
                        format!("{:?}", targets[0])
                    } else {
                        listed(targets.iter().map(|t| format!("{t:?}")))
                    };
                    let verdict = if missed.is_empty() {
                        "met".to_string()
                    } else {
                        format!("**missed at n = {}**", missed.join(", "))
                    };
                    (target, verdict)
                }
            };
            let ratios = listed(ratios.iter().map(|r| format!("{r:.3}")));
            println!("| {} | {target} | {ratios} |{time} {verdict} |", line.name);
        }
        println!("\nTargets, each line at each n: {met} of {of} met.\n");
        println!("\\* The crate has no check and no image. In its place stand plain Rust loops, bench/src/plain.rs.");
    }

    fn absolute(&self) {
        println!("\nThe instructions themselves, ours : the crate's, of one call (of a take and its give-back in the first three lines):\n");
        println!("| line | n = 3 | n = 4 | n = 5 |\n|---|---|---|---|");
        for line in &LINES {
            let pair = |n| {
                ["ours", "theirs"]
                    .map(|side| grouped(of(&self.counts, line, n, side)))
                    .join(" : ")
            };
            println!("| {} | {} | {} | {} |", line.name, pair(3), pair(4), pair(5));
        }
        println!("\nThe calls over a whole map, ours, in instructions for each word of the map:\n");
        println!("| line | n = 3 | n = 4 | n = 5 |\n|---|---|---|---|");
        for line in LINES.iter().filter(|line| line.name.ends_with('*')) {
            let each = |n| format!("{:.1}", of(&self.counts, line, n, "ours") / words(n) as f64);
            println!(
                "| {} | {} | {} | {} |",
                line.name.trim_end_matches(" *"),
                each(3),
                each(4),
                each(5)
            );
        }
    }

    /// The two run give-backs beside each other and beside insert.
    fn given(&self) {
        println!("\n## A run given back\n\nOurs, of a run of which no position is free: all or nothing, the crate's way, and insert of the same range. Instructions of one call, and the ratios of instructions and of time.\n");
        println!("| run | n | all or nothing | the crate's way | insert | over the crate's way | over insert |\n|---|---|---|---|---|---|---|");
        for (run, ids) in GIVEN {
            for n in 3..=5 {
                let figures = |of: &Figures| ids.map(|id| of.get(&(id.to_string(), n, "ours".to_string())).copied());
                let [counts, times] = [figures(&self.counts), figures(&self.times)];
                let over = |i: usize| {
                    let ratio = |of: [Option<f64>; 3]| Some(of[0]? / of[i]?);
                    let time = ratio(times).map_or("".to_string(), |r| format!(", in time {r:.2}"));
                    ratio(counts).map_or("".to_string(), |r| format!("{r:.2}{time}"))
                };
                let cells = counts.map(|count| grouped(count.expect("a count")));
                println!("| {run} | {n} | {} | {} | {} |", cells.join(" | "), over(1), over(2));
            }
        }
    }

    fn growth(&self) {
        println!("\n## How the cost grows\n\nInstructions of one call, ours : the crate's. A level more is 16 times the positions. At n = 1 the run is of 8 positions: one of 64 does not fit.\n");
        println!(
            "| n | positions | {} | {} | {} |\n|---|---|---|---|---|",
            GROWTH[0].name, GROWTH[1].name, GROWTH[2].name
        );
        for n in 1..=6 {
            let pair = |line| {
                ["ours", "theirs"]
                    .map(|side| grouped(of(&self.counts, line, n, side)))
                    .join(" : ")
            };
            let positions = grouped(crate::calls::positions(n) as f64);
            println!(
                "| {n} | {positions} | {} | {} | {} |",
                pair(&GROWTH[0]),
                pair(&GROWTH[1]),
                pair(&GROWTH[2])
            );
        }
    }

    /// Whether a run of one position is never more than three takes.
    fn ones(&self) -> bool {
        println!("\n## A run of one position\n\nOurs on an all-free map, instructions of one call. A run of one is to cost at most three takes.\n");
        println!("| n | run of 1 | take | run over take |\n|---|---|---|---|");
        let mut fits = true;
        for n in 1..=7 {
            let [run, take] = [0, 1].map(|i: usize| of(&self.counts, &ONES[i], n, "ours"));
            fits &= run <= 3.0 * take;
            println!("| {n} | {} | {} | {:.2} |", grouped(run), grouped(take), run / take);
        }
        println!("\nAt most three takes: {}.", if fits { "met" } else { "**missed**" });
        fits
    }

    fn stack(&self) {
        println!("\n## Memory\n\nNo call uses memory but what it is lent and the stack. The deepest stack of each call at n = 7, in bytes:\n");
        let most = |bytes: &str| {
            self.frame
                .as_ref()
                .map_or("".to_string(), |f| grouped(number(bytes) + number(f)))
        };
        println!("| call | deepest byte written | at most |\n|---|---|---|");
        for (call, bytes) in &self.stacks {
            println!("| `{call}` | {} | {} |", grouped(number(bytes)), most(bytes));
        }
        println!("\nMeasured, by a painted stack: the lowest byte that the call wrote, its return address included.");
        if let Some(frame) = &self.frame {
            println!("The last frame may have reserved more than it wrote: by the machine code {frame} bytes at most.");
        }
    }
}

pub fn print(folder: &str) -> ExitCode {
    let tables = Tables {
        counts: counts(rows(folder, "counts")),
        times: times(rows(folder, "times")),
        stacks: rows(folder, "stacks")
            .into_iter()
            .map(|row| (row[0].clone(), row[1].clone()))
            .collect(),
        frame: rows(folder, "frame").into_iter().flatten().next(),
    };
    tables.beside();
    tables.absolute();
    tables.given();
    tables.growth();
    let fits = tables.ones();
    if !tables.stacks.is_empty() {
        tables.stack();
    }
    if fits {
        ExitCode::SUCCESS
    } else {
        ExitCode::from(1)
    }
}
