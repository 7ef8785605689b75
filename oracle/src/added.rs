//! What the Rust crate has not, beside the plain model: wrong word counts, the check, the image, and the line program.
use crate::calls::*;
use crate::lines;
use crate::make::{self, Rng};
use crate::model;
use crate::runs::{Difference, Ran, Runs};
use crate::sides::{self, Answer};
use std::collections::BTreeMap;
use std::process::{Command, Stdio};

/// How often each answer was met and was the same.
#[derive(Default)]
pub struct Added {
    pub met: BTreeMap<(&'static str, String), u64>,
}

fn differs(text: String) -> Ran {
    Err(Difference(format!("  {text}\n")))
}

/// The class of an answer here: the refusal's number, or the value where there are few.
fn class(answer: Answer) -> String {
    match answer.refusal {
        0 if answer.value < 8 => format!("value {}", answer.value),
        0 => "a larger value".to_string(),
        n => format!("refusal {n}"),
    }
}

impl Added {
    fn note(&mut self, what: &'static str, answer: String) {
        *self.met.entry((what, answer)).or_default() += 1;
    }

    pub fn compared(&self) -> u64 {
        self.met.values().sum()
    }

    /// Each call on stores of word counts that no map has, and beside them those that a map has.
    pub fn word_counts(&mut self, r: &mut Runs) -> Ran {
        r.say("stores of every word count to 300 and beside each map's, beside the model");
        let mut rng = Rng::new(r.seed, 500);
        let mut counts: Vec<usize> = (0..=300).collect();
        for n in 4..=6 {
            counts.extend([
                words(n) - 17,
                words(n) - 16,
                words(n) - 2,
                words(n) - 1,
                words(n) + 1,
                words(n) + 2,
                words(n) + 16,
            ]);
        }
        let of = counts.len() as u64;
        for (i, count) in counts.into_iter().enumerate() {
            let times = if count > 300 { 2 } else { 20 / r.less.min(10) };
            for call in ALL.repeat(times as usize) {
                let n = rng.within(1, 5) as usize;
                let o = make::call_of(call, n, &mut rng);
                let noise = rng.below(5);
                let mut start: Vec<u16> = (0..count.min(300)).map(|_| make::word(noise, &mut rng)).collect();
                start.resize(count, noise as u16);
                let (mut a, mut b) = (start.clone(), start.clone());
                let (x, y) = (sides::ours(&o, &mut a), sides::model(&o, &mut b));
                if x != y || a != b {
                    return differs(format!(
                        "a store of {count} words (the first are {:04x?}): {o}: the model says {y}, ours {x}; words equal: {}",
                        &start[..count.min(8)],
                        a == b
                    ));
                }
                self.note("calls on stores of any word count", class(y));
            }
            self.checked(&mut rng, count)?;
            r.progress("word counts", i as u64, of);
        }
        Ok(())
    }

    fn checked(&mut self, rng: &mut Rng, count: usize) -> Ran {
        let s: Vec<u16> = (0..count).map(|_| rng.any() as u16).collect();
        let (x, y) = (sides::check(&s), Answer::from(model::check(&s)));
        self.note("check", class(y));
        if x == y {
            Ok(())
        } else {
            differs(format!("a store of {count} words: check: the model says {y}, ours {x}"))
        }
    }

    /// The check, on true maps, on true maps with one bit turned, and on others.
    pub fn checks(&mut self, r: &mut Runs) -> Ran {
        r.say("the check, beside the model");
        let mut rng = Rng::new(r.seed, 600);
        for n in 1..=5 {
            for _ in 0..[0, 20_000, 20_000, 10_000, 1_000, 60][n] / r.less {
                let kind = rng.pick(&make::KINDS);
                let mut s = if rng.once_in(3) && n < 5 {
                    make::untrue(n, &mut rng)
                } else {
                    make::map(n, kind, &mut rng)
                };
                if rng.once_in(2) {
                    let at = rng.below(s.len() as u64) as usize;
                    s[at] ^= 1 << rng.below(16);
                }
                let (x, y) = (sides::check(&s), Answer::from(model::check(&s)));
                if x != y {
                    return differs(format!("n = {n}, words {}: check: the model says {y}, ours {x}", sparse(&s)));
                }
                self.note("check", class(y));
            }
        }
        Ok(())
    }

    /// Images written and read: true and untrue maps, wrong word counts, short and long targets, and bytes changed, cut and added.
    pub fn images(&mut self, r: &mut Runs) -> Ran {
        r.say("images written and read, beside the model");
        let mut rng = Rng::new(r.seed, 700);
        for n in 1..=5 {
            for _ in 0..[0, 20_000, 20_000, 6_000, 400, 20][n] / r.less.min(20) {
                let kind = rng.pick(&make::KINDS);
                let mut s = if rng.once_in(4) {
                    make::untrue(n, &mut rng)
                } else {
                    make::map(n, kind, &mut rng)
                };
                if rng.once_in(12) {
                    s.resize(s.len() + rng.within(1, 20) as usize - 10.min(s.len()), 1);
                }
                self.written(&s, n, &mut rng)?;
                let mut image = vec![0; length(n)];
                if model::image_write(&s, &mut image).is_err() && n < 5 {
                    s = make::map(n, kind, &mut rng);
                    model::image_write(&s, &mut image).unwrap();
                }
                change_bytes(&mut image, &mut rng);
                self.read(&image, n, &mut rng)?;
            }
        }
        // every proper beginning of an image of each of the three smallest sizes
        for n in 1..=3 {
            let s = make::map(n, make::Kind::Noise, &mut rng);
            let mut image = vec![0; length(n)];
            model::image_write(&s, &mut image).unwrap();
            for end in 0..image.len() {
                self.read(&image[..end], n, &mut rng)?;
            }
        }
        Ok(())
    }

    fn written(&mut self, s: &[u16], n: usize, rng: &mut Rng) -> Ran {
        let full = length(n);
        let bytes = rng.pick(&[full, full, full + 1, full + 40, full - 1, full / 2, 0]);
        let start: Vec<u8> = (0..bytes).map(|_| rng.any() as u8).collect();
        let (mut a, mut b) = (start.clone(), start);
        let (x, y) = (sides::image_write(s, &mut a), Answer::from(model::image_write(s, &mut b)));
        self.note("image_write", class(y));
        if x != y || a != b {
            return differs(format!(
                "{} words, {}, and a target of {bytes} bytes: image_write: the model says {y}, ours {x}; bytes equal: {}",
                s.len(),
                sparse(s),
                a == b
            ));
        }
        Ok(())
    }

    fn read(&mut self, image: &[u8], n: usize, rng: &mut Rng) -> Ran {
        let full = words(n);
        let count = rng.pick(&[full, full, full, full + 1, full + 20, full - 1, full / 2, 0]);
        let start: Vec<u16> = (0..count).map(|_| rng.any() as u16).collect();
        let (mut a, mut b) = (start.clone(), start);
        let (x, y) = (
            sides::image_read(image, &mut a),
            Answer::from(model::image_read(image, &mut b)),
        );
        self.note("image_read", class(y));
        if x != y || a != b {
            return differs(format!("{} bytes, the first {:02x?}, and a target of {count} words: image_read: the model says {y}, ours {x}; words equal: {}", image.len(), &image[..image.len().min(64)], a == b));
        }
        Ok(())
    }

    /// The line program on inputs of every kind, each in a process of its own.
    pub fn line_program(&mut self, r: &mut Runs) -> Ran {
        let command = std::env::var("LINE_PROGRAM").expect("the line program's command in LINE_PROGRAM");
        let inputs = 400 / r.less.min(10);
        r.say(&format!("the line program on {inputs} inputs, beside the model"));
        let mut rng = Rng::new(r.seed, 800);
        for i in 0..inputs {
            let input = match i {
                0 => Vec::new(),
                1 => b"\n".to_vec(),
                2 => b"size 2\ninsert 0 16\nremove 2 8\ntake\ntake\ntake\nfree 1\nfree 1".to_vec(),
                3 => b"size 2\ninsert 20 21\nfreerun 0 32\ntest 0\nfreerunold 0 32\ntest 0".to_vec(),
                _ => script(i, &mut rng),
            };
            let want = lines::printed(&input);
            let got = run(&command, &input).map_err(|e| Difference(format!("  the line program could not be run: {e}\n")))?;
            if got != want {
                return Err(Difference(self.smaller_script(&command, input)));
            }
            for line in want.split(|b| *b == b'\n').filter(|line| !line.is_empty()) {
                let line = String::from_utf8_lossy(line);
                // positions are counted together
                let kind = if line.starts_with("at ") { "at P" } else { &line };
                self.note("line program", kind.to_string());
            }
            r.progress("inputs", i, inputs);
        }
        Ok(())
    }

    /// Takes lines, and then bytes, out of an input as long as it fails, and tells it.
    fn smaller_script(&self, command: &str, input: Vec<u8>) -> String {
        let fails = |input: &[u8]| run(command, input).map_or(true, |got| got != lines::printed(input));
        let mut list: Vec<Vec<u8>> = input.split_inclusive(|b| *b == b'\n').map(|l| l.to_vec()).collect();
        let mut part = list.len();
        while part > 0 {
            let mut at = 0;
            while at < list.len() {
                let mut new = list.clone();
                new.drain(at..list.len().min(at + part));
                if fails(&new.concat()) {
                    list = new
                } else {
                    at += part
                }
            }
            part /= 2;
        }
        let input = list.concat();
        let show = |b: &[u8]| b.escape_ascii().to_string();
        let got = run(command, &input).unwrap_or_default();
        format!(
            "  the line program reads {} bytes: {}\n  it prints {}\n  the model prints {}\n",
            input.len(),
            show(&input),
            show(&got),
            show(&lines::printed(&input))
        )
    }
}

/// The bytes of an image of n levels.
fn length(n: usize) -> usize {
    4 * n + 2 * words(n)
}

fn change_bytes(image: &mut Vec<u8>, rng: &mut Rng) {
    let any = |image: &Vec<u8>, rng: &mut Rng| rng.below(image.len() as u64) as usize;
    match rng.below(8) {
        0 | 1 => {
            let at = any(image, rng);
            image[at] ^= 1 << rng.below(8);
        }
        2 => {
            let at = any(image, rng);
            image.truncate(at);
        }
        3 => image.extend((0..rng.within(1, 600)).map(|i| i as u8)),
        4 => {
            // a byte of a section's count
            let section = rng.below(3) as usize;
            let at = (0..section).map(|d| 4 + 2 * positions(d) as usize).sum::<usize>() + rng.below(4) as usize;
            if at < image.len() {
                image[at] = image[at].wrapping_add(rng.pick(&[1, 15, 16, 255]));
            }
        }
        _ => {}
    }
}

/// The words that are not 0, the first of them.
fn sparse(s: &[u16]) -> String {
    let list: Vec<String> = s
        .iter()
        .enumerate()
        .filter(|(_, w)| **w != 0)
        .take(8)
        .map(|(i, w)| format!("{i}: {w:#06x}"))
        .collect();
    format!("all 0 but [{}]", list.join(", "))
}

/// A random input of the line program: mostly lines of the right form, some of another, with or without the last line end.
fn script(i: u64, rng: &mut Rng) -> Vec<u8> {
    let n = rng.within(1, if i % 4 == 0 { 4 } else { 3 }) as usize;
    let mut input = match rng.below(12) {
        0 => bad_line(format!("size {n}"), rng),
        1 => rng
            .pick(&[
                "size 0", "size 5", "size 02", "size", "take", "", "size 1 ", "map 256", "size 11",
            ])
            .as_bytes()
            .to_vec(),
        _ => format!("size {n}").into_bytes(),
    };
    input.push(b'\n');
    // some inputs are longer than what is read
    let lines = if i % 40 == 7 { 9_000 } else { rng.below(300) };
    for _ in 0..lines {
        let line = good_line(n, rng);
        input.extend(if rng.once_in(6) {
            bad_line(line, rng)
        } else {
            line.into_bytes()
        });
        input.push(b'\n');
    }
    if rng.once_in(2) {
        input.pop();
    }
    if i % 40 == 8 {
        // what is read ends at a line end, one byte before it or one after
        input.resize(65_535 + rng.below(4) as usize, b'\n');
        input.extend(b"take\ntake");
    }
    input
}

fn good_line(n: usize, rng: &mut Rng) -> String {
    let o = make::any_call(&ALL, n, rng);
    let name = match o.call {
        Alloc => "take",
        Run => "run",
        RunAt => "runat",
        Next => "next",
        Dealloc => "free",
        DeallocRunOld => "freerunold",
        Insert => "insert",
        Remove => "remove",
        IsEmpty => "empty",
        Test => "test",
        DeallocRun => "freerun",
    };
    let mut line = name.to_string();
    for x in o.numbers() {
        let x = (*x).min(9_999_999_999);
        line += &if rng.once_in(12) {
            format!(" {x:010}")
        } else {
            format!(" {x}")
        };
    }
    line
}

/// A line of another form, most often.
fn bad_line(line: String, rng: &mut Rng) -> Vec<u8> {
    let mut line = line.into_bytes();
    let at = rng.below(line.len() as u64 + 1) as usize;
    match rng.below(12) {
        0 => line.insert(at, b' '),
        1 => line.push(b' '),
        2 => line.push(b'\r'),
        3 => line.insert(at, rng.pick(b"\t\0\x80\xff-+.x9")),
        4 => line.clear(),
        5 => line.extend(b" 1"),
        6 => line.extend(b" 00000000001"),
        7 => line.make_ascii_uppercase(),
        8 => line.truncate(at),
        9 => line.insert(0, b' '),
        10 => {
            line = rng
                .pick(&["size 2", "freerun_old 1 1", "quit", "ok", "take take", "empty 0"])
                .as_bytes()
                .to_vec()
        }
        _ => line.extend(b"00000000000"),
    }
    line
}

/// Runs the program (the words of its command stand on lines of their own) on an input.
fn run(command: &str, input: &[u8]) -> std::io::Result<Vec<u8>> {
    let file = std::env::temp_dir().join(format!("lines-{}", std::process::id()));
    std::fs::write(&file, input)?;
    let mut words = command.lines();
    let out = Command::new(words.next().unwrap_or(""))
        .args(words)
        .stdin(std::fs::File::open(&file)?)
        .stderr(Stdio::inherit())
        .output()?;
    std::fs::remove_file(&file)?;
    if out.status.success() {
        Ok(out.stdout)
    } else {
        Err(std::io::Error::other(out.status.to_string()))
    }
}
