//! The line program as document 01 says it, with the command of request (vii), over the plain model.
use crate::model::{self, Said};

/// What the program prints for this input.
pub fn printed(input: &[u8]) -> Vec<u8> {
    let mut out = Vec::new();
    let input = &input[..input.len().min(65_536)];
    let mut lines: Vec<&[u8]> = input.split(|b| *b == b'\n').collect();
    // what stands after the last line end is a line only if there is something
    if lines.last() == Some(&&b""[..]) {
        lines.pop();
    }
    let mut map: Option<Vec<u16>> = None;
    for line in lines {
        let answer = match &mut map {
            None => match size(line) {
                Some(n) => {
                    map = Some(vec![0; model::words_of(n)]);
                    format!("map {}", model::positions(n))
                }
                None => return b"no 10\n".to_vec(),
            },
            Some(s) => answer(line, s),
        };
        out.extend(answer.as_bytes());
        out.push(b'\n');
    }
    out
}

/// The first line: `size` and one of the digits 1 to 4.
fn size(line: &[u8]) -> Option<usize> {
    match line {
        [b's', b'i', b'z', b'e', b' ', digit @ b'1'..=b'4'] => Some((digit - b'0') as usize),
        _ => None,
    }
}

fn answer(line: &[u8], s: &mut [u16]) -> String {
    let words: Vec<&[u8]> = line.split(|b| *b == b' ').collect();
    let mut numbers = Vec::new();
    for word in &words[1..] {
        match decimal(word) {
            Some(x) => numbers.push(x),
            None => return "no 10".to_string(),
        }
    }
    let at = |said: Said| said.map_or_else(|n| format!("no {n}"), |p| format!("at {p}"));
    let ok = |said: Said| said.map_or_else(|n| format!("no {n}"), |_| "ok".to_string());
    let yes = |said: Said| said.map_or_else(|n| format!("no {n}"), |v| if v == 1 { "yes" } else { "not" }.to_string());
    match (words[0], &numbers[..]) {
        (b"take", []) => at(model::alloc(s)),
        (b"run", [size, align]) => at(model::alloc_contiguous(s, *size, *align)),
        (b"runat", [base, size, align]) => at(model::alloc_contiguous_at(s, *base, *size, *align)),
        (b"free", [key]) => ok(model::dealloc(s, *key)),
        (b"freerun", [base, size]) => ok(model::dealloc_contiguous(s, *base, *size)),
        (b"freerunold", [base, size]) => ok(model::dealloc_contiguous_old(s, *base, *size)),
        (b"insert", [start, end]) => ok(model::insert(s, *start, *end)),
        (b"remove", [start, end]) => ok(model::remove(s, *start, *end)),
        (b"next", [key]) => at(model::next(s, *key)),
        (b"test", [key]) => yes(model::test(s, *key)),
        (b"empty", []) => yes(model::is_empty(s)),
        _ => "no 10".to_string(),
    }
}

/// A number of 1 to 10 decimal digits.
fn decimal(word: &[u8]) -> Option<u64> {
    if word.is_empty() || word.len() > 10 {
        return None;
    }
    let mut x = 0;
    for b in word {
        if !b.is_ascii_digit() {
            return None;
        }
        x = 10 * x + (b - b'0') as u64;
    }
    Some(x)
}

#[test]
fn the_paper_s_example() {
    let input = b"size 2\ninsert 0 16\nremove 2 8\ntake\ntake\ntake\nfree 1\nfree 1\n";
    assert_eq!(printed(input), b"map 256\nok\nok\nat 0\nat 1\nat 8\nok\nno 6\n");
}
