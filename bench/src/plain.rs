//! Plain Rust loops for what the crate has not, the check and the image: a stand-in to hold ours against. Like ours they refuse a map
//! that is not true and an image with a wrong count, before a word or byte is written.
use crate::calls::{positions, words};

/// The part of a map's words that child i is.
fn child(map: &[u16], i: usize) -> &[u16] {
    let size = map.len() / 16;
    &map[1 + i * size..1 + (i + 1) * size]
}

pub fn is_true(map: &[u16]) -> bool {
    map.len() == 1
        || (0..16).all(|i| {
            let below = child(map, i);
            (map[0] >> i & 1 == 1) == (below[0] != 0) && is_true(below)
        })
}

/// The levels of a map of this many words.
fn levels(count: usize) -> Option<usize> {
    (1..=7).find(|n| words(*n) == count)
}

/// Writes the words of a depth, in rising order, and answers where the bytes go on.
fn write_depth(map: &[u16], depth: usize, target: &mut [u8], mut at: usize) -> usize {
    if depth == 0 {
        target[at..at + 2].copy_from_slice(&map[0].to_le_bytes());
        return at + 2;
    }
    for i in 0..16 {
        at = write_depth(child(map, i), depth - 1, target, at);
    }
    at
}

pub fn write(map: &[u16], target: &mut [u8]) -> Option<usize> {
    let n = levels(map.len())?;
    if !is_true(map) || target.len() < length(n) {
        return None;
    }
    let mut at = 0;
    for depth in 0..n {
        target[at..at + 4].copy_from_slice(&(positions(depth) as u32).to_le_bytes());
        at = write_depth(map, depth, target, at + 4);
    }
    Some(at)
}

/// The bytes of an image of n levels.
pub fn length(n: usize) -> usize {
    4 * n + 2 * words(n)
}

fn word(bytes: &[u8], at: usize) -> u16 {
    u16::from_le_bytes([bytes[at], bytes[at + 1]])
}

/// Reads the words of a depth, and answers where the bytes go on.
fn read_depth(bytes: &[u8], mut at: usize, depth: usize, map: &mut [u16]) -> usize {
    if depth == 0 {
        map[0] = word(bytes, at);
        return at + 2;
    }
    let size = map.len() / 16;
    for below in map[1..].chunks_mut(size) {
        at = read_depth(bytes, at, depth - 1, below);
    }
    at
}

pub fn read(bytes: &[u8], target: &mut [u16]) -> Option<usize> {
    let n = (1..=7).find(|n| length(*n) == bytes.len())?;
    let mut at = 0;
    let mut above = 0;
    for depth in 0..n {
        let count = positions(depth) as usize;
        if u32::from_le_bytes(bytes[at..at + 4].try_into().ok()?) as usize != count {
            return None;
        }
        let here = at + 4;
        if depth > 0 {
            // word m is not 0 exactly where its bit of the depth above is set
            for m in 0..count {
                if (word(bytes, above + m / 16 * 2) >> (m % 16) & 1 == 1) != (word(bytes, here + 2 * m) != 0) {
                    return None;
                }
            }
        }
        above = here;
        at = here + 2 * count;
    }
    let map = target.get_mut(..words(n))?;
    at = 0;
    for depth in 0..n {
        at = read_depth(bytes, at + 4, depth, map);
    }
    Some(n)
}
