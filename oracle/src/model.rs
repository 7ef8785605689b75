//! The map and the image as document 01 says them, the single give-back as request (iii) amends it, and the run give-back that is all or
//! nothing as request (vii) says it, written from these alone: the words are a list, each rule is a loop over positions, levels or
//! words, and nothing is clever. It is the judge of what the Rust crate has not (that run give-back, wrong word counts, the check, the
//! image) and of a single give-back on an untrue map, and can stand in the place of our side (`compare --model`), so that it is itself
//! held against the crate.

/// A value, or the number of a refusal.
pub type Said = Result<u64, u64>;

/// 16^n.
pub fn positions(n: usize) -> u64 {
    1 << (4 * n)
}

/// The words of a map of n levels.
pub fn words_of(n: usize) -> usize {
    let mut words = 0;
    for _ in 0..n {
        words = 1 + 16 * words;
    }
    words
}

/// The levels of a map of so many words.
fn levels(words: usize) -> Said {
    for n in 1..=7 {
        if words == words_of(n) {
            return Ok(n as u64);
        }
    }
    Err(1)
}

/// Where the word at depth d stands that position p lies under; depth 0 is the first word, depth n - 1 the leaf words.
fn place(n: usize, d: usize, p: u64) -> usize {
    let mut at = 0;
    for above in 0..d {
        let child = p % positions(n - above) / positions(n - above - 1);
        at = at + 1 + child as usize * words_of(n - above - 1);
    }
    at
}

/// Position p's bit in that word.
fn digit(n: usize, d: usize, p: u64) -> u64 {
    p % positions(n - d) / positions(n - d - 1)
}

fn get(s: &[u16], n: usize, d: usize, p: u64) -> bool {
    s[place(n, d, p)] >> digit(n, d, p) & 1 == 1
}

fn put(s: &mut [u16], n: usize, d: usize, p: u64, bit: bool) {
    let at = place(n, d, p);
    let mask = 1 << digit(n, d, p);
    if bit {
        s[at] |= mask;
    } else {
        s[at] &= !mask;
    }
}

fn leaf(s: &[u16], n: usize, p: u64) -> bool {
    get(s, n, n - 1, p)
}

/// p is in F: the leaf bit is set and so is each summary bit above it.
fn free(s: &[u16], n: usize, p: u64) -> bool {
    for d in 0..n {
        if !get(s, n, d, p) {
            return false;
        }
    }
    true
}

/// Recomputes position p's bit in the word at depth d from the child's word.
fn recompute(s: &mut [u16], n: usize, d: usize, p: u64) {
    let some = s[place(n, d + 1, p)] != 0;
    put(s, n, d, p, some);
}

/// Makes the positions free, or taken, and recomputes the summary bit of each child visited, lowest level first.
fn change(s: &mut [u16], n: usize, start: u64, end: u64, bit: bool) {
    for p in start..end {
        put(s, n, n - 1, p, bit);
    }
    for d in (0..n - 1).rev() {
        for p in start..end {
            recompute(s, n, d, p);
        }
    }
}

pub fn alloc(s: &mut [u16]) -> Said {
    let n = levels(s.len())? as usize;
    if s[0] == 0 {
        return Err(5);
    }
    let mut p = 0;
    for d in 0..n {
        let word = s[place(n, d, p)];
        if word == 0 {
            return Err(7);
        }
        let mut lowest = 0;
        while word >> lowest & 1 == 0 {
            lowest += 1;
        }
        p += lowest * positions(n - d - 1);
    }
    change(s, n, p, p + 1, false);
    Ok(p)
}

/// 2^align_log2 is no alignment of a map of n levels.
fn misfit(n: usize, align: u64) -> bool {
    align >= 64 || 1 << align > positions(n)
}

/// The positions of the run are all in F.
fn all_free(s: &[u16], n: usize, base: u64, size: u64) -> bool {
    for p in base..base + size {
        if !free(s, n, p) {
            return false;
        }
    }
    true
}

pub fn alloc_contiguous(s: &mut [u16], size: u64, align: u64) -> Said {
    let n = levels(s.len())? as usize;
    if misfit(n, align) {
        return Err(4);
    }
    if size == 0 {
        return Err(3);
    }
    for base in 0..positions(n) {
        if base % (1 << align) == 0 && size <= positions(n) - base && all_free(s, n, base, size) {
            change(s, n, base, base + size, false);
            return Ok(base);
        }
    }
    Err(5)
}

pub fn alloc_contiguous_at(s: &mut [u16], base: u64, size: u64, align: u64) -> Said {
    let n = levels(s.len())? as usize;
    if misfit(n, align) || base % (1 << align) != 0 {
        return Err(4);
    }
    if size == 0 {
        return Err(3);
    }
    if base as u128 + size as u128 > positions(n) as u128 {
        return Err(2);
    }
    if !all_free(s, n, base, size) {
        return Err(5);
    }
    change(s, n, base, base + size, false);
    Ok(base)
}

pub fn next(s: &[u16], key: u64) -> Said {
    let n = levels(s.len())? as usize;
    for p in key..positions(n) {
        if free(s, n, p) {
            return Ok(p);
        }
    }
    Err(5)
}

pub fn dealloc(s: &mut [u16], key: u64) -> Said {
    let n = levels(s.len())? as usize;
    if key >= positions(n) {
        return Err(2);
    }
    if leaf(s, n, key) {
        return Err(6);
    }
    for d in (0..n).rev() {
        let was_empty = s[place(n, d, key)] == 0;
        put(s, n, d, key, true);
        // the word went neither from empty to not empty nor back, so nothing above it changes
        if !was_empty {
            break;
        }
    }
    Ok(0)
}

/// The levels of a map that has the run's positions.
fn levels_of_run(s: &[u16], base: u64, size: u64) -> Said {
    let n = levels(s.len())?;
    if base as u128 + size as u128 > positions(n as usize) as u128 {
        return Err(2);
    }
    if size == 0 {
        return Err(3);
    }
    Ok(n)
}

/// All or nothing.
pub fn dealloc_contiguous(s: &mut [u16], base: u64, size: u64) -> Said {
    let n = levels_of_run(s, base, size)? as usize;
    for p in base..base + size {
        if leaf(s, n, p) {
            return Err(6);
        }
    }
    change(s, n, base, base + size, true);
    Ok(0)
}

/// As the crate does it.
pub fn dealloc_contiguous_old(s: &mut [u16], base: u64, size: u64) -> Said {
    let n = levels_of_run(s, base, size)? as usize;
    let end = base + size;
    // the leaf words of the run in rising order, up to the first with a part of which some is free already
    let mut stays = None;
    let mut p = base;
    while p < end {
        let stop = end.min(p / 16 * 16 + 16);
        if (p..stop).any(|q| leaf(s, n, q)) {
            stays = Some(p);
            break;
        }
        for q in p..stop {
            put(s, n, n - 1, q, true);
        }
        p = stop;
    }
    // the summary bits of the run, in each word that the loop came to: one whose part of the run starts after that leaf word is passed over
    for d in (0..n - 1).rev() {
        for p in base..end {
            let first = base.max(p - p % positions(n - d));
            if stays.is_none_or(|stays| first <= stays) {
                recompute(s, n, d, p);
            }
        }
    }
    match stays {
        None => Ok(0),
        Some(_) => Err(6),
    }
}

fn range(s: &mut [u16], start: u64, end: u64, bit: bool) -> Said {
    let n = levels(s.len())? as usize;
    if start > end || end > positions(n) {
        return Err(2);
    }
    if start == end {
        return Err(3);
    }
    change(s, n, start, end, bit);
    Ok(0)
}

pub fn insert(s: &mut [u16], start: u64, end: u64) -> Said {
    range(s, start, end, true)
}

pub fn remove(s: &mut [u16], start: u64, end: u64) -> Said {
    range(s, start, end, false)
}

pub fn is_empty(s: &[u16]) -> Said {
    levels(s.len())?;
    Ok((s[0] == 0) as u64)
}

pub fn test(s: &[u16], key: u64) -> Said {
    let n = levels(s.len())? as usize;
    if key >= positions(n) {
        return Err(2);
    }
    Ok(leaf(s, n, key) as u64)
}

/// Each summary bit is set exactly when the child's own word is not 0.
fn is_true(s: &[u16], n: usize) -> bool {
    for d in 0..n - 1 {
        let step = positions(n - d - 1);
        for child in 0..positions(n) / step {
            let p = child * step;
            if get(s, n, d, p) != (s[place(n, d + 1, p)] != 0) {
                return false;
            }
        }
    }
    true
}

pub fn check(s: &[u16]) -> Said {
    let n = levels(s.len())? as usize;
    Ok(is_true(s, n) as u64)
}

/// The bytes of the image: a section for each level, each its word count and then its words.
fn image(s: &[u16], n: usize) -> Vec<u8> {
    let mut bytes = Vec::new();
    for d in 0..n {
        let count = positions(d);
        bytes.extend((count as u32).to_le_bytes());
        for j in 0..count {
            bytes.extend(s[place(n, d, j * positions(n - d))].to_le_bytes());
        }
    }
    bytes
}

pub fn image_write(s: &[u16], target: &mut [u8]) -> Said {
    let n = levels(s.len())? as usize;
    if !is_true(s, n) {
        return Err(7);
    }
    let bytes = image(s, n);
    if target.len() < bytes.len() {
        return Err(9);
    }
    for (i, b) in bytes.iter().enumerate() {
        target[i] = *b;
    }
    Ok(bytes.len() as u64)
}

pub fn image_read(bytes: &[u8], target: &mut [u16]) -> Said {
    // the sections' places: none fits unless the bytes end where a section ends
    let mut n = 0;
    let mut end = 0;
    while end < bytes.len() && n < 7 {
        end += 4 + 2 * positions(n) as usize;
        n += 1;
    }
    if n == 0 || end != bytes.len() {
        return Err(8);
    }
    let mut s = vec![0; words_of(n)];
    let mut at = 0;
    for d in 0..n {
        let count = u32::from_le_bytes([bytes[at], bytes[at + 1], bytes[at + 2], bytes[at + 3]]);
        if count as u64 != positions(d) {
            return Err(8);
        }
        at += 4;
        for j in 0..positions(d) {
            s[place(n, d, j * positions(n - d))] = u16::from_le_bytes([bytes[at], bytes[at + 1]]);
            at += 2;
        }
    }
    if target.len() < s.len() {
        return Err(9);
    }
    if !is_true(&s, n) {
        return Err(7);
    }
    for (i, w) in s.iter().enumerate() {
        target[i] = *w;
    }
    Ok(n as u64)
}
