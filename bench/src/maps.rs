//! The maps that the lines run on, made by a small generator of numbers with a fixed seed.
use crate::calls::positions;

/// Numbers that look random: xorshift, the same on every machine.
pub struct Rng(u64);

impl Rng {
    pub fn new(n: usize) -> Rng {
        Rng(0x9e37_79b9_7f4a_7c15 ^ (n as u64) << 7)
    }

    pub fn any(&mut self) -> u64 {
        self.0 ^= self.0 << 13;
        self.0 ^= self.0 >> 7;
        self.0 ^= self.0 << 17;
        self.0.wrapping_mul(0x2545_f491_4f6c_dd1d) >> 16
    }

    /// A number from a to b.
    pub fn within(&mut self, a: usize, b: usize) -> usize {
        a + (self.any() % (b - a + 1) as u64) as usize
    }
}

/// A set of free positions, as the leaf words of its map.
pub struct Leaves(Vec<u16>);

impl Leaves {
    pub fn taken(n: usize) -> Leaves {
        Leaves(vec![0; positions(n - 1) as usize])
    }

    pub fn free(n: usize) -> Leaves {
        Leaves(vec![0xffff; positions(n - 1) as usize])
    }

    /// Each position is free or not with the same chance.
    pub fn half(n: usize) -> Leaves {
        let mut rng = Rng::new(n);
        Leaves((0..positions(n - 1)).map(|_| rng.any() as u16).collect())
    }

    /// About one position in 200 is free.
    pub fn nearly_taken(n: usize) -> Leaves {
        let (mut rng, mut leaves) = (Rng::new(n), Leaves::taken(n));
        let mut at = rng.within(0, 399);
        while at < leaves.cap() {
            leaves.set(at, at + 1, true);
            at += rng.within(1, 399);
        }
        leaves
    }

    /// Free stretches of 1 to 40 and taken ones of 1 to 12, at random; one free stretch of 80 where five eighths are passed, and behind
    /// it one of 1,016. Both start 5 before a multiple of 64.
    pub fn fragmented(n: usize) -> Leaves {
        let (mut rng, mut leaves) = (Rng::new(n), Leaves::taken(n));
        let cap = leaves.cap();
        let mut at = 0;
        while at < cap {
            let end = (at + rng.within(1, 40)).min(cap);
            leaves.set(at, end, true);
            at = end + rng.within(1, 12);
        }
        for (start, size) in [(cap / 8 * 5, 80), (cap / 3 * 2, 1016)] {
            let start = start / 64 * 64 - 5;
            leaves.set(start - 1, start + size + 1, false);
            leaves.set(start, start + size, true);
        }
        leaves
    }

    pub fn cap(&self) -> usize {
        16 * self.0.len()
    }

    pub fn set(&mut self, from: usize, to: usize, free: bool) {
        for p in from..to {
            let bit = 1 << (p % 16);
            let w = &mut self.0[p / 16];
            *w = if free { *w | bit } else { *w & !bit };
        }
    }

    pub fn is_free(&self, p: usize) -> bool {
        self.0[p / 16] >> (p % 16) & 1 == 1
    }

    /// The lowest free position from p on.
    pub fn next(&self, p: usize) -> Option<usize> {
        (p..self.cap()).find(|p| self.is_free(*p))
    }

    /// The words of the map, a map's own word first.
    pub fn words(&self) -> Vec<u16> {
        let mut words = Vec::new();
        put(&mut words, &self.0);
        words
    }
}

fn put(words: &mut Vec<u16>, leaves: &[u16]) {
    if let [leaf] = leaves {
        words.push(*leaf);
        return;
    }
    let own = words.len();
    words.push(0);
    for (i, part) in leaves.chunks(leaves.len() / 16).enumerate() {
        let child = words.len();
        put(words, part);
        words[own] |= ((words[child] != 0) as u16) << i;
    }
}
