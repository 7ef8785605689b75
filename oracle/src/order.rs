//! Where the words of our order stand in the memory of the Rust crate's map. The compiler puts a map's own word before or after its
//! children, so it is found by a probe.
use crate::calls::words;

/// A position whose way down has another bit at each depth, so that the word that got each bit is the one at that depth.
pub fn probe(n: usize) -> u64 {
    (0..n).fold(0, |key, d| key * 16 + d as u64 + 1)
}

/// Where each word of our order (a map's own word, then its children) stands in the crate's memory.
#[derive(Clone)]
pub struct Order {
    place: Vec<u32>,
    same: bool,
}

impl Order {
    /// Finds the order from the words of a map of n levels, in memory, in which `probe` is the only free position.
    pub fn of(n: usize, probed: &[u16]) -> Order {
        assert_eq!(
            probed.len(),
            words(n),
            "the crate's map of {n} levels has other words than expected"
        );
        let mut own_first = Vec::new();
        let mut start = 0;
        for d in 0..n {
            let found = probed.iter().position(|w| *w == 2 << d).expect("the probe set no such bit");
            let inner = words(n - d - 1);
            own_first.push(found == start);
            assert!(
                found == start || found == start + 16 * inner,
                "the crate lays its words out in an order that is not known"
            );
            start += (found == start) as usize + (d + 1) * inner;
        }
        let mut place = Vec::new();
        fill(&mut place, &own_first, 0, n);
        let same = place.iter().enumerate().all(|(i, p)| i == *p as usize);
        Order { place, same }
    }

    pub fn describe(&self) -> &'static str {
        if self.same {
            "own word first, as ours"
        } else {
            "children first"
        }
    }

    /// The first word, in our order, in which the crate's memory and ours differ.
    pub fn difference(&self, theirs: &[u16], ours: &[u16]) -> Option<usize> {
        if self.same {
            if theirs == ours {
                None
            } else {
                (0..ours.len()).find(|i| theirs[*i] != ours[*i])
            }
        } else {
            let bad = self
                .place
                .iter()
                .zip(ours)
                .fold(0, |bad, (p, w)| bad | (theirs[*p as usize] ^ w));
            if bad == 0 {
                None
            } else {
                (0..ours.len()).find(|i| theirs[self.place[*i] as usize] != ours[*i])
            }
        }
    }

    pub fn word(&self, theirs: &[u16], i: usize) -> u16 {
        theirs[self.place[i] as usize]
    }

    /// Sets the crate's words to ours.
    pub fn set(&self, theirs: &mut [u16], ours: &[u16]) {
        if self.same {
            theirs.copy_from_slice(ours);
        } else {
            for (p, w) in self.place.iter().zip(ours) {
                theirs[*p as usize] = *w;
            }
        }
    }
}

fn fill(place: &mut Vec<u32>, own_first: &[bool], start: usize, n: usize) {
    let inner = words(n - 1);
    let first = own_first[0];
    place.push(if first { start } else { start + 16 * inner } as u32);
    if n > 1 {
        for i in 0..16 {
            fill(place, &own_first[1..], start + first as usize + i * inner, n - 1);
        }
    }
}
