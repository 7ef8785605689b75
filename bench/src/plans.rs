//! What each line runs on: the words of a map, and the numbers of each call of a turn. The calls of a turn stand apart, so that none
//! changes what another one meets.
use crate::maps::{Leaves, Rng};

pub struct Plan {
    pub words: Vec<u16>,
    pub args: Vec<[usize; 3]>,
}

fn plan(leaves: &Leaves, args: Vec<[usize; 3]>) -> Plan {
    Plan {
        words: leaves.words(),
        args,
    }
}

/// One take and give-back of the lowest free position.
fn lowest(leaves: Leaves) -> Plan {
    let key = leaves.next(0).expect("a free position");
    plan(&leaves, vec![[key, 0, 0]])
}

pub fn lowest_of_half(n: usize) -> Plan {
    lowest(Leaves::half(n))
}

pub fn lowest_of_few(n: usize) -> Plan {
    lowest(Leaves::nearly_taken(n))
}

pub fn the_only_one(n: usize) -> Plan {
    let mut leaves = Leaves::taken(n);
    let p = leaves.cap() / 6 * 5 + 7;
    leaves.set(p, p + 1, true);
    lowest(leaves)
}

/// Four takes, one after the other.
pub fn four_takes(n: usize) -> Plan {
    plan(&Leaves::half(n), vec![[0; 3]; 4])
}

pub fn take_of_all(n: usize) -> Plan {
    plan(&Leaves::free(n), vec![[0; 3]])
}

/// 16 keys of the half-full map, at random among those that fit.
fn keys(n: usize, fits: impl Fn(&Leaves, usize) -> bool) -> Plan {
    let leaves = Leaves::half(n);
    let mut rng = Rng::new(n);
    let mut args = Vec::new();
    while args.len() < 16 {
        let key = rng.within(0, leaves.cap() - 1);
        if fits(&leaves, key) {
            args.push([key, 0, 0]);
        }
    }
    plan(&leaves, args)
}

pub fn at_the_key(n: usize) -> Plan {
    keys(n, |leaves, key| leaves.is_free(key))
}

pub fn in_the_next_word(n: usize) -> Plan {
    keys(n, |leaves, key| leaves.next(key).is_some_and(|p| p / 16 == key / 16 + 1))
}

pub fn any_key(n: usize) -> Plan {
    keys(n, |_, _| true)
}

/// From the first position to the last, which alone is free.
pub fn far(n: usize) -> Plan {
    let mut leaves = Leaves::taken(n);
    leaves.set(leaves.cap() - 1, leaves.cap(), true);
    plan(&leaves, vec![[0; 3]])
}

/// 16 bases, one in each child of the map's own word, each 10 positions below a word border.
fn bases(n: usize) -> Vec<usize> {
    let mut rng = Rng::new(n);
    let block = crate::calls::positions(n - 1) as usize;
    (0..16).map(|i| i * block + 16 * rng.within(1, block / 16 - 5) - 10).collect()
}

pub fn ranges_of_20(n: usize) -> Plan {
    plan(&Leaves::half(n), bases(n).into_iter().map(|a| [a, a + 20, 0]).collect())
}

/// Half the map, across borders at both of its ends.
fn middle(leaves: &Leaves) -> [usize; 2] {
    let start = leaves.cap() / 4 + 5;
    [start, start + leaves.cap() / 2]
}

pub fn range_of_half(n: usize) -> Plan {
    let leaves = Leaves::half(n);
    let [a, b] = middle(&leaves);
    plan(&leaves, vec![[a, b, 0]])
}

pub fn run_of_1(n: usize) -> Plan {
    plan(&Leaves::free(n), vec![[1, 0, 0]])
}

/// The first run of 64 of an all-free map; of 8 at one level, whose map has 16 positions.
pub fn first_run(n: usize) -> Plan {
    plan(&Leaves::free(n), vec![[if n == 1 { 8 } else { 64 }, 0, 0]])
}

fn run(n: usize, size: usize, align_log2: usize) -> Plan {
    plan(&Leaves::fragmented(n), vec![[size, align_log2, 0]])
}

pub fn run_of_64(n: usize) -> Plan {
    run(n, 64, 0)
}

pub fn run_of_64_by_16(n: usize) -> Plan {
    run(n, 64, 4)
}

pub fn run_of_1000(n: usize) -> Plan {
    run(n, 1000, 0)
}

pub fn run_of_1000_by_64(n: usize) -> Plan {
    run(n, 1000, 6)
}

pub fn runs_at(n: usize) -> Plan {
    plan(&Leaves::free(n), bases(n).into_iter().map(|a| [a, 64, 0]).collect())
}

pub fn runs_to_give(n: usize) -> Plan {
    let mut leaves = Leaves::half(n);
    let bases = bases(n);
    for a in &bases {
        leaves.set(*a, a + 64, false);
    }
    plan(&leaves, bases.into_iter().map(|a| [a, 64, 0]).collect())
}

pub fn half_to_give(n: usize) -> Plan {
    let mut leaves = Leaves::half(n);
    let [a, b] = middle(&leaves);
    leaves.set(a, b, false);
    plan(&leaves, vec![[a, b - a, 0]])
}

/// The same runs as ranges, which insert takes.
fn ranges(runs: Plan) -> Plan {
    let args = runs.args.into_iter().map(|[base, size, _]| [base, base + size, 0]).collect();
    Plan { args, ..runs }
}

pub fn runs_to_insert(n: usize) -> Plan {
    ranges(runs_to_give(n))
}

pub fn half_to_insert(n: usize) -> Plan {
    ranges(half_to_give(n))
}

pub fn whole(n: usize) -> Plan {
    plan(&Leaves::half(n), vec![])
}
