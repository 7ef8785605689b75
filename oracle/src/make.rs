//! Random maps, numbers and calls.
use crate::calls::*;
use crate::paper::*;

/// A small generator of random numbers (splitmix64): the same seed gives the same run everywhere.
#[derive(Clone)]
pub struct Rng(u64);

impl Rng {
    pub fn new(seed: u64, part: u64) -> Rng {
        let mut r = Rng(seed ^ part.wrapping_mul(0xd1b54a32d192ed03));
        r.any();
        r
    }

    pub fn any(&mut self) -> u64 {
        self.0 = self.0.wrapping_add(0x9e3779b97f4a7c15);
        let z = (self.0 ^ self.0 >> 30).wrapping_mul(0xbf58476d1ce4e5b9);
        let z = (z ^ z >> 27).wrapping_mul(0x94d049bb133111eb);
        z ^ z >> 31
    }

    /// One of 0 .. n - 1.
    pub fn below(&mut self, n: u64) -> u64 {
        (self.any() as u128 * n as u128 >> 64) as u64
    }

    /// One of a .. b, both included.
    pub fn within(&mut self, a: u64, b: u64) -> u64 {
        a + self.below(b - a + 1)
    }

    /// True once in n.
    pub fn once_in(&mut self, n: u64) -> bool {
        self.below(n) == 0
    }

    pub fn pick<T: Copy>(&mut self, of: &[T]) -> T {
        of[self.below(of.len() as u64) as usize]
    }
}

/// The words of the true map with these leaf words.
pub fn from_leaves(n: usize, leaves: &[u16]) -> Vec<u16> {
    let mut s = Vec::with_capacity(words(n));
    own_and_children(n, leaves, &mut s);
    s
}

fn own_and_children(n: usize, leaves: &[u16], s: &mut Vec<u16>) {
    if n == 1 {
        s.push(leaves[0]);
        return;
    }
    let at = s.len();
    s.push(0);
    for (i, part) in leaves.chunks(leaves.len() / 16).enumerate() {
        let child = s.len();
        own_and_children(n - 1, part, s);
        if s[child] != 0 {
            s[at] |= 1 << i;
        }
    }
}

/// The leaf words of a map, in rising order.
pub fn to_leaves(n: usize, s: &[u16]) -> Vec<u16> {
    if n == 1 {
        return vec![s[0]];
    }
    s[1..]
        .chunks(words(n - 1))
        .flat_map(|child| to_leaves(n - 1, child))
        .collect()
}

/// The kinds of maps that lists start from.
#[derive(Clone, Copy, PartialEq, Eq, Debug)]
pub enum Kind {
    Taken,
    Free,
    OneFree,
    OneTaken,
    FewFree,
    FewTaken,
    /// a stretch of at most 4,096 positions is random, the others are taken
    Stretch,
    /// the same, the others free
    Hole,
    /// whole words and whole children, free or taken
    Blocks,
    /// stretches of free and of taken positions, with lengths around 16, 256 and 4,096
    Runs,
    /// each leaf word at random, dense or thin
    Noise,
}

use Kind::*;

pub const KINDS: [Kind; 11] = [
    Taken, Free, OneFree, OneTaken, FewFree, FewTaken, Stretch, Hole, Blocks, Runs, Noise,
];

/// Maps with few free positions. The crate looks a run up position by position, so a refused run on a large map that is mostly free
/// takes it tens of milliseconds.
pub const THIN: [Kind; 5] = [Taken, OneFree, FewFree, Stretch, Taken];

pub fn map(n: usize, kind: Kind, rng: &mut Rng) -> Vec<u16> {
    let cap = positions(n);
    let count = (cap / 16) as usize;
    let flip = |leaves: &mut [u16], p: u64| leaves[p as usize / 16] ^= 1 << (p % 16);
    let full = matches!(kind, Free | OneTaken | FewTaken | Hole);
    let mut leaves = vec![if full { 0xffff } else { 0 }; count];
    match kind {
        Taken | Free => {}
        OneFree | OneTaken => flip(&mut leaves, position(n, rng).min(cap - 1)),
        FewFree | FewTaken => {
            for _ in 0..rng.within(1, 40) {
                flip(&mut leaves, position(n, rng).min(cap - 1));
            }
        }
        Stretch | Hole => {
            let length = rng.within(1, 256.min(count as u64)) as usize;
            let start = rng.below((count - length) as u64 + 1) as usize;
            let noise = rng.below(5);
            leaves[start..start + length].iter_mut().for_each(|w| *w = word(noise, rng));
        }
        Blocks => {
            let block = (1u64 << (4 * rng.below(n as u64))) as usize;
            for part in leaves.chunks_mut(block) {
                part.fill(if rng.once_in(2) { 0xffff } else { 0 });
            }
        }
        Runs => {
            let mut p = 0;
            let mut free = rng.once_in(2);
            while p < cap {
                let end = (p + size(n, rng).clamp(1, cap)).min(cap);
                if free {
                    (p..end).for_each(|p| flip(&mut leaves, p));
                }
                free = !free;
                p = end;
            }
        }
        Noise => {
            let noise = rng.below(5);
            leaves.iter_mut().for_each(|w| *w = word(noise, rng));
        }
    }
    from_leaves(n, &leaves)
}

/// A random word: evenly, thin, dense, mostly 0, mostly full.
pub fn word(noise: u64, rng: &mut Rng) -> u16 {
    let (a, b, c) = (rng.any() as u16, rng.any() as u16, rng.any() as u16);
    match noise {
        0 => a,
        1 => a & b & c,
        2 => a | b | c,
        3 => {
            if b % 8 == 0 {
                a
            } else {
                0
            }
        }
        _ => {
            if b % 8 == 0 {
                a
            } else {
                0xffff
            }
        }
    }
}

/// A position, most often beside a multiple of 16, 256, 4,096 and so on, sometimes one past the end or further.
pub fn position(n: usize, rng: &mut Rng) -> u64 {
    let cap = positions(n);
    let step = 16u64 << (4 * rng.below(n as u64));
    match rng.below(16) {
        0..8 => (rng.below(cap / step + 1) * step + rng.below(3)).saturating_sub(1),
        8..14 => rng.below(cap),
        14 => rng.within(cap - 2, cap + 2),
        _ => rng.pick(&[0, 1, 15, 16, 17, cap - 1]),
    }
}

/// A position of the map.
pub fn inside(n: usize, rng: &mut Rng) -> u64 {
    position(n, rng).min(positions(n) - 1)
}

/// A key of any kind, up to the largest numbers.
pub fn key(n: usize, rng: &mut Rng) -> u64 {
    if rng.once_in(12) {
        past(n, rng)
    } else {
        position(n, rng)
    }
}

/// A number that is past the end.
pub fn past(n: usize, rng: &mut Rng) -> u64 {
    let cap = positions(n);
    rng.pick(&[
        cap,
        cap + 1,
        cap + 15,
        cap + 16,
        cap * 2,
        cap * 16,
        1 << 32,
        (1 << 63) - 1,
        1 << 63,
        (1 << 63) + 1,
        u64::MAX - 15,
        u64::MAX - 1,
        u64::MAX,
    ])
}

/// A size from 1 up, most often small or beside a power of 16.
pub fn size(n: usize, rng: &mut Rng) -> u64 {
    let cap = positions(n);
    match rng.below(32) {
        0..14 => rng.within(1, 5),
        14..22 => rng.within(1, 40),
        22..29 => {
            let step = 16u64 << (4 * rng.below((n as u64).min(3)));
            (rng.within(1, 3) * step + rng.below(3)).saturating_sub(1).max(1)
        }
        29 => cap >> rng.below(4 * n as u64),
        30 => rng.within(cap - 1, cap + 1),
        _ => rng.within(1, cap.min(5000)),
    }
}

/// An alignment: one that fits, mostly.
pub fn align(n: usize, rng: &mut Rng) -> u64 {
    match rng.below(16) {
        0..10 => rng.below(5),
        10..14 => rng.below(4 * n as u64 + 2),
        14 => rng.within(0, 66),
        _ => rng.pick(&[62, 63, 64, 65, 1 << 32, 1 << 63, u64::MAX - 1, u64::MAX]),
    }
}

/// One of the calls with numbers of any kind.
pub fn any_call(calls: &[Call], n: usize, rng: &mut Rng) -> Op {
    let call = rng.pick(calls);
    call_of(call, n, rng)
}

pub fn call_of(call: Call, n: usize, rng: &mut Rng) -> Op {
    let any_size = |rng: &mut Rng| match rng.below(24) {
        0 => 0,
        1 => past(n, rng),
        _ => size(n, rng),
    };
    match call {
        Alloc | IsEmpty => op(call, &[]),
        Next | Dealloc | Test => op(call, &[key(n, rng)]),
        Run => op(call, &[any_size(rng), align(n, rng)]),
        RunAt => {
            let (b, s, a) = (key(n, rng), any_size(rng), align(n, rng));
            op(call, &[if rng.once_in(4) { b } else { down(b, a) }, s, a])
        }
        DeallocRunOld | DeallocRun => op(call, &[key(n, rng), any_size(rng)]),
        Insert | Remove => {
            let (a, s) = (key(n, rng), any_size(rng));
            let b = if rng.once_in(16) { key(n, rng) } else { a.saturating_add(s) };
            op(call, &[a, if rng.once_in(3) { b } else { b.min(positions(n)) }])
        }
    }
}

/// The largest multiple of 2^align up to b.
fn down(b: u64, align: u64) -> u64 {
    if align < 64 {
        b >> align << align
    } else {
        b
    }
}

/// A run inside the map: a start and an end.
fn span(n: usize, rng: &mut Rng) -> (u64, u64) {
    let a = inside(n, rng);
    (a, (a + size(n, rng)).min(positions(n)))
}

/// Calls of which the last has an answer of that class, whatever the true map is before them.
pub fn aimed(call: Call, class: Class, n: usize, rng: &mut Rng) -> Vec<Op> {
    let cap = positions(n);
    let (a, b) = span(n, rng);
    let fit = rng.below(4 * n as u64 + 1);
    let thin = |rng: &mut Rng| {
        // few free positions, in words far from each other
        let mut ops = vec![op(Remove, &[0, cap])];
        for _ in 0..rng.below(4) {
            let p = inside(n, rng);
            ops.push(op(Insert, &[p, p + 1]));
        }
        ops
    };
    match (call, class) {
        (Alloc, Done) => vec![op(Insert, &[a, b]), op(Alloc, &[])],
        (Alloc, _) => vec![op(Remove, &[0, cap]), op(Alloc, &[])],
        (Run, Done) => {
            let base = down(a, fit);
            let size = rng.within(1, 40).min(cap - base);
            vec![op(Insert, &[base, base + size]), op(Run, &[size, fit])]
        }
        (Run, Align64) => vec![op(Run, &[size(n, rng), rng.pick(&[64, 65, 1 << 63, u64::MAX])])],
        (Run, AlignOver) => vec![op(
            Run,
            &[size(n, rng), rng.pick(&[4 * n as u64 + 1, 4 * n as u64 + 2, 62, 63])],
        )],
        (Run, NoSize) => [thin(rng), vec![op(Run, &[0, fit])]].concat(),
        (Run, SizeOver) => [
            thin(rng),
            vec![op(Run, &[rng.pick(&[cap + 1, cap + 2, cap * 2, 1 << 63, u64::MAX]), fit])],
        ]
        .concat(),
        (Run, NoneFree) => vec![op(Remove, &[0, cap]), op(Run, &[rng.within(1, cap), fit])],
        (Run, _) => {
            // pieces with less than what is asked for
            let size = rng.within(2, 40).min(cap);
            let mut ops = vec![op(Remove, &[0, cap])];
            for i in 0..rng.within(1, 4) {
                let p = i * (cap / 4) + rng.below(cap / 4 - size.min(cap / 4) + 1);
                ops.push(op(Insert, &[p, p + (size - 1).min(cap / 4 - 1).max(1)]));
            }
            ops.push(op(Run, &[if n == 1 { size.max(8) } else { size }, fit]));
            ops
        }
        (RunAt, Done) => {
            let base = down(a, fit);
            let size = size(n, rng).min(cap - base);
            vec![op(Insert, &[base, base + size]), op(RunAt, &[base, size, fit])]
        }
        (RunAt, Align64) => vec![op(RunAt, &[a, b - a, rng.pick(&[64, 65, 1 << 63, u64::MAX])])],
        (RunAt, AlignOver) => vec![op(
            RunAt,
            &[
                rng.pick(&[0, a]),
                b - a,
                rng.pick(&[4 * n as u64 + 1, 4 * n as u64 + 2, 62, 63]),
            ],
        )],
        (RunAt, NoMultiple) => {
            let fit = rng.within(1, 4 * n as u64);
            vec![op(RunAt, &[down(a, fit) + rng.within(1, (1 << fit) - 1), b - a, fit])]
        }
        (RunAt, NoSize) => vec![op(RunAt, &[down(rng.pick(&[a, b, cap]), fit), 0, fit])],
        (RunAt, PastEnd) => {
            let base = down(a, fit);
            vec![
                op(Insert, &[base, cap]),
                op(RunAt, &[base, cap - base + rng.pick(&[1, 2, 15, 16, cap]), fit]),
            ]
        }
        (RunAt, SumOver) => {
            let base = down(rng.pick(&[a.max(1), u64::MAX, 1 << 63]), fit);
            vec![op(
                RunAt,
                &[base.max(1 << fit), u64::MAX - rng.below(base.max(1 << fit)), fit],
            )]
        }
        (RunAt, _) => {
            let base = down(a, fit);
            let size = size(n, rng).min(cap - base);
            let p = base + rng.below(size);
            vec![
                op(Insert, &[base, base + size]),
                op(Remove, &[p, p + 1]),
                op(RunAt, &[base, size, fit]),
            ]
        }
        (Next, Done) => vec![op(Insert, &[b - 1, b]), op(Next, &[a])],
        (Next, NoFit) => vec![op(Remove, &[a, cap]), op(Next, &[rng.within(a, cap - 1)])],
        (Next, _) => vec![op(Next, &[past(n, rng)])],
        (Dealloc, Done) => vec![op(Remove, &[a, a + 1]), op(Dealloc, &[a])],
        (Dealloc, FreeAlready) => vec![op(Insert, &[a, b]), op(Dealloc, &[rng.within(a, b - 1)])],
        (Dealloc, _) => vec![op(Dealloc, &[past(n, rng)])],
        (DeallocRunOld | DeallocRun, Done) => vec![op(Remove, &[a, b]), op(call, &[a, b - a])],
        (DeallocRunOld | DeallocRun, FreeAlready) => {
            let p = rng.within(a, (a / 16 * 16 + 15).min(b - 1));
            vec![op(Insert, &[p, p + 1]), op(call, &[a, b - a])]
        }
        (DeallocRunOld | DeallocRun, EarlierFreed | EarlierKept) => {
            // the words before a border are taken, and a position after it is free
            let step = 16u64 << (4 * rng.below(n as u64 - 1));
            let border = rng.within(1, cap / step - 1) * step;
            let back = rng.pick(&[16, 40, step, 2 * step]).min(border);
            let base = border - rng.within(1, back);
            let on = rng.pick(&[15, 40, step]).min(cap - 1 - border);
            let p = border + rng.within(0, on);
            let end = (p + size(n, rng)).min(cap);
            let before = if rng.once_in(2) { border } else { p };
            vec![
                op(Remove, &[base, before]),
                op(Insert, &[p, p + 1]),
                op(call, &[base, end - base]),
            ]
        }
        (DeallocRunOld | DeallocRun, PastEnd) => vec![
            op(Remove, &[a, b]),
            op(call, &[a, rng.pick(&[cap - a + 1, cap - a + 16, cap + 1, 1 << 63])]),
        ],
        (DeallocRunOld | DeallocRun, SumOver) => {
            let base = a.max(1);
            vec![op(call, &[base, u64::MAX - rng.below(base)])]
        }
        (DeallocRunOld | DeallocRun, _) => vec![op(call, &[rng.pick(&[a, b, a / 16 * 16, 0, cap]), 0])],
        (Insert | Remove, Done) => vec![op(call, &[a, b])],
        (Insert | Remove, Reversed) => vec![op(call, &[if rng.once_in(8) { past(n, rng) } else { b }, a])],
        (Insert | Remove, PastEnd) => vec![op(call, &[a, past(n, rng).max(cap + 1)])],
        (Insert | Remove, _) => {
            let p = rng.pick(&[a, b, a / 16 * 16, 0, cap]);
            vec![op(call, &[p, p])]
        }
        (IsEmpty, Yes) => vec![op(Remove, &[0, cap]), op(IsEmpty, &[])],
        (IsEmpty, _) => vec![op(Insert, &[a, b]), op(IsEmpty, &[])],
        (Test, Yes) => vec![op(Insert, &[a, b]), op(Test, &[rng.within(a, b - 1)])],
        (Test, Not) => vec![op(Remove, &[a, b]), op(Test, &[rng.within(a, b - 1)])],
        (Test, _) => vec![op(Test, &[past(n, rng)])],
    }
}

/// Whether the calls of `aimed` make the whole map taken.
pub fn empties(call: Call, class: Class) -> bool {
    matches!(
        (call, class),
        (Alloc | Run, NoneFree) | (Run, NoSize | SizeOver | NoFit) | (IsEmpty, Yes)
    )
}

/// A map whose summary bits need not be right: a true one with some words or bits changed, or words at random.
pub fn untrue(n: usize, rng: &mut Rng) -> Vec<u16> {
    let kind = rng.pick(&KINDS);
    let mut s = map(n, kind, rng);
    let count = s.len() as u64;
    match rng.below(4) {
        0 => {
            let noise = rng.below(5);
            s.iter_mut().for_each(|w| *w = word(noise, rng));
        }
        1 => {
            for _ in 0..rng.within(1, 4) {
                s[rng.below(count) as usize] ^= 1 << rng.below(16);
            }
        }
        2 => {
            for _ in 0..rng.within(1, 1 + count / 8) {
                s[rng.below(count) as usize] = rng.pick(&[0, 1, 0x8000, 0xffff]);
            }
        }
        _ => {
            // the first words only, which lead down to nothing
            s.fill(0);
            for w in s.iter_mut().take(rng.within(1, 3) as usize) {
                *w = rng.any() as u16;
            }
        }
    }
    s
}
