//! Every call and every refusal, and many calls in a row beside a plain model of the positions.

use asogeren::{BitAlloc16, BitAlloc16M, BitAlloc1M, BitAlloc256, BitAlloc256M, BitAlloc4K, BitAlloc64K, Map, Refusal};
use Refusal::{Alignment, AlreadyFree, BadImage, NoSize, NoneFree, PastEnd, TooShort, Untrue, WordCount};

#[test]
fn the_sizes() {
    let sizes = [
        (BitAlloc16::CAP, BitAlloc16::WORDS),
        (BitAlloc256::CAP, BitAlloc256::WORDS),
        (BitAlloc4K::CAP, BitAlloc4K::WORDS),
        (BitAlloc64K::CAP, BitAlloc64K::WORDS),
        (BitAlloc1M::CAP, BitAlloc1M::WORDS),
        (BitAlloc16M::CAP, BitAlloc16M::WORDS),
        (BitAlloc256M::CAP, BitAlloc256M::WORDS),
    ];
    let (mut cap, mut words) = (1, 0);
    for size in sizes {
        (cap, words) = (16 * cap, 1 + 16 * words);
        assert_eq!(size, (cap, words));
        let mut store = vec![0; words];
        let mut map = Map::new(&mut store);
        assert_eq!(map.insert(cap - 1..cap), Ok(()));
        assert_eq!(map.test(cap - 1), Ok(true));
        assert_eq!(map.test(cap), Err(PastEnd));
        assert_eq!(map.alloc(), Ok(cap - 1));
        assert_eq!(map.check(), Ok(true));
    }
}

#[test]
fn a_word_count_that_is_none_of_the_seven() {
    for count in [0, 2, 16, 18, 272, 274] {
        let mut store = vec![0xffff; count];
        let mut map = Map::new(&mut store);
        assert_eq!(map.alloc(), Err(WordCount));
        assert_eq!(map.alloc_contiguous(None, 0, 64), Err(WordCount));
        assert_eq!(map.alloc_contiguous(Some(1), 0, 64), Err(WordCount));
        assert_eq!(map.next(0), Err(WordCount));
        assert_eq!(map.dealloc(usize::MAX), Err(WordCount));
        assert_eq!(map.dealloc_contiguous(usize::MAX, usize::MAX), Err(WordCount));
        assert_eq!(map.dealloc_contiguous_old(usize::MAX, usize::MAX), Err(WordCount));
        assert_eq!(map.insert(0..0), Err(WordCount));
        assert_eq!(map.remove(0..usize::MAX), Err(WordCount));
        assert_eq!(map.is_empty(), Err(WordCount));
        assert_eq!(map.test(usize::MAX), Err(WordCount));
        assert_eq!(map.check(), Err(WordCount));
        assert_eq!(map.image_write(&mut []), Err(WordCount));
        assert!(map.words().iter().all(|&w| w == 0xffff));
    }
}

#[test]
#[allow(clippy::reversed_empty_ranges)]
fn the_other_refusals() {
    let mut store = [0; BitAlloc256::WORDS];
    let mut map = Map::new(&mut store);
    assert_eq!(map.insert(16..18), Ok(()));
    let before = map.words().to_vec();

    assert_eq!(map.alloc_contiguous(None, 0, 9), Err(Alignment));
    assert_eq!(map.alloc_contiguous(None, 0, 64), Err(Alignment));
    assert_eq!(map.alloc_contiguous(None, 0, 8), Err(NoSize));
    assert_eq!(map.alloc_contiguous(None, 3, 0), Err(NoneFree));
    assert_eq!(map.alloc_contiguous(None, usize::MAX, 0), Err(NoneFree));
    assert_eq!(map.alloc_contiguous(Some(17), 0, 1), Err(Alignment));
    assert_eq!(map.alloc_contiguous(Some(1000), 0, 0), Err(NoSize));
    assert_eq!(map.alloc_contiguous(Some(255), 2, 0), Err(PastEnd));
    assert_eq!(map.alloc_contiguous(Some(16), usize::MAX, 0), Err(PastEnd));
    assert_eq!(map.alloc_contiguous(Some(17), 2, 0), Err(NoneFree));
    assert_eq!(map.next(18), Err(NoneFree));
    assert_eq!(map.next(usize::MAX), Err(NoneFree));
    assert_eq!(map.dealloc(256), Err(PastEnd));
    assert_eq!(map.dealloc(17), Err(AlreadyFree));
    assert_eq!(map.insert(9..8), Err(PastEnd));
    assert_eq!(map.insert(0..257), Err(PastEnd));
    assert_eq!(map.insert(0..0), Err(NoSize));
    assert_eq!(map.remove(9..8), Err(PastEnd));
    assert_eq!(map.remove(0..257), Err(PastEnd));
    assert_eq!(map.remove(256..256), Err(NoSize));
    assert_eq!(map.test(256), Err(PastEnd));
    assert_eq!(map.words(), before);

    let mut untrue = [0; BitAlloc256::WORDS];
    untrue[0] = 1;
    let mut map = Map::new(&mut untrue);
    assert_eq!(map.alloc(), Err(Untrue));
    assert_eq!(map.check(), Ok(false));
}

#[test]
fn run_give_backs() {
    a_run_given_back(|map, base, size| map.dealloc_contiguous(base, size));
    a_run_given_back(|map, base, size| map.dealloc_contiguous_old(base, size));
}

/// What both do alike.
fn a_run_given_back(give: fn(&mut Map, usize, usize) -> Result<(), Refusal>) {
    let mut store = [0; BitAlloc256::WORDS];
    let mut map = Map::new(&mut store);
    assert_eq!(give(&mut map, 14, 6), Ok(()));
    assert_eq!(map.words()[..4], [0x0003, 0xc000, 0x000f, 0]);
    let before = map.words().to_vec();
    assert_eq!(give(&mut map, 257, 0), Err(PastEnd));
    assert_eq!(give(&mut map, 255, 2), Err(PastEnd));
    assert_eq!(give(&mut map, 19, 238), Err(PastEnd)); // before 6: position 19 is free
    assert_eq!(give(&mut map, 1, usize::MAX), Err(PastEnd));
    assert_eq!(give(&mut map, 256, 0), Err(NoSize));
    assert_eq!(give(&mut map, 14, 0), Err(NoSize));
    assert_eq!(give(&mut map, 15, 1), Err(AlreadyFree));
    assert_eq!(give(&mut map, 8, 248), Err(AlreadyFree));
    assert_eq!(map.words(), before);

    // on a map that is not true a success makes the words that insert makes: no bit outside the run is mended
    let mut untrue = [0; BitAlloc256::WORDS];
    (untrue[0], untrue[3]) = (0x8002, 0x0001);
    let mut inserted = untrue;
    assert_eq!(Map::new(&mut inserted).insert(14..20), Ok(()));
    assert_eq!(give(&mut Map::new(&mut untrue), 14, 6), Ok(()));
    assert_eq!(untrue, inserted);
    assert_eq!(untrue[..4], [0x8003, 0xc000, 0x000f, 0x0001]);
}

#[test]
fn a_run_that_is_partly_free() {
    // Position 20 is free. Its leaf bit decides, also where the map is not true and its own word says nothing of it.
    for own in [0x0002, 0x0000] {
        let mut store = [0; BitAlloc256::WORDS];
        (store[0], store[2]) = (own, 0x0010);
        let before = store;
        let mut map = Map::new(&mut store);
        assert_eq!(map.dealloc_contiguous(0, 32), Err(AlreadyFree));
        assert_eq!(map.words(), before);
        assert_eq!(map.dealloc_contiguous_old(0, 32), Err(AlreadyFree));
        assert_eq!(map.words()[..3], [0x0003, 0xffff, 0x0010]);
        assert!(map.words()[3..].iter().all(|&w| w == 0));
    }
}

#[test]
fn images() {
    let mut store = [0; BitAlloc256::WORDS];
    let mut map = Map::new(&mut store);
    assert_eq!(map.insert(14..20), Ok(()));
    let mut bytes = [0xaa; 44];
    assert_eq!(map.image_write(&mut bytes[..41]), Err(TooShort));
    assert_eq!(map.image_write(&mut []), Err(TooShort));
    assert_eq!(bytes, [0xaa; 44]);
    assert_eq!(map.image_write(&mut bytes), Ok(42));
    assert_eq!(bytes[..14], [1, 0, 0, 0, 3, 0, 16, 0, 0, 0, 0, 0xc0, 0x0f, 0]);
    assert!(bytes[14..42].iter().all(|&b| b == 0));
    assert_eq!(bytes[42..], [0xaa; 2]);
    let image = &bytes[..42];

    let mut target = [0xbbbb; 20];
    assert_eq!(Map::image_read(&bytes, &mut target).err(), Some(BadImage));
    assert_eq!(Map::image_read(&[], &mut target).err(), Some(BadImage));
    assert_eq!(Map::image_read(image, &mut target[..16]).err(), Some(TooShort));
    assert_eq!(Map::image_read(image, &mut []).err(), Some(TooShort));
    for (at, byte, refusal) in [
        (0, 2, BadImage),
        (6, 17, BadImage),
        (9, 1, BadImage),
        (4, 1, Untrue),
        (12, 0, Untrue),
    ] {
        let mut wrong = image.to_vec();
        wrong[at] = byte;
        assert_eq!(Map::image_read(&wrong, &mut target).err(), Some(refusal), "byte {at}");
    }
    assert_eq!(target, [0xbbbb; 20]);
    let read = Map::image_read(image, &mut target).unwrap();
    assert_eq!(read.words(), map.words());
    assert_eq!(target[17..], [0xbbbb; 3]);

    let mut untrue = [0; BitAlloc256::WORDS];
    untrue[0] = 1;
    assert_eq!(Map::new(&mut untrue).image_write(&mut []), Err(Untrue));
}

/// What each call answers and does, on one bool for each position.
struct Model(Vec<bool>);

impl Model {
    fn fits(&self, base: usize, size: usize) -> bool {
        base + size <= self.0.len() && self.0[base..base + size].iter().all(|&free| free)
    }

    fn alloc_contiguous(&mut self, base: Option<usize>, size: usize, align_log2: usize) -> Result<usize, Refusal> {
        let cap = self.0.len();
        let step = 1 << align_log2;
        if step > cap || base.is_some_and(|b| b % step != 0) {
            return Err(Alignment);
        }
        if size == 0 {
            return Err(NoSize);
        }
        if base.is_some_and(|b| b + size > cap) {
            return Err(PastEnd);
        }
        let at = match base {
            Some(b) => Some(b).filter(|&b| self.fits(b, size)),
            None => (0..cap).step_by(step).find(|&b| self.fits(b, size)),
        };
        let at = at.ok_or(NoneFree)?;
        self.0[at..at + size].fill(false);
        Ok(at)
    }

    fn set(&mut self, start: usize, end: usize, free: bool) -> Result<(), Refusal> {
        if start > end || end > self.0.len() {
            return Err(PastEnd);
        }
        if start == end {
            return Err(NoSize);
        }
        self.0[start..end].fill(free);
        Ok(())
    }

    /// The first position of the run that is free, where the numbers are those of a run.
    fn first_free(&self, base: usize, size: usize) -> Result<Option<usize>, Refusal> {
        let end = base + size;
        if end > self.0.len() {
            return Err(PastEnd);
        }
        if size == 0 {
            return Err(NoSize);
        }
        Ok((base..end).find(|&p| self.0[p]))
    }

    fn dealloc_contiguous(&mut self, base: usize, size: usize) -> Result<(), Refusal> {
        if self.first_free(base, size)?.is_some() {
            return Err(AlreadyFree);
        }
        self.set(base, base + size, true)
    }

    fn dealloc_contiguous_old(&mut self, base: usize, size: usize) -> Result<(), Refusal> {
        let free = self.first_free(base, size)?;
        // the crate's way: what stands before the word of the first free one is freed all the same
        let stop = free.map_or(base + size, |p| base.max(p - p % 16));
        self.0[base..stop].fill(true);
        free.map_or(Ok(()), |_| Err(AlreadyFree))
    }
}

#[test]
fn beside_a_plain_model() {
    let mut seed = 0x2545_f491_4f6c_dd1d_u64;
    let mut random = |below: usize| {
        seed ^= seed << 13;
        seed ^= seed >> 7;
        seed ^= seed << 17;
        (seed >> 11) as usize % below
    };
    for (cap, words) in [
        (BitAlloc16::CAP, BitAlloc16::WORDS),
        (BitAlloc256::CAP, BitAlloc256::WORDS),
        (BitAlloc4K::CAP, BitAlloc4K::WORDS),
    ] {
        let mut store = vec![0; words];
        let mut map = Map::new(&mut store);
        let mut model = Model(vec![false; cap]);
        for _ in 0..4000 {
            let (a, b) = (random(cap + 2), random(cap + 2));
            let (size, align) = (random(40), random(6));
            match random(10) {
                0 => {
                    let first = model.0.iter().position(|&free| free);
                    assert_eq!(map.alloc(), first.ok_or(NoneFree));
                    if let Some(p) = first {
                        model.0[p] = false;
                    }
                }
                1 => assert_eq!(
                    map.alloc_contiguous(None, size, align),
                    model.alloc_contiguous(None, size, align)
                ),
                2 => assert_eq!(
                    map.alloc_contiguous(Some(a), size, align),
                    model.alloc_contiguous(Some(a), size, align)
                ),
                3 => assert_eq!(map.insert(a..b), model.set(a, b, true)),
                4 => assert_eq!(map.remove(a..b), model.set(a, b, false)),
                5 => {
                    let answer = if a >= cap {
                        Err(PastEnd)
                    } else if model.0[a] {
                        Err(AlreadyFree)
                    } else {
                        Ok(())
                    };
                    assert_eq!(map.dealloc(a), answer);
                    if answer.is_ok() {
                        model.0[a] = true;
                    }
                }
                6 => assert_eq!(map.dealloc_contiguous(a, size), model.dealloc_contiguous(a, size)),
                7 => assert_eq!(map.dealloc_contiguous_old(a, size), model.dealloc_contiguous_old(a, size)),
                8 => assert_eq!(map.next(a), (a..cap).find(|&p| model.0[p]).ok_or(NoneFree)),
                _ => assert_eq!(map.test(a), model.0.get(a).copied().ok_or(PastEnd)),
            }
            assert_eq!(map.is_empty(), Ok(model.0.iter().all(|&free| !free)));
        }
        assert_eq!(map.check(), Ok(true));
        for p in 0..cap {
            assert_eq!(map.test(p), Ok(model.0[p]));
        }
    }
}
