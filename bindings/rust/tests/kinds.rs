//! The kinds of maps: views, and the maps that own their words.

use std::sync::Mutex;

use asogeren::Refusal::{AlreadyFree, BadImage, NoneFree, PastEnd, Untrue, WordCount};
use asogeren::{BitAlloc16, BitAlloc16M, BitAlloc1M, BitAlloc256, BitAlloc256M, BitAlloc4K, BitAlloc64K};
use asogeren::{Map, MapOf, Refusal, Size, View};

static RECORDS: Mutex<BitAlloc4K> = Mutex::new(BitAlloc4K::NEW);
static NOTHING_FREE: BitAlloc256M = BitAlloc256M::NEW;

/// What is offered to those who may only look.
struct Records {
    free: BitAlloc256,
}

impl Records {
    fn test(&self, record: usize) -> Result<bool, Refusal> {
        self.free.test(record)
    }

    fn view(&self) -> View<'_> {
        self.free.view()
    }
}

#[test]
fn looking_needs_no_mut() {
    let mut records = Records { free: BitAlloc256::NEW };
    records.free.insert(14..20).unwrap();
    let records = &records;
    assert_eq!(records.test(14), Ok(true));
    assert_eq!(records.test(20), Ok(false));
    let (view, copy) = (records.view(), records.view());
    assert_eq!((view.next(0), copy.next(20)), (Ok(14), Err(NoneFree)));
    assert_eq!(view.is_empty(), Ok(false));
    assert_eq!(view.check(), Ok(true));
    assert_eq!(view.test(256), Err(PastEnd));
    let mut bytes = [0; BitAlloc256::IMAGE_BYTES];
    assert_eq!(view.image_write(&mut bytes), Ok(42));
    assert_eq!(view.words()[..3], [0x0003, 0xc000, 0x000f]);
    let again = view; // a view is copied
    assert_eq!(again, view);
}

#[test]
fn a_view_of_words_that_are_no_map() {
    for words in [&[][..], &[0; 2], &[0xffff; 18]] {
        let view = View::new(words);
        assert_eq!(view.test(0), Err(WordCount));
        assert_eq!(view.next(0), Err(WordCount));
        assert_eq!(view.is_empty(), Err(WordCount));
        assert_eq!(view.check(), Err(WordCount));
        assert_eq!(view.image_write(&mut []), Err(WordCount));
    }
    let mut untrue = [0; BitAlloc256::WORDS];
    untrue[0] = 1;
    assert_eq!(View::new(&untrue).check(), Ok(false));
    assert_eq!(View::new(&untrue).image_write(&mut [0; 42]), Err(Untrue));
}

#[test]
fn a_map_lends_itself() {
    let mut words = [0xffff];
    let mut map = Map::new(&mut words);
    assert_eq!(map.view().next(3), Ok(3));
    assert_eq!(map.map().alloc(), Ok(0));
    assert_eq!(map.alloc(), Ok(1));
    assert_eq!(map.view().words(), [0xfffc]);
}

#[test]
fn in_a_static() {
    let mut records = RECORDS.lock().unwrap();
    assert_eq!(records.is_empty(), Ok(true));
    assert_eq!(records.insert(4000..4096), Ok(()));
    assert_eq!(records.alloc_contiguous(None, 64, 6), Ok(4032));
    drop(records);
    assert_eq!(RECORDS.lock().unwrap().next(4030), Ok(4030));
    assert_eq!(NOTHING_FREE.test(BitAlloc256M::CAP - 1), Ok(false));
    assert_eq!(NOTHING_FREE.is_empty(), Ok(true));
}

#[test]
fn a_clone_goes_its_own_way() {
    let mut one = BitAlloc256::default();
    assert_eq!(one, BitAlloc256::NEW);
    one.insert(0..2).unwrap();
    let mut two = one.clone();
    assert_eq!(one, two);
    assert_eq!((one.alloc(), one.alloc()), (Ok(0), Ok(1)));
    assert_eq!(two.alloc(), Ok(0));
    assert_ne!(one, two);
}

/// Every call, on a map that starts with nothing free, by its size alone.
fn every_call<S: Size>() {
    let mut owner = S::default();
    assert_eq!(owner, S::NEW);
    let mut map = owner.map();
    assert_eq!(map.words().len(), S::WORDS);
    assert_eq!(map.insert(0..S::CAP), Ok(()));
    assert_eq!(map.remove(0..S::CAP - 4), Ok(()));
    assert_eq!(map.alloc(), Ok(S::CAP - 4));
    assert_eq!(map.dealloc(S::CAP - 4), Ok(()));
    assert_eq!(map.alloc_contiguous(None, 4, 2), Ok(S::CAP - 4));
    assert_eq!(map.dealloc_contiguous(S::CAP - 3, 3), Ok(()));
    assert_eq!(map.dealloc_contiguous(S::CAP - 4, 4), Err(AlreadyFree));
    assert_eq!(map.dealloc_contiguous_old(S::CAP - 4, 4), Err(AlreadyFree));
    assert_eq!(map.alloc_contiguous(Some(S::CAP - 2), 2, 1), Ok(S::CAP - 2));
    assert_eq!(map.test(S::CAP), Err(PastEnd));
    let view = owner.view();
    assert_eq!(view.next(0), Ok(S::CAP - 3));
    assert_eq!(view.check(), Ok(true));
    let mut image = vec![0; S::IMAGE_BYTES];
    assert_eq!(view.image_write(&mut image[1..]), Err(Refusal::TooShort));
    assert_eq!(view.image_write(&mut image), Ok(S::IMAGE_BYTES));
    let mut words = vec![0xffff; S::WORDS];
    assert_eq!(Map::image_read(&image, &mut words).unwrap().words(), view.words());
    let drawn = format!("{owner:?}");
    assert!(drawn.ends_with(&format!("free: [{}..{}], check: Ok(true) }}", S::CAP - 3, S::CAP - 2)));
}

#[test]
fn generic_code() {
    every_call::<BitAlloc16>();
    every_call::<BitAlloc256>();
    every_call::<BitAlloc4K>();
    every_call::<BitAlloc64K>();
    every_call::<BitAlloc1M>();
    // the two largest are held on the stack here
    let room = 8 * size_of::<BitAlloc16M>() + 8 * size_of::<BitAlloc256M>();
    let large = std::thread::Builder::new().stack_size(room).spawn(|| {
        every_call::<BitAlloc16M>();
        every_call::<BitAlloc256M>();
    });
    large.unwrap().join().unwrap();
}

#[test]
fn the_lengths_of_images() {
    fn of<S: Size>() -> (usize, usize, usize) {
        (S::CAP, S::WORDS, S::IMAGE_BYTES)
    }
    let sizes = [
        of::<BitAlloc16>(),
        of::<BitAlloc256>(),
        of::<BitAlloc4K>(),
        of::<BitAlloc64K>(),
        of::<BitAlloc1M>(),
        of::<BitAlloc16M>(),
        of::<BitAlloc256M>(),
    ];
    let (mut cap, mut words, mut bytes) = (1, 0, 0);
    for size in sizes {
        (cap, words, bytes) = (16 * cap, words + cap, bytes + 4 + 2 * cap);
        assert_eq!(size, (cap, words, bytes));
    }
}

#[test]
fn an_image_of_another_size() {
    let mut image = [0; BitAlloc4K::IMAGE_BYTES];
    assert_eq!(BitAlloc4K::NEW.image_write(&mut image), Ok(558));
    assert_eq!(BitAlloc4K::image_read(&image), Ok(BitAlloc4K::NEW));
    assert_eq!(BitAlloc64K::image_read(&image), Err(BadImage));
    assert_eq!(BitAlloc256::image_read(&image), Err(BadImage));
    // a beginning that is an image itself: the map of its upper levels
    assert_eq!(BitAlloc4K::image_read(&image[..42]), Err(BadImage));
    assert_eq!(BitAlloc256::image_read(&image[..42]), Ok(BitAlloc256::NEW));
    image[6] = 17;
    assert_eq!(BitAlloc4K::image_read(&image), Err(BadImage));
    image[6] = 16;
    image[4] = 1;
    assert_eq!(BitAlloc4K::image_read(&image), Err(Untrue));
}

#[test]
fn words_in_a_vec() {
    let mut map = MapOf::new(vec![0; BitAlloc256M::WORDS]);
    assert_eq!(map.insert(200_000_000..200_000_005), Ok(()));
    assert_eq!(map.alloc(), Ok(200_000_000));
    assert_eq!(map.view().next(0), Ok(200_000_001));
}

#[test]
fn what_is_drawn() {
    let mut map = BitAlloc256::NEW;
    assert_eq!(format!("{map:?}"), "Map { words: 17, free: [], check: Ok(true) }");
    map.insert(0..256).unwrap();
    assert_eq!(format!("{map:?}"), "Map { words: 17, free: [0..256], check: Ok(true) }");
    map.remove(1..255).unwrap();
    map.insert(14..20).unwrap();
    let drawn = "Map { words: 17, free: [0..1, 14..20, 255..256], check: Ok(true) }";
    assert_eq!(format!("{map:?}"), drawn);
    assert_eq!(format!("{:?}", map.view()), drawn);
    assert_eq!(format!("{:?}", map.map()), drawn);
    assert_eq!(
        format!("{:?}", View::new(&[0; 2])),
        "Map { words: 2, free: [], check: Err(WordCount) }"
    );
    // what no call finds is not drawn: the leaf bit of 16 under a summary bit that is not set
    let mut words = [0; BitAlloc256::WORDS];
    words[2] = 1;
    assert_eq!(
        format!("{:?}", View::new(&words)),
        "Map { words: 17, free: [], check: Ok(false) }"
    );
}
