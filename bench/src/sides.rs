//! The two sides, each call as one function that is never inlined, so that both are called in the same way and callgrind finds it by its
//! name. Inside it the crate's method is inlined as in any user's program, and ours is the C library's function.
use crate::order::{self, Order};
use crate::sys::{self, Answer};
use bitmap_allocator::BitAlloc;
use std::alloc::{alloc_zeroed, handle_alloc_error, Layout};
use std::marker::PhantomData;
use std::ops::DerefMut;

/// No call's function may be merged with a like one of the crate's, which would then be counted by its name: this makes it unlike, and is
/// no instruction.
macro_rules! apart {
    () => {
        unsafe { std::arch::asm!("", options(nomem, nostack, preserves_flags)) }
    };
}
pub(crate) use apart;

/// A value or, where there is none or the call failed, this.
pub const NONE: u64 = u64::MAX;

pub trait Side {
    type Map: ?Sized;
    type Held: DerefMut<Target = Self::Map>;
    type Position;
    type Told;
    type Done;
    type Nothing;

    /// A map with these words.
    fn held(n: usize, words: &[u16]) -> Self::Held;
    /// The map's words, in the order of its memory.
    fn memory(map: &mut Self::Map) -> &mut [u16];
    /// The map's words, in our order.
    fn words(n: usize, map: &mut Self::Map) -> Vec<u16>;

    fn position(p: Self::Position) -> u64;
    fn told(t: Self::Told) -> u64;
    fn done(d: Self::Done) -> u64;
    fn nothing(x: Self::Nothing) -> u64;

    fn counted_take(map: &mut Self::Map) -> Self::Position;
    fn counted_run(map: &mut Self::Map, size: usize, align_log2: usize) -> Self::Position;
    fn counted_run_at(map: &mut Self::Map, base: usize, size: usize, align_log2: usize) -> Self::Position;
    fn counted_next(map: &Self::Map, key: usize) -> Self::Position;
    fn counted_test(map: &Self::Map, key: usize) -> Self::Told;
    fn counted_give(map: &mut Self::Map, key: usize) -> Self::Done;
    fn counted_give_run(map: &mut Self::Map, base: usize, size: usize) -> Self::Done;
    fn counted_give_run_old(map: &mut Self::Map, base: usize, size: usize) -> Self::Done;
    fn counted_insert(map: &mut Self::Map, start: usize, end: usize) -> Self::Nothing;
    fn counted_remove(map: &mut Self::Map, start: usize, end: usize) -> Self::Nothing;
}

/// Our side.
pub struct Ours;

/// A function of one of our calls. Safety: the pointer and the count are those of the slice, which is lent for the whole call.
macro_rules! ours {
    ($name:ident, $call:ident, mut, $($arg:ident),*) => {
        #[inline(never)]
        fn $name(map: &mut [u16], $($arg: usize),*) -> Answer {
            apart!();
            unsafe { sys::$call(map.as_mut_ptr(), map.len(), $($arg),*) }
        }
    };
    ($name:ident, $call:ident, $($arg:ident),*) => {
        #[inline(never)]
        fn $name(map: &[u16], $($arg: usize),*) -> Answer {
            apart!();
            unsafe { sys::$call(map.as_ptr(), map.len(), $($arg),*) }
        }
    };
}

pub fn value(answer: Answer) -> u64 {
    if answer.refusal == 0 {
        answer.value
    } else {
        NONE
    }
}

impl Side for Ours {
    type Map = [u16];
    type Held = Vec<u16>;
    type Position = Answer;
    type Told = Answer;
    type Done = Answer;
    type Nothing = Answer;

    fn held(_: usize, words: &[u16]) -> Vec<u16> {
        words.to_vec()
    }
    fn memory(map: &mut [u16]) -> &mut [u16] {
        map
    }
    fn words(_: usize, map: &mut [u16]) -> Vec<u16> {
        map.to_vec()
    }

    fn position(p: Answer) -> u64 {
        value(p)
    }
    fn told(t: Answer) -> u64 {
        value(t)
    }
    fn done(d: Answer) -> u64 {
        value(d)
    }
    fn nothing(x: Answer) -> u64 {
        value(x)
    }

    ours!(counted_take, asogeren_alloc, mut,);
    ours!(counted_run, asogeren_alloc_contiguous, mut, size, align_log2);
    ours!(counted_run_at, asogeren_alloc_contiguous_at, mut, base, size, align_log2);
    ours!(counted_next, asogeren_next, key);
    ours!(counted_test, asogeren_test, key);
    ours!(counted_give, asogeren_dealloc, mut, key);
    ours!(counted_give_run, asogeren_dealloc_contiguous, mut, base, size);
    ours!(counted_give_run_old, asogeren_dealloc_contiguous_old, mut, base, size);
    ours!(counted_insert, asogeren_insert, mut, start, end);
    ours!(counted_remove, asogeren_remove, mut, start, end);
}

/// The crate's side, with its map of one size.
pub struct Theirs<T>(PhantomData<T>);

/// The crate's map, all taken, on the heap.
fn zeroed<T: BitAlloc>() -> Box<T> {
    let layout = Layout::new::<T>();
    // Safety: the crate's maps are made of u16 alone, so zero bytes are a map: all taken.
    unsafe {
        let p = alloc_zeroed(layout) as *mut T;
        if p.is_null() {
            handle_alloc_error(layout);
        }
        Box::from_raw(p)
    }
}

impl<T: BitAlloc> Theirs<T> {
    fn order(n: usize) -> Order {
        let mut map = zeroed::<T>();
        map.dealloc(order::probe(n) as usize);
        Order::of(n, Self::memory(&mut map))
    }
}

impl<T: BitAlloc> Side for Theirs<T> {
    type Map = T;
    type Held = Box<T>;
    type Position = Option<usize>;
    type Told = bool;
    type Done = bool;
    type Nothing = ();

    fn held(n: usize, words: &[u16]) -> Box<T> {
        let mut map = zeroed::<T>();
        Self::order(n).set(Self::memory(&mut map), words);
        map
    }
    fn memory(map: &mut T) -> &mut [u16] {
        // Safety: as in `zeroed`; every word value is allowed.
        unsafe { std::slice::from_raw_parts_mut(map as *mut T as *mut u16, size_of::<T>() / 2) }
    }
    fn words(n: usize, map: &mut T) -> Vec<u16> {
        let (order, memory) = (Self::order(n), Self::memory(map));
        (0..memory.len()).map(|i| order.word(memory, i)).collect()
    }

    fn position(p: Option<usize>) -> u64 {
        p.map_or(NONE, |p| p as u64)
    }
    fn told(t: bool) -> u64 {
        t as u64
    }
    fn done(d: bool) -> u64 {
        if d {
            0
        } else {
            NONE
        }
    }
    fn nothing((): ()) -> u64 {
        0
    }

    #[inline(never)]
    fn counted_take(map: &mut T) -> Option<usize> {
        apart!();
        map.alloc()
    }
    #[inline(never)]
    fn counted_run(map: &mut T, size: usize, align_log2: usize) -> Option<usize> {
        apart!();
        map.alloc_contiguous(None, size, align_log2)
    }
    #[inline(never)]
    fn counted_run_at(map: &mut T, base: usize, size: usize, align_log2: usize) -> Option<usize> {
        apart!();
        map.alloc_contiguous(Some(base), size, align_log2)
    }
    #[inline(never)]
    fn counted_next(map: &T, key: usize) -> Option<usize> {
        apart!();
        map.next(key)
    }
    #[inline(never)]
    fn counted_test(map: &T, key: usize) -> bool {
        apart!();
        map.test(key)
    }
    #[inline(never)]
    fn counted_give(map: &mut T, key: usize) -> bool {
        apart!();
        map.dealloc(key)
    }
    // the crate has one: beside the default it stands for the same where no position of the run is free
    #[inline(never)]
    fn counted_give_run(map: &mut T, base: usize, size: usize) -> bool {
        apart!();
        map.dealloc_contiguous(base, size)
    }
    #[inline(never)]
    fn counted_give_run_old(map: &mut T, base: usize, size: usize) -> bool {
        apart!();
        map.dealloc_contiguous(base, size)
    }
    #[inline(never)]
    fn counted_insert(map: &mut T, start: usize, end: usize) {
        apart!();
        map.insert(start..end)
    }
    #[inline(never)]
    fn counted_remove(map: &mut T, start: usize, end: usize) {
        apart!();
        map.remove(start..end)
    }
}
