//! The Rust crate's maps: their calls, with panics caught, and their words, read and set through their memory.
use crate::calls::*;
use crate::order::{self, Order};
use bitmap_allocator::{BitAlloc, BitAlloc16, BitAlloc1M, BitAlloc256, BitAlloc4K, BitAlloc64K};
use std::alloc::{alloc_zeroed, handle_alloc_error, Layout};
use std::cell::{Cell, RefCell};
use std::panic::{catch_unwind, set_hook, take_hook, AssertUnwindSafe};

/// What a call of the crate came to.
#[derive(Clone, Copy, PartialEq, Eq, Debug)]
pub enum Outcome {
    Position(u64),
    None,
    Bool(bool),
    Unit,
    Panic,
}

thread_local! {
    static IN_THE_CRATE: Cell<bool> = const { Cell::new(false) };
    static LAST_PANIC: RefCell<String> = const { RefCell::new(String::new()) };
}

/// From now on a panic of the crate prints nothing; what it said is kept for `last_panic`.
pub fn catch_panics() {
    let default = take_hook();
    set_hook(Box::new(move |info| {
        if !IN_THE_CRATE.get() {
            return default(info);
        }
        let said = info
            .payload()
            .downcast_ref::<&str>()
            .copied()
            .or(info.payload().downcast_ref::<String>().map(|s| s.as_str()));
        LAST_PANIC.with_borrow_mut(|last| {
            last.clear();
            // one class for every index
            last.push_str(said.map_or("?", |said| said.split(" but the index is").next().unwrap()));
        });
    }));
}

pub fn last_panic() -> String {
    LAST_PANIC.with_borrow(|last| last.clone())
}

impl std::fmt::Display for Outcome {
    fn fmt(&self, f: &mut std::fmt::Formatter) -> std::fmt::Result {
        match self {
            Outcome::Position(p) => write!(f, "Some({p})"),
            Outcome::None => write!(f, "None"),
            Outcome::Bool(b) => write!(f, "{b}"),
            Outcome::Unit => write!(f, "nothing"),
            Outcome::Panic => write!(f, "a panic: {}", last_panic()),
        }
    }
}

/// A map of the crate, of any size.
pub trait Map {
    fn call(&mut self, o: &Op) -> Outcome;
    /// Its words, in the order in which they stand in its memory.
    fn words(&self) -> &[u16];
    fn words_mut(&mut self) -> &mut [u16];
}

struct Held<T>(Box<T>);

impl<T: BitAlloc> Held<T> {
    fn new() -> Self {
        let layout = Layout::new::<T>();
        // Safety: the crate's maps are made of u16 alone, so zero bytes are a map: all taken.
        unsafe {
            let p = alloc_zeroed(layout) as *mut T;
            if p.is_null() {
                handle_alloc_error(layout);
            }
            Held(Box::from_raw(p))
        }
    }
}

impl<T: BitAlloc> Map for Held<T> {
    fn call(&mut self, o: &Op) -> Outcome {
        let map = &mut *self.0;
        let [a, b, c] = o.args.map(|x| x as usize);
        let position = |p: Option<usize>| p.map_or(Outcome::None, |p| Outcome::Position(p as u64));
        IN_THE_CRATE.set(true);
        let outcome = catch_unwind(AssertUnwindSafe(|| match o.call {
            Alloc => position(map.alloc()),
            Run => position(map.alloc_contiguous(None, a, b)),
            RunAt => position(map.alloc_contiguous(Some(a), b, c)),
            Next => position(map.next(a)),
            Dealloc => Outcome::Bool(map.dealloc(a)),
            DeallocRunOld => Outcome::Bool(map.dealloc_contiguous(a, b)),
            Insert => {
                map.insert(a..b);
                Outcome::Unit
            }
            Remove => {
                map.remove(a..b);
                Outcome::Unit
            }
            IsEmpty => Outcome::Bool(map.is_empty()),
            Test => Outcome::Bool(map.test(a)),
            DeallocRun => unreachable!("the crate has no such call"),
        }));
        IN_THE_CRATE.set(false);
        outcome.unwrap_or(Outcome::Panic)
    }

    fn words(&self) -> &[u16] {
        // Safety: as in `new`; every word value is allowed.
        unsafe { std::slice::from_raw_parts(&*self.0 as *const T as *const u16, size_of::<T>() / 2) }
    }

    fn words_mut(&mut self) -> &mut [u16] {
        unsafe { std::slice::from_raw_parts_mut(&mut *self.0 as *mut T as *mut u16, size_of::<T>() / 2) }
    }
}

/// The crate's map of n levels, all taken.
pub fn map(n: usize) -> Box<dyn Map> {
    match n {
        1 => Box::new(Held::<BitAlloc16>::new()),
        2 => Box::new(Held::<BitAlloc256>::new()),
        3 => Box::new(Held::<BitAlloc4K>::new()),
        4 => Box::new(Held::<BitAlloc64K>::new()),
        5 => Box::new(Held::<BitAlloc1M>::new()),
        _ => panic!("no map of {n} levels"),
    }
}

/// The order in which the words of the crate's map of n levels stand in its memory, found by a probe.
pub fn order(n: usize) -> Order {
    let mut map = map(n);
    map.call(&op(Dealloc, &[order::probe(n)]));
    Order::of(n, map.words())
}
