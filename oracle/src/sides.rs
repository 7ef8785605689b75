//! Our side, through the C library libasogeren.a. Built with `--cfg model_as_ours` the plain model stands behind the same names.
use crate::calls::*;

#[repr(C)]
#[derive(Clone, Copy, PartialEq, Eq, Debug)]
pub struct Answer {
    pub refusal: u64,
    pub value: u64,
}

pub fn given(value: u64) -> Answer {
    Answer { refusal: 0, value }
}

pub fn refused(refusal: u64) -> Answer {
    Answer { refusal, value: 0 }
}

impl std::fmt::Display for Answer {
    fn fmt(&self, f: &mut std::fmt::Formatter) -> std::fmt::Result {
        match self.refusal {
            0 => write!(f, "value {}", number(self.value)),
            n => write!(f, "refusal {n}"),
        }
    }
}

impl From<crate::model::Said> for Answer {
    fn from(said: crate::model::Said) -> Answer {
        said.map_or_else(refused, given)
    }
}

extern "C" {
    fn asogeren_alloc(store: *mut u16, words: usize) -> Answer;
    fn asogeren_alloc_contiguous(store: *mut u16, words: usize, size: usize, align_log2: usize) -> Answer;
    fn asogeren_alloc_contiguous_at(store: *mut u16, words: usize, base: usize, size: usize, align_log2: usize) -> Answer;
    fn asogeren_next(store: *const u16, words: usize, key: usize) -> Answer;
    fn asogeren_dealloc(store: *mut u16, words: usize, key: usize) -> Answer;
    fn asogeren_dealloc_contiguous(store: *mut u16, words: usize, base: usize, size: usize) -> Answer;
    fn asogeren_dealloc_contiguous_old(store: *mut u16, words: usize, base: usize, size: usize) -> Answer;
    fn asogeren_insert(store: *mut u16, words: usize, start: usize, end: usize) -> Answer;
    fn asogeren_remove(store: *mut u16, words: usize, start: usize, end: usize) -> Answer;
    fn asogeren_is_empty(store: *const u16, words: usize) -> Answer;
    fn asogeren_test(store: *const u16, words: usize, key: usize) -> Answer;
    fn asogeren_check(store: *const u16, words: usize) -> Answer;
    fn asogeren_image_write(store: *const u16, words: usize, target: *mut u8, bytes: usize) -> Answer;
    fn asogeren_image_read(bytes: *const u8, count: usize, target: *mut u16, words: usize) -> Answer;
}

/// One call of our side on a lent store.
pub fn ours(o: &Op, store: &mut [u16]) -> Answer {
    let (s, w) = (store.as_mut_ptr(), store.len());
    let [a, b, c] = o.args.map(|x| x as usize);
    // Safety: pointer and count are those of the slice, which nothing else refers to during the call.
    unsafe {
        match o.call {
            Alloc => asogeren_alloc(s, w),
            Run => asogeren_alloc_contiguous(s, w, a, b),
            RunAt => asogeren_alloc_contiguous_at(s, w, a, b, c),
            Next => asogeren_next(s, w, a),
            Dealloc => asogeren_dealloc(s, w, a),
            DeallocRunOld => asogeren_dealloc_contiguous_old(s, w, a, b),
            Insert => asogeren_insert(s, w, a, b),
            Remove => asogeren_remove(s, w, a, b),
            IsEmpty => asogeren_is_empty(s, w),
            Test => asogeren_test(s, w, a),
            DeallocRun => asogeren_dealloc_contiguous(s, w, a, b),
        }
    }
}

pub fn check(store: &[u16]) -> Answer {
    unsafe { asogeren_check(store.as_ptr(), store.len()) }
}

pub fn image_write(store: &[u16], target: &mut [u8]) -> Answer {
    unsafe { asogeren_image_write(store.as_ptr(), store.len(), target.as_mut_ptr(), target.len()) }
}

pub fn image_read(bytes: &[u8], target: &mut [u16]) -> Answer {
    unsafe { asogeren_image_read(bytes.as_ptr(), bytes.len(), target.as_mut_ptr(), target.len()) }
}

/// The same call of the plain model.
pub fn model(o: &Op, store: &mut [u16]) -> Answer {
    use crate::model as m;
    let [a, b, c] = o.args;
    Answer::from(match o.call {
        Alloc => m::alloc(store),
        Run => m::alloc_contiguous(store, a, b),
        RunAt => m::alloc_contiguous_at(store, a, b, c),
        Next => m::next(store, a),
        Dealloc => m::dealloc(store, a),
        DeallocRunOld => m::dealloc_contiguous_old(store, a, b),
        Insert => m::insert(store, a, b),
        Remove => m::remove(store, a, b),
        IsEmpty => m::is_empty(store),
        Test => m::test(store, a),
        DeallocRun => m::dealloc_contiguous(store, a, b),
    })
}

/// The C library's names, with the plain model behind them.
#[cfg(model_as_ours)]
mod model_as_ours {
    use super::Answer;
    use crate::model as m;
    use std::slice::{from_raw_parts, from_raw_parts_mut};

    macro_rules! stands_in {
        ($name:ident, $call:ident, mut $($arg:ident),*) => {
            #[no_mangle]
            unsafe extern "C" fn $name(store: *mut u16, words: usize, $($arg: usize),*) -> Answer {
                m::$call(from_raw_parts_mut(store, words), $($arg as u64),*).into()
            }
        };
        ($name:ident, $call:ident, $($arg:ident),*) => {
            #[no_mangle]
            unsafe extern "C" fn $name(store: *const u16, words: usize, $($arg: usize),*) -> Answer {
                m::$call(from_raw_parts(store, words), $($arg as u64),*).into()
            }
        };
    }
    stands_in!(asogeren_alloc, alloc, mut);
    stands_in!(asogeren_alloc_contiguous, alloc_contiguous, mut size, align_log2);
    stands_in!(asogeren_alloc_contiguous_at, alloc_contiguous_at, mut base, size, align_log2);
    stands_in!(asogeren_next, next, key);
    stands_in!(asogeren_dealloc, dealloc, mut key);
    stands_in!(asogeren_dealloc_contiguous, dealloc_contiguous, mut base, size);
    stands_in!(asogeren_dealloc_contiguous_old, dealloc_contiguous_old, mut base, size);
    stands_in!(asogeren_insert, insert, mut start, end);
    stands_in!(asogeren_remove, remove, mut start, end);
    stands_in!(asogeren_is_empty, is_empty,);
    stands_in!(asogeren_test, test, key);
    stands_in!(asogeren_check, check,);

    #[no_mangle]
    unsafe extern "C" fn asogeren_image_write(store: *const u16, words: usize, target: *mut u8, bytes: usize) -> Answer {
        m::image_write(from_raw_parts(store, words), from_raw_parts_mut(target, bytes)).into()
    }

    #[no_mangle]
    unsafe extern "C" fn asogeren_image_read(bytes: *const u8, count: usize, target: *mut u16, words: usize) -> Answer {
        m::image_read(from_raw_parts(bytes, count), from_raw_parts_mut(target, words)).into()
    }
}
