//! A bitmap allocator over words that the caller lends or owns.
//!
//! This is the Rust side of a library whose every answer is proved: for each call, whatever the words and the numbers, the proof
//! says which answer it gives and which words it leaves. So every function here is safe and takes any words. What is not proved is
//! this binding, and the compiler's back end.
//!
//! A map has one to seven levels and 16 to 268,435,456 positions, each free or taken ([`BitAlloc16`] to [`BitAlloc256M`]). It is a
//! row of 16-bit words: its own word, then its 16 children one after the other, each laid out in the same way. A leaf word has 16
//! positions, lowest bit first, and 1 is free. A summary word has a bit for each child, set exactly where the child's own word is
//! not 0; a map whose summary bits all say so is *true*, and every call leaves a true map true. The count of words decides the
//! level. All words 0 is a true map with every position taken, so a map starts like this:
//!
//! ```
//! use asogeren::{BitAlloc4K, Refusal};
//!
//! let mut map = BitAlloc4K::default();
//! map.insert(0..BitAlloc4K::CAP)?;
//!
//! assert_eq!(map.alloc(), Ok(0));
//! assert_eq!(map.alloc_contiguous(None, 64, 6), Ok(64));
//! map.dealloc(0)?;
//! assert_eq!(map.dealloc(0), Err(Refusal::AlreadyFree));
//! # Ok::<(), Refusal>(())
//! ```
//!
//! There are three kinds of maps, and they have the same calls, those of [`MapOf`]:
//! - one that owns its words, [`BitAlloc16`] to [`BitAlloc256M`], a type for each size; [`Size`] is for code over all of them;
//! - [`Map`], over words that are lent to be changed, of any size;
//! - [`View`], over words that are lent to be looked at, with the calls that change nothing.
//!
//! A refusal changes nothing, save [`Refusal::AlreadyFree`] from [`MapOf::dealloc_contiguous_old`]. Where more than one refusal
//! fits, the first in the order given with the call is returned; [`Refusal::WordCount`] comes first everywhere.
#![no_std]
#![warn(missing_docs)]

mod change;
mod look;
mod map;
mod refusal;
mod sizes;
mod sys;

pub use map::{Map, MapOf, View};
pub use refusal::{Refusal, UnknownRefusal};
pub use sizes::{BitAlloc16, BitAlloc16M, BitAlloc1M, BitAlloc256, BitAlloc256M, BitAlloc4K, BitAlloc64K, Size};

#[cfg(not(target_pointer_width = "64"))]
compile_error!("asogeren is for targets with 64-bit sizes");

/// The page for those who come from the crate bitmap-allocator: its examples are compiled and run with those here.
#[cfg(doctest)]
#[doc = include_str!("../../../docs/FROM-BITMAP-ALLOCATOR.md")]
struct FromBitmapAllocator;
