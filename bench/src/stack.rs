//! The deepest stack of each of our calls at n = 7, measured: the stack below the call is painted, and then looked at for the lowest byte
//! that was overwritten. A call is tried on several maps and numbers, and the deepest is told.
use crate::calls::words;
use crate::maps::Leaves;
use crate::plain;
use crate::sys::{self, Answer};
use std::hint::black_box;

const PAINTED: usize = 1 << 18;
const PAINT: u8 = 0xa5;
const CAP: usize = 1 << 28;

/// The address of the stack's end in the function that this is inlined into.
#[inline(always)]
fn stack_pointer() -> usize {
    let at: usize;
    // Safety: it reads a register.
    unsafe {
        #[cfg(target_arch = "x86_64")]
        std::arch::asm!("mov {}, rsp", out(reg) at, options(nomem, nostack, preserves_flags));
        #[cfg(target_arch = "aarch64")]
        std::arch::asm!("mov {}, sp", out(reg) at, options(nomem, nostack, preserves_flags));
    }
    at
}

/// How many bytes below this function's own stack the call used, with its return address where that is on the stack. The call is inlined
/// here, and nothing else is called in between.
#[inline(never)]
fn depth(call: impl FnOnce() -> Answer) -> usize {
    let top = stack_pointer();
    let low = (top - PAINTED) as *mut u8;
    // Safety: nothing lives below the stack pointer of a function that calls others, and the thread's stack goes far below it.
    unsafe {
        for i in 0..PAINTED {
            low.add(i).write_volatile(PAINT);
        }
        black_box(call());
        let kept = (0..PAINTED).take_while(|i| low.add(*i).read_volatile() == PAINT).count();
        assert!(kept > 0, "a call used more stack than was painted");
        PAINTED - kept
    }
}

/// The map that the calls are tried on, and the deepest stack of each.
struct Tried {
    map: Vec<u16>,
    maps: Vec<Vec<u16>>,
    deepest: Vec<(&'static str, usize)>,
}

impl Tried {
    /// The call on each map.
    #[inline(always)]
    fn each(&mut self, name: &'static str, call: impl Fn(*mut u16, usize) -> Answer) {
        for start in &self.maps {
            self.map.copy_from_slice(start);
            let (s, count) = (self.map.as_mut_ptr(), self.map.len());
            let bytes = depth(|| call(s, count));
            match self.deepest.iter_mut().find(|(known, _)| *known == name) {
                Some((_, most)) => *most = bytes.max(*most),
                None => self.deepest.push((name, bytes)),
            }
        }
    }
}

// Safety of each call: the pointers and the counts are those of vectors, which nothing else refers to during the call.
fn tried() -> Vec<(&'static str, usize)> {
    let fragmented = Leaves::fragmented(7).words();
    let mut last = Leaves::taken(7);
    last.set(CAP - 1, CAP, true);
    let (free, taken) = (vec![0xffff; words(7)], vec![0; words(7)]);
    let mut t = Tried {
        map: free.clone(),
        maps: vec![free, taken, last.words(), fragmented],
        deepest: Vec::new(),
    };
    let keys = [0, 5, CAP / 2 - 1, CAP / 3 * 2, CAP - 1, CAP];
    let ranges = [
        (0, CAP),
        (1, CAP - 1),
        (CAP / 2 - 1, CAP / 2 + 1),
        (6, 26),
        (CAP / 4 + 5, CAP / 4 * 3 + 5),
    ];
    t.each("asogeren_alloc", |s, c| unsafe { sys::asogeren_alloc(s, c) });
    for (size, align_log2) in [(1, 0), (1, 28), (64, 4), (1000, 6), (5000, 0), (CAP / 2, 0), (CAP, 28)] {
        t.each("asogeren_alloc_contiguous", |s, c| unsafe {
            sys::asogeren_alloc_contiguous(s, c, size, align_log2)
        });
    }
    for (a, b) in ranges {
        t.each("asogeren_alloc_contiguous_at", |s, c| unsafe {
            sys::asogeren_alloc_contiguous_at(s, c, a, b - a, 0)
        });
    }
    for key in keys {
        t.each("asogeren_next", |s, c| unsafe { sys::asogeren_next(s, c, key) });
        t.each("asogeren_dealloc", |s, c| unsafe { sys::asogeren_dealloc(s, c, key) });
    }
    for (a, b) in ranges {
        t.each("asogeren_dealloc_contiguous", |s, c| unsafe {
            sys::asogeren_dealloc_contiguous(s, c, a, b - a)
        });
        t.each("asogeren_dealloc_contiguous_old", |s, c| unsafe {
            sys::asogeren_dealloc_contiguous_old(s, c, a, b - a)
        });
        t.each("asogeren_insert", |s, c| unsafe { sys::asogeren_insert(s, c, a, b) });
        t.each("asogeren_remove", |s, c| unsafe { sys::asogeren_remove(s, c, a, b) });
    }
    t.each("asogeren_is_empty", |s, c| unsafe { sys::asogeren_is_empty(s, c) });
    for key in keys {
        t.each("asogeren_test", |s, c| unsafe { sys::asogeren_test(s, c, key) });
    }
    t.each("asogeren_check", |s, c| unsafe { sys::asogeren_check(s, c) });
    let mut bytes = vec![0; plain::length(7)];
    let (b, count) = (bytes.as_mut_ptr(), bytes.len());
    t.each("asogeren_image_write", |s, c| unsafe {
        sys::asogeren_image_write(s, c, b, count)
    });
    // the image that was written last
    t.each("asogeren_image_read", |s, c| unsafe {
        sys::asogeren_image_read(b, count, s, c)
    });
    t.deepest
}

pub fn all() {
    let thread = std::thread::Builder::new().stack_size(16 * PAINTED).spawn(tried);
    for (name, bytes) in thread.expect("a thread").join().expect("the calls end") {
        println!("{name} {bytes}");
    }
}
