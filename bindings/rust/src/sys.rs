//! The calls as the archive exports them. `bindings/declarations` holds this file against the Rattle source.

use crate::Refusal;

/// What every call returns: refusal 0 and a value, or a refusal's number and value 0.
#[repr(C)]
pub struct Answer {
    pub refusal: u64,
    pub value: u64,
}

impl Answer {
    /// A position or a count.
    pub fn value(self) -> Result<usize, Refusal> {
        match self.refusal {
            // a usize has 64 bits here
            0 => Ok(self.value as usize),
            // it is proved of every call that its number is one of these
            n => Err(Refusal::try_from(n).expect("the archive is of this version")),
        }
    }

    /// A change, whose value says nothing.
    pub fn done(self) -> Result<(), Refusal> {
        self.value().map(|_| ())
    }

    /// A test, whose value is 1 for yes and 0 for not.
    pub fn told(self) -> Result<bool, Refusal> {
        self.value().map(|value| value == 1)
    }
}

extern "C" {
    pub fn asogeren_alloc(store: *mut u16, store_count: usize) -> Answer;
    pub fn asogeren_alloc_contiguous(store: *mut u16, store_count: usize, size: usize, align_log2: usize) -> Answer;
    pub fn asogeren_alloc_contiguous_at(
        store: *mut u16,
        store_count: usize,
        base: usize,
        size: usize,
        align_log2: usize,
    ) -> Answer;
    pub fn asogeren_next(store: *const u16, store_count: usize, key: usize) -> Answer;
    pub fn asogeren_dealloc(store: *mut u16, store_count: usize, key: usize) -> Answer;
    pub fn asogeren_dealloc_contiguous(store: *mut u16, store_count: usize, base: usize, size: usize) -> Answer;
    pub fn asogeren_dealloc_contiguous_old(store: *mut u16, store_count: usize, base: usize, size: usize) -> Answer;
    pub fn asogeren_insert(store: *mut u16, store_count: usize, start: usize, end: usize) -> Answer;
    pub fn asogeren_remove(store: *mut u16, store_count: usize, start: usize, end: usize) -> Answer;
    pub fn asogeren_is_empty(store: *const u16, store_count: usize) -> Answer;
    pub fn asogeren_test(store: *const u16, store_count: usize, key: usize) -> Answer;
    pub fn asogeren_check(store: *const u16, store_count: usize) -> Answer;
    pub fn asogeren_image_write(store: *const u16, store_count: usize, target: *mut u8, target_count: usize) -> Answer;
    pub fn asogeren_image_read(bytes: *const u8, bytes_count: usize, target: *mut u16, target_count: usize) -> Answer;
}
