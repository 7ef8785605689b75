//! The calls that change the map.

use core::ops::Range;

use crate::{sys, Map, MapOf, Refusal};

// SAFETY of every call below: the pointer and the count are those of a slice, which is lent for the whole call to be written, and the
// calls are total.
impl<W: AsMut<[u16]>> MapOf<W> {
    /// The map, lent to be changed.
    ///
    /// ```
    /// use asogeren::{BitAlloc16, BitAlloc256, Map, Refusal};
    ///
    /// /// Code for maps of every size.
    /// fn first_two(mut map: Map) -> Result<(), Refusal> {
    ///     map.insert(0..2)
    /// }
    ///
    /// let (mut small, mut large) = (BitAlloc16::NEW, BitAlloc256::NEW);
    /// first_two(small.map())?;
    /// first_two(large.map())?;
    /// assert_eq!((small.alloc(), large.alloc()), (Ok(0), Ok(0)));
    /// # Ok::<(), Refusal>(())
    /// ```
    pub fn map(&mut self) -> Map<'_> {
        Map::new(self.words.as_mut())
    }

    /// Takes the lowest free position. From the leaf word up, a word is stored only where one of its bits is cleared: above the
    /// first word that did not become 0, nothing is stored.
    ///
    /// # Errors
    /// [`NoneFree`](Refusal::NoneFree) where the first word is 0; [`Untrue`](Refusal::Untrue) where the lowest set bits lead to a
    /// word that is 0.
    ///
    /// ```
    /// use asogeren::{Map, Refusal};
    ///
    /// let mut words = [0b1001];
    /// let mut map = Map::new(&mut words);
    /// assert_eq!(map.alloc(), Ok(0));
    /// assert_eq!(map.alloc(), Ok(3));
    /// assert_eq!(map.alloc(), Err(Refusal::NoneFree));
    /// ```
    pub fn alloc(&mut self) -> Result<usize, Refusal> {
        let store = self.words.as_mut();
        unsafe { sys::asogeren_alloc(store.as_mut_ptr(), store.len()) }.value()
    }

    /// Takes `size` free positions in a row, from the lowest multiple of 2<sup>`align_log2`</sup> where that is possible, or from
    /// the given base.
    ///
    /// # Errors
    /// [`Alignment`](Refusal::Alignment) where `align_log2` is 64 or more, 2<sup>`align_log2`</sup> more than the positions, or the
    /// base no multiple of it; [`NoSize`](Refusal::NoSize) where `size` is 0; [`PastEnd`](Refusal::PastEnd) where the base and
    /// `size` together are more than the positions; [`NoneFree`](Refusal::NoneFree) where no such run is free.
    ///
    /// ```
    /// use asogeren::{BitAlloc256, Refusal};
    ///
    /// let mut map = BitAlloc256::NEW;
    /// map.insert(14..20)?;
    /// assert_eq!(map.alloc_contiguous(None, 6, 2), Err(Refusal::NoneFree));
    /// assert_eq!(map.alloc_contiguous(Some(18), 2, 2), Err(Refusal::Alignment));
    /// assert_eq!(map.alloc_contiguous(Some(18), 2, 1), Ok(18));
    /// assert_eq!(map.alloc_contiguous(None, 4, 1), Ok(14));
    /// assert_eq!(map.is_empty(), Ok(true));
    /// # Ok::<(), Refusal>(())
    /// ```
    pub fn alloc_contiguous(&mut self, base: Option<usize>, size: usize, align_log2: usize) -> Result<usize, Refusal> {
        let store = self.words.as_mut();
        let (store, count) = (store.as_mut_ptr(), store.len());
        match base {
            None => unsafe { sys::asogeren_alloc_contiguous(store, count, size, align_log2) },
            Some(base) => unsafe { sys::asogeren_alloc_contiguous_at(store, count, base, size, align_log2) },
        }
        .value()
    }

    /// Gives the position `key` back. From the leaf word up, a word's bit in the word above it is set only where that word was 0
    /// and is not now. Above the first word that did not go so, nothing is stored: in a map whose summary bits are not true, the
    /// bits there stay as they are.
    ///
    /// # Errors
    /// [`PastEnd`](Refusal::PastEnd) where `key` is past the end; [`AlreadyFree`](Refusal::AlreadyFree) where its leaf bit is set.
    ///
    /// ```
    /// use asogeren::{BitAlloc16, Map, Refusal};
    ///
    /// let mut map = BitAlloc16::NEW;
    /// assert_eq!(map.dealloc(5), Ok(()));
    /// assert_eq!(map.dealloc(5), Err(Refusal::AlreadyFree));
    /// assert_eq!(map.dealloc(16), Err(Refusal::PastEnd));
    ///
    /// // Not a true map: the first leaf word is not 0, and its summary bit is clear. The leaf word stays not 0, so that bit stays.
    /// let mut words = [0; 17];
    /// words[1] = 0b10;
    /// assert_eq!(Map::new(&mut words).dealloc(0), Ok(()));
    /// assert_eq!(words[..2], [0, 0b11]);
    /// ```
    pub fn dealloc(&mut self, key: usize) -> Result<(), Refusal> {
        let store = self.words.as_mut();
        unsafe { sys::asogeren_dealloc(store.as_mut_ptr(), store.len(), key) }.done()
    }

    /// Gives the `size` positions from `base` on back: all of them, or none.
    ///
    /// # Errors
    /// [`PastEnd`](Refusal::PastEnd) where `base` and `size` together are more than the positions; [`NoSize`](Refusal::NoSize)
    /// where `size` is 0; [`AlreadyFree`](Refusal::AlreadyFree) where the leaf bit of one of them is set.
    ///
    /// ```
    /// use asogeren::{BitAlloc256, Refusal};
    ///
    /// let mut map = BitAlloc256::NEW;
    /// map.insert(20..21)?;
    /// assert_eq!(map.dealloc_contiguous(0, 32), Err(Refusal::AlreadyFree));
    /// assert_eq!(map.words()[..3], [0x0002, 0x0000, 0x0010]);
    /// assert_eq!(map.dealloc_contiguous(0, 20), Ok(()));
    /// assert_eq!(map.words()[..3], [0x0003, 0xffff, 0x001f]);
    /// # Ok::<(), Refusal>(())
    /// ```
    pub fn dealloc_contiguous(&mut self, base: usize, size: usize) -> Result<(), Refusal> {
        let store = self.words.as_mut();
        unsafe { sys::asogeren_dealloc_contiguous(store.as_mut_ptr(), store.len(), base, size) }.done()
    }

    /// Gives the `size` positions from `base` on back, as the crate bitmap-allocator does it.
    ///
    /// # Errors
    /// As [`dealloc_contiguous`](Self::dealloc_contiguous). [`AlreadyFree`](Refusal::AlreadyFree) may change words here: leaf words
    /// are visited in rising order, and in the first that has some of the run free already, and in all later ones, nothing is
    /// freed; the earlier ones have been freed.
    ///
    /// ```
    /// use asogeren::{BitAlloc256, Refusal};
    ///
    /// let mut map = BitAlloc256::NEW;
    /// map.insert(20..21)?;
    /// assert_eq!(map.dealloc_contiguous_old(0, 32), Err(Refusal::AlreadyFree));
    /// assert_eq!(map.words()[..3], [0x0003, 0xffff, 0x0010]);
    /// assert_eq!(map.dealloc_contiguous_old(21, 11), Ok(()));
    /// # Ok::<(), Refusal>(())
    /// ```
    pub fn dealloc_contiguous_old(&mut self, base: usize, size: usize) -> Result<(), Refusal> {
        let store = self.words.as_mut();
        unsafe { sys::asogeren_dealloc_contiguous_old(store.as_mut_ptr(), store.len(), base, size) }.done()
    }

    /// Makes the positions of the range free; some or all may be so already.
    ///
    /// # Errors
    /// [`PastEnd`](Refusal::PastEnd) where the range ends before it starts or past the map; [`NoSize`](Refusal::NoSize) where it is
    /// empty.
    ///
    /// ```
    /// use asogeren::{BitAlloc16, Refusal};
    ///
    /// let mut map = BitAlloc16::NEW;
    /// assert_eq!(map.insert(4..8), Ok(()));
    /// assert_eq!(map.words(), [0x00f0]);
    /// assert_eq!(map.insert(0..17), Err(Refusal::PastEnd));
    /// assert_eq!(map.insert(8..8), Err(Refusal::NoSize));
    /// ```
    pub fn insert(&mut self, range: Range<usize>) -> Result<(), Refusal> {
        let store = self.words.as_mut();
        unsafe { sys::asogeren_insert(store.as_mut_ptr(), store.len(), range.start, range.end) }.done()
    }

    /// Makes the positions of the range taken; some or all may be so already.
    ///
    /// # Errors
    /// As [`insert`](Self::insert).
    ///
    /// ```
    /// use asogeren::Map;
    ///
    /// let mut words = [0xffff];
    /// assert_eq!(Map::new(&mut words).remove(4..8), Ok(()));
    /// assert_eq!(words, [0xff0f]);
    /// ```
    pub fn remove(&mut self, range: Range<usize>) -> Result<(), Refusal> {
        let store = self.words.as_mut();
        unsafe { sys::asogeren_remove(store.as_mut_ptr(), store.len(), range.start, range.end) }.done()
    }
}

impl<'a> Map<'a> {
    /// Reads an image into the first of the words, and answers the map that they then are. The words behind them stay, and there
    /// may be any count of them. Each size has an `image_read` of its own, which makes a map that owns its words.
    ///
    /// # Errors
    /// [`BadImage`](Refusal::BadImage) where the bytes have not the length of an image, or a section has not its count;
    /// [`TooShort`](Refusal::TooShort) where there are fewer words than the map has; [`Untrue`](Refusal::Untrue) where the map is
    /// not true.
    ///
    /// ```
    /// use asogeren::{Map, Refusal};
    ///
    /// let mut words = [0; 20];
    /// let mut map = Map::image_read(&[1, 0, 0, 0, 0x0d, 0xf0], &mut words)?;
    /// assert_eq!(map.words(), [0xf00d]);
    /// assert_eq!(map.alloc(), Ok(0));
    /// assert_eq!(Map::image_read(&[1, 0, 0, 0], &mut words).err(), Some(Refusal::BadImage));
    /// # Ok::<(), Refusal>(())
    /// ```
    pub fn image_read(bytes: &[u8], words: &'a mut [u16]) -> Result<Self, Refusal> {
        let (target, count) = (words.as_mut_ptr(), words.len());
        let levels = unsafe { sys::asogeren_image_read(bytes.as_ptr(), bytes.len(), target, count) }.value()?;
        let read = (0..levels).fold(0, |words, _| 1 + 16 * words);
        Ok(Self::new(&mut words[..read]))
    }
}
