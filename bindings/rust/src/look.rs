//! The calls that change nothing.

use crate::{sys, MapOf, Refusal, View};

// SAFETY of every call below: the pointer and the count are those of a slice, which is lent for the whole call, and the calls are total.
impl<W: AsRef<[u16]>> MapOf<W> {
    /// The words as they stand.
    ///
    /// ```
    /// let mut map = asogeren::BitAlloc256::NEW;
    /// map.insert(0..16)?;
    /// assert_eq!(map.words()[..3], [0x0001, 0xffff, 0]);
    /// # Ok::<(), asogeren::Refusal>(())
    /// ```
    pub fn words(&self) -> &[u16] {
        self.words.as_ref()
    }

    /// The map, lent to be looked at.
    ///
    /// ```
    /// use asogeren::{BitAlloc16, View};
    ///
    /// fn first(map: View) -> usize {
    ///     map.next(0).unwrap_or(BitAlloc16::CAP)
    /// }
    ///
    /// let mut map = BitAlloc16::NEW;
    /// assert_eq!(first(map.view()), 16);
    /// map.insert(3..9)?;
    /// assert_eq!(first(map.view()), 3);
    /// # Ok::<(), asogeren::Refusal>(())
    /// ```
    pub fn view(&self) -> View<'_> {
        View::new(self.words())
    }

    /// The lowest free position that is `key` or more. It stays free.
    ///
    /// # Errors
    /// [`NoneFree`](Refusal::NoneFree) where there is none, as where `key` is past the end.
    ///
    /// ```
    /// use asogeren::{Refusal, View};
    ///
    /// let map = View::new(&[0b1001]);
    /// assert_eq!(map.next(1), Ok(3));
    /// assert_eq!(map.next(4), Err(Refusal::NoneFree));
    /// ```
    pub fn next(&self, key: usize) -> Result<usize, Refusal> {
        let store = self.words();
        unsafe { sys::asogeren_next(store.as_ptr(), store.len(), key) }.value()
    }

    /// Whether the first word is 0, which in a true map says that no position is free.
    ///
    /// # Errors
    /// [`WordCount`](Refusal::WordCount) alone.
    ///
    /// ```
    /// use asogeren::View;
    ///
    /// assert_eq!(View::new(&[0]).is_empty(), Ok(true));
    /// assert_eq!(View::new(&[1]).is_empty(), Ok(false));
    /// ```
    pub fn is_empty(&self) -> Result<bool, Refusal> {
        let store = self.words();
        unsafe { sys::asogeren_is_empty(store.as_ptr(), store.len()) }.told()
    }

    /// Whether the leaf bit of the position `key` is set, which in a true map says that it is free.
    ///
    /// # Errors
    /// [`PastEnd`](Refusal::PastEnd) where `key` is past the end.
    ///
    /// ```
    /// use asogeren::{Refusal, View};
    ///
    /// let map = View::new(&[0b1001]);
    /// assert_eq!(map.test(3), Ok(true));
    /// assert_eq!(map.test(2), Ok(false));
    /// assert_eq!(map.test(16), Err(Refusal::PastEnd));
    /// ```
    pub fn test(&self, key: usize) -> Result<bool, Refusal> {
        let store = self.words();
        unsafe { sys::asogeren_test(store.as_ptr(), store.len(), key) }.told()
    }

    /// Whether the map is true: each summary bit says whether its child's own word is not 0.
    ///
    /// # Errors
    /// [`WordCount`](Refusal::WordCount) alone.
    ///
    /// ```
    /// use asogeren::{BitAlloc256, View};
    ///
    /// let mut words = [0; BitAlloc256::WORDS];
    /// words[1] = 0x8000; // position 15, of which the own word says nothing
    /// assert_eq!(View::new(&words).check(), Ok(false));
    /// words[0] = 0x0001;
    /// assert_eq!(View::new(&words).check(), Ok(true));
    /// ```
    pub fn check(&self) -> Result<bool, Refusal> {
        let store = self.words();
        unsafe { sys::asogeren_check(store.as_ptr(), store.len()) }.told()
    }

    /// Writes the image of the map to the first bytes of the target, and answers how many. The bytes behind them stay.
    ///
    /// An image has a section for each level, from the single top word down to the leaves: the count of its words as 4 bytes,
    /// lowest byte first, then the words in rising order of position, 2 bytes each, lowest byte first. Its length is the size's
    /// `IMAGE_BYTES`.
    ///
    /// # Errors
    /// [`Untrue`](Refusal::Untrue) where the map is not true; [`TooShort`](Refusal::TooShort) where the target is shorter than the
    /// image.
    ///
    /// ```
    /// use asogeren::{Refusal, View};
    ///
    /// let map = View::new(&[0xf00d]);
    /// let mut bytes = [0; 8];
    /// assert_eq!(map.image_write(&mut bytes), Ok(6));
    /// assert_eq!(bytes, [1, 0, 0, 0, 0x0d, 0xf0, 0, 0]);
    /// assert_eq!(map.image_write(&mut bytes[..5]), Err(Refusal::TooShort));
    /// ```
    pub fn image_write(&self, target: &mut [u8]) -> Result<usize, Refusal> {
        let store = self.words();
        unsafe { sys::asogeren_image_write(store.as_ptr(), store.len(), target.as_mut_ptr(), target.len()) }.value()
    }
}
