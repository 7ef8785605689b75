//! The seven sizes, as maps that own their words.

use core::fmt;

use crate::{Map, MapOf, Refusal, View};

mod sealed {
    pub trait Sealed {}
}

/// The seven sizes, [`BitAlloc16`] to [`BitAlloc256M`], for code that is written once for all of them. No other type has it.
///
/// ```
/// use asogeren::{BitAlloc256, BitAlloc4K, Refusal, Size};
///
/// /// A map with its lower half free.
/// fn half<S: Size>() -> Result<S, Refusal> {
///     let mut map = S::NEW;
///     map.map().insert(0..S::CAP / 2)?;
///     Ok(map)
/// }
///
/// assert_eq!(half::<BitAlloc256>()?.next(100), Ok(100));
/// assert_eq!(half::<BitAlloc4K>()?.next(2048), Err(Refusal::NoneFree));
/// # Ok::<(), Refusal>(())
/// ```
pub trait Size: sealed::Sealed + Clone + Default + Eq + fmt::Debug {
    /// How many positions the map has.
    const CAP: usize;

    /// How many words it is made of.
    const WORDS: usize;

    /// How many bytes its image has.
    const IMAGE_BYTES: usize;

    /// The map with every position taken.
    const NEW: Self;

    /// The map, lent to be looked at.
    fn view(&self) -> View<'_>;

    /// The map, lent to be changed.
    fn map(&mut self) -> Map<'_>;
}

/// What each size has. The constants are those of [`Size`], here without importing it.
impl<const W: usize> MapOf<[u16; W]>
where
    Self: Size,
{
    /// How many positions the map has.
    ///
    /// ```
    /// assert_eq!(asogeren::BitAlloc4K::CAP, 4096);
    /// ```
    pub const CAP: usize = <Self as Size>::CAP;

    /// How many words it is made of.
    ///
    /// ```
    /// assert_eq!(asogeren::BitAlloc4K::WORDS, 273);
    /// ```
    pub const WORDS: usize = W;

    /// How many bytes its image has.
    ///
    /// ```
    /// use asogeren::BitAlloc4K;
    ///
    /// let mut bytes = [0; BitAlloc4K::IMAGE_BYTES];
    /// assert_eq!(BitAlloc4K::NEW.image_write(&mut bytes), Ok(558));
    /// ```
    pub const IMAGE_BYTES: usize = <Self as Size>::IMAGE_BYTES;

    /// The map with every position taken. All its words are 0, so in a static it takes no room in the program's file.
    /// [`BitAlloc16M`] and [`BitAlloc256M`] are too large for most stacks: have them in a static, or their words in a `Vec`
    /// ([`MapOf`]).
    ///
    /// ```
    /// use asogeren::{BitAlloc4K, Refusal};
    /// use std::sync::Mutex;
    ///
    /// static RECORDS: Mutex<BitAlloc4K> = Mutex::new(BitAlloc4K::NEW);
    ///
    /// RECORDS.lock().unwrap().insert(0..100)?;
    /// assert_eq!(RECORDS.lock().unwrap().alloc(), Ok(0));
    /// # Ok::<(), Refusal>(())
    /// ```
    pub const NEW: Self = <Self as Size>::NEW;

    /// The map of an image of this size.
    ///
    /// # Errors
    /// [`BadImage`](Refusal::BadImage) where the bytes are not [`IMAGE_BYTES`](Self::IMAGE_BYTES), or a section has not its count;
    /// [`Untrue`](Refusal::Untrue) where the map is not true.
    ///
    /// ```
    /// use asogeren::{BitAlloc16, BitAlloc256, Refusal};
    ///
    /// let image = [1, 0, 0, 0, 0x0d, 0xf0];
    /// assert_eq!(BitAlloc16::image_read(&image)?.words(), [0xf00d]);
    /// assert_eq!(BitAlloc256::image_read(&image), Err(Refusal::BadImage));
    /// # Ok::<(), Refusal>(())
    /// ```
    pub fn image_read(bytes: &[u8]) -> Result<Self, Refusal> {
        // the library would read an image of a smaller map into the first of the words
        if bytes.len() != Self::IMAGE_BYTES {
            return Err(Refusal::BadImage);
        }
        let mut map = Self::NEW;
        Map::image_read(bytes, &mut map.words)?;
        Ok(map)
    }
}

/// The map with every position taken, as [`NEW`](Self::NEW).
///
/// ```
/// assert_eq!(asogeren::BitAlloc4K::default().is_empty(), Ok(true));
/// ```
impl<const W: usize> Default for MapOf<[u16; W]>
where
    Self: Size,
{
    fn default() -> Self {
        Self::NEW
    }
}

macro_rules! sizes {
    ($($name:ident, $cap:literal, $words:literal, $image:literal;)*) => {
        $(
            #[doc = concat!("A map of ", $cap, " positions in ", $words, " words of its own; its image has ", $image, " bytes.")]
            /// It has the calls of [`MapOf`].
            ///
            /// ```
            #[doc = concat!("use asogeren::", stringify!($name), ";")]
            ///
            #[doc = concat!("assert_eq!(", stringify!($name), "::CAP, ", $cap, ");")]
            #[doc = concat!("assert_eq!(", stringify!($name), "::WORDS, ", $words, ");")]
            #[doc = concat!("assert_eq!(", stringify!($name), "::IMAGE_BYTES, ", $image, ");")]
            /// ```
            pub type $name = MapOf<[u16; $words]>;

            impl sealed::Sealed for $name {}

            impl Size for $name {
                const CAP: usize = $cap;
                const WORDS: usize = $words;
                const IMAGE_BYTES: usize = $image;
                const NEW: Self = Self::new([0; $words]);

                fn view(&self) -> View<'_> {
                    self.view()
                }

                fn map(&mut self) -> Map<'_> {
                    self.map()
                }
            }
        )*
    };
}

sizes! {
    BitAlloc16, 16, 1, 6;
    BitAlloc256, 256, 17, 42;
    BitAlloc4K, 4_096, 273, 558;
    BitAlloc64K, 65_536, 4_369, 8_754;
    BitAlloc1M, 1_048_576, 69_905, 139_830;
    BitAlloc16M, 16_777_216, 1_118_481, 2_236_986;
    BitAlloc256M, 268_435_456, 17_895_697, 35_791_422;
}
