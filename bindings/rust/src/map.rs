//! The map and its kinds, by who has the words.

use core::{fmt, iter};

/// A map in words that are lent or owned. [`View`], [`Map`] and the seven sizes, [`BitAlloc16`](crate::BitAlloc16) to
/// [`BitAlloc256M`](crate::BitAlloc256M), are names of it. Each call is here once, for all whose words it may read or write.
///
/// Other words that are a slice do as well, such as a `Vec` where a map is too large for the stack:
///
/// ```
/// use asogeren::{BitAlloc16M, MapOf};
///
/// let mut map = MapOf::new(vec![0; BitAlloc16M::WORDS]);
/// map.insert(10_000_000..10_000_100)?;
/// assert_eq!(map.alloc(), Ok(10_000_000));
/// # Ok::<(), asogeren::Refusal>(())
/// ```
///
/// `{:?}` draws the free stretches, those that [`next`](Self::next) goes through. `check` tells whether the map is true.
///
/// ```
/// let mut map = asogeren::BitAlloc256::NEW;
/// map.insert(0..16)?;
/// map.remove(2..8)?;
/// assert_eq!(format!("{map:?}"), "Map { words: 17, free: [0..2, 8..16], check: Ok(true) }");
/// # Ok::<(), asogeren::Refusal>(())
/// ```
#[derive(Clone, PartialEq, Eq, Hash)]
pub struct MapOf<W> {
    pub(crate) words: W,
}

/// A map over words that are lent to be looked at. It has the calls of [`MapOf`] that change nothing, and can be copied.
///
/// ```
/// use asogeren::{BitAlloc256, View};
///
/// /// The records of a controller, of which anyone may ask.
/// struct Records {
///     free: [u16; BitAlloc256::WORDS],
/// }
///
/// impl Records {
///     fn is_free(&self, record: usize) -> bool {
///         View::new(&self.free).test(record) == Ok(true)
///     }
/// }
///
/// let records = Records { free: [0; BitAlloc256::WORDS] };
/// assert!(!records.is_free(7));
/// ```
///
/// What would change words is not there:
///
/// ```compile_fail
/// asogeren::View::new(&[1]).alloc();
/// ```
pub type View<'a> = MapOf<&'a [u16]>;

/// A map over words that are lent to be changed. It has the calls of [`MapOf`].
///
/// ```
/// use asogeren::{BitAlloc256, Map};
///
/// let mut words = [0; BitAlloc256::WORDS];
/// let mut map = Map::new(&mut words);
/// map.insert(0..16)?;
/// assert_eq!(map.alloc(), Ok(0));
/// assert_eq!(words[..3], [0x0001, 0xfffe, 0]);
/// # Ok::<(), asogeren::Refusal>(())
/// ```
pub type Map<'a> = MapOf<&'a mut [u16]>;

// A view alone: a map that owns its words and is copied by a slip would hand out each position twice.
impl Copy for View<'_> {}

impl<W: AsRef<[u16]>> MapOf<W> {
    /// The map that the words are. Where their count is none of the seven, each call answers
    /// [`Refusal::WordCount`](crate::Refusal::WordCount).
    ///
    /// ```
    /// use asogeren::{BitAlloc256, Map, Refusal, View};
    ///
    /// assert_eq!(View::new(&[0; BitAlloc256::WORDS]).is_empty(), Ok(true));
    /// assert_eq!(Map::new(&mut [0; 18]).alloc(), Err(Refusal::WordCount));
    /// ```
    pub const fn new(words: W) -> Self {
        Self { words }
    }
}

impl<W: AsRef<[u16]>> fmt::Debug for MapOf<W> {
    fn fmt(&self, f: &mut fmt::Formatter<'_>) -> fmt::Result {
        f.debug_struct("Map")
            .field("words", &self.words().len())
            .field("free", &Free(self.view()))
            .field("check", &self.check())
            .finish()
    }
}

/// The free stretches of a map, in rising order.
struct Free<'a>(View<'a>);

impl fmt::Debug for Free<'_> {
    fn fmt(&self, f: &mut fmt::Formatter<'_>) -> fmt::Result {
        let mut from = 0;
        let stretches = iter::from_fn(|| {
            let start = self.0.next(from).ok()?;
            from = start + 1;
            while self.0.next(from) == Ok(from) {
                from += 1;
            }
            Some(start..from)
        });
        f.debug_list().entries(stretches).finish()
    }
}
