//! Why a call is refused.

use core::error::Error;
use core::fmt;

/// Why a call is refused, each with its number. There is a name for each that a call gives, and for no other; later versions have
/// more, so a `match` needs an arm for the rest.
///
/// | call | gives |
/// |---|---|
/// | every call on a map whose count of words is none of the seven | `WordCount` |
/// | [`alloc`](crate::MapOf::alloc) | `NoneFree`, `Untrue` |
/// | [`alloc_contiguous`](crate::MapOf::alloc_contiguous) | `Alignment`, `NoSize`, `PastEnd` (at a base), `NoneFree` |
/// | [`next`](crate::MapOf::next) | `NoneFree` |
/// | [`dealloc`](crate::MapOf::dealloc) | `PastEnd`, `AlreadyFree` |
/// | [`dealloc_contiguous`](crate::MapOf::dealloc_contiguous), [`dealloc_contiguous_old`](crate::MapOf::dealloc_contiguous_old) | `PastEnd`, `NoSize`, `AlreadyFree` |
/// | [`insert`](crate::MapOf::insert), [`remove`](crate::MapOf::remove) | `PastEnd`, `NoSize` |
/// | [`test`](crate::MapOf::test) | `PastEnd` |
/// | [`is_empty`](crate::MapOf::is_empty), [`check`](crate::MapOf::check) | no other |
/// | [`image_write`](crate::MapOf::image_write) | `Untrue`, `TooShort` |
/// | `image_read` of [`Map`](crate::Map) | `BadImage`, `TooShort`, `Untrue`; never `WordCount` |
/// | `image_read` of a size, as [`BitAlloc256`](crate::BitAlloc256) | `BadImage`, `Untrue`; never `WordCount` |
///
/// ```
/// use asogeren::Refusal;
///
/// assert_eq!(Refusal::AlreadyFree.number(), 6);
/// assert_eq!(Refusal::AlreadyFree.to_string(), "a position that is given back is free already (refusal 6)");
/// ```
#[derive(Clone, Copy, Debug, PartialEq, Eq, Hash)]
#[non_exhaustive]
pub enum Refusal {
    /// The count of words is not one of the seven.
    WordCount = 1,
    /// A position, or the end of a range, is past the map; or a range ends before it starts.
    PastEnd = 2,
    /// A size of 0, or an empty range.
    NoSize = 3,
    /// The alignment is larger than the map, or the base no multiple of it.
    Alignment = 4,
    /// No fitting position is free.
    NoneFree = 5,
    /// A position that is given back is free already.
    AlreadyFree = 6,
    /// The map's summary bits are not true.
    Untrue = 7,
    /// An image has a wrong length or a wrong section count.
    BadImage = 8,
    /// The target is too short.
    TooShort = 9,
}

impl Refusal {
    /// The refusal's number, as the C library has it.
    ///
    /// ```
    /// assert_eq!(asogeren::Refusal::TooShort.number(), 9);
    /// ```
    pub const fn number(self) -> u8 {
        self as u8
    }

    const fn text(self) -> &'static str {
        match self {
            Self::WordCount => "the count of words is not one of the seven",
            Self::PastEnd => "a position is past the end of the map, or a range ends before it starts",
            Self::NoSize => "the size is 0, or the range is empty",
            Self::Alignment => "the alignment is larger than the map, or the base is no multiple of it",
            Self::NoneFree => "no fitting position is free",
            Self::AlreadyFree => "a position that is given back is free already",
            Self::Untrue => "the map's summary bits are not true",
            Self::BadImage => "the image has a wrong length or a wrong section count",
            Self::TooShort => "the target is too short",
        }
    }
}

impl fmt::Display for Refusal {
    fn fmt(&self, f: &mut fmt::Formatter<'_>) -> fmt::Result {
        write!(f, "{} (refusal {})", self.text(), self.number())
    }
}

impl Error for Refusal {}

/// The refusal that has the number, as a C program may have stored it.
///
/// ```
/// use asogeren::{Refusal, UnknownRefusal};
///
/// assert_eq!(Refusal::try_from(6), Ok(Refusal::AlreadyFree));
/// assert_eq!(Refusal::try_from(0), Err(UnknownRefusal(0))); // not refused
/// assert_eq!(Refusal::try_from(10), Err(UnknownRefusal(10))); // printed by the line program, given by no call
/// ```
impl TryFrom<u64> for Refusal {
    type Error = UnknownRefusal;

    fn try_from(number: u64) -> Result<Self, UnknownRefusal> {
        Ok(match number {
            1 => Self::WordCount,
            2 => Self::PastEnd,
            3 => Self::NoSize,
            4 => Self::Alignment,
            5 => Self::NoneFree,
            6 => Self::AlreadyFree,
            7 => Self::Untrue,
            8 => Self::BadImage,
            9 => Self::TooShort,
            _ => return Err(UnknownRefusal(number)),
        })
    }
}

/// A number that is of no [`Refusal`]: no call of this version gives it.
///
/// ```
/// use asogeren::UnknownRefusal;
///
/// assert_eq!(UnknownRefusal(11).to_string(), "no call gives the refusal 11");
/// ```
#[derive(Clone, Copy, Debug, PartialEq, Eq, Hash)]
pub struct UnknownRefusal(
    /// The number.
    pub u64,
);

impl fmt::Display for UnknownRefusal {
    fn fmt(&self, f: &mut fmt::Formatter<'_>) -> fmt::Result {
        write!(f, "no call gives the refusal {}", self.0)
    }
}

impl Error for UnknownRefusal {}
