//! The refusals: their names, numbers and sentences.

use asogeren::Refusal::{Alignment, AlreadyFree, BadImage, NoSize, NoneFree, PastEnd, TooShort, Untrue, WordCount};
use asogeren::{Refusal, UnknownRefusal};

/// Every refusal that a call gives, in the order of the numbers.
const ALL: [Refusal; 9] = [
    WordCount,
    PastEnd,
    NoSize,
    Alignment,
    NoneFree,
    AlreadyFree,
    Untrue,
    BadImage,
    TooShort,
];

#[test]
fn each_has_its_number() {
    for (i, refusal) in ALL.into_iter().enumerate() {
        assert_eq!(refusal.number() as usize, i + 1);
        assert!(refusal.to_string().ends_with(&format!("(refusal {})", i + 1)));
    }
}

#[test]
fn each_has_a_sentence_of_its_own() {
    for a in ALL {
        assert_eq!(ALL.iter().filter(|b| b.to_string() == a.to_string()).count(), 1);
    }
}

#[test]
fn from_a_number() {
    for number in 0..=20 {
        let named = Refusal::try_from(number);
        match number {
            1..=9 => assert_eq!(named, Ok(ALL[number as usize - 1])),
            // 10 is printed by the line program alone, and 11 to 18 are of calls that are still to come
            _ => assert_eq!(named, Err(UnknownRefusal(number))),
        }
    }
    assert_eq!(Refusal::try_from(u64::MAX), Err(UnknownRefusal(u64::MAX)));
    assert_eq!(Refusal::try_from(1 << 32 | 1), Err(UnknownRefusal(1 << 32 | 1)));
}

#[test]
fn both_are_errors() {
    fn said(number: u64) -> Result<String, Box<dyn std::error::Error>> {
        Ok(Refusal::try_from(number)?.to_string())
    }
    assert_eq!(said(5).unwrap(), "no fitting position is free (refusal 5)");
    assert_eq!(said(10).unwrap_err().to_string(), "no call gives the refusal 10");
}
