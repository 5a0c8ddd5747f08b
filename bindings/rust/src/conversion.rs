//! The checker of conversions.

use crate::{ffi, Refusal};

/// Where a key stood before a conversion and where it stands after it, by the numbers of its records.
#[repr(C)]
#[derive(Clone, Copy, Debug, PartialEq, Eq, Hash)]
pub struct Pair {
    /// The number of a record before.
    pub before: u64,
    /// The number of a record after.
    pub after: u64,
}

/// Whether no right grew in a conversion that somebody else made: texts of up to 32 records each, before and after, and
/// up to [`PAIRS`](crate::PAIRS) pairs. Each record after has to stand in exactly one pair, with a record before
/// that has the same key, version, algorithm, side, place and network, and a use that the use after lies within. A record
/// before may stand in no pair. Nothing is loaded.
///
/// Refused: 22 for a text that doesn't read or repeats a number; 23 for a list too long, else for the first pair
/// that names a number wrongly, else for a record after without a pair; 24 for the first pair that widens or differs.
///
/// ```
/// use card::{converted, Pair, Refusal};
///
/// let sheet = |number: u64, usage: &str| {
///     let key = "3f7a0c91d2e45b68a1f0937c5be2d48e06b9a37dc51f8e24";
///     format!("number={number}\nversion=17\nalg=TEA6\nuse={usage}\nside=0\nplace=28\nkey={key}\n")
/// };
/// let pairs = [Pair { before: 3, after: 9 }];
/// assert_eq!(converted(sheet(3, "BOTH").as_bytes(), sheet(9, "SEND").as_bytes(), &pairs), Ok(()));
/// let grown = converted(sheet(3, "SEND").as_bytes(), sheet(9, "BOTH").as_bytes(), &pairs);
/// assert_eq!(grown, Err(Refusal::PairDiffers { pair: 1 }));
/// ```
pub fn converted(before: &[u8], after: &[u8], pairs: &[Pair]) -> Result<(), Refusal> {
    ffi::converted(before, after, pairs)
}
