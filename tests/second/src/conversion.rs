//! The checker of a conversion that somebody else made (document 02, [11]), from the document's text: the records of a text
//! stand in a list, and what is asked of a number is asked by going through that list. Nothing is loaded.

use crate::records::{parse, Record};
use crate::refusals::*;
use crate::slots::BOTH;

/// The longest list of pairs.
pub const MOST_PAIRS: usize = 32;

/// A pair of the list. What is no number is a number that is not there.
#[derive(Clone, Copy, Debug, PartialEq, Eq)]
pub struct Pair {
    pub before: Option<u64>,
    pub after: Option<u64>,
}

#[derive(Clone, Copy, Debug, PartialEq, Eq)]
pub struct Answer {
    pub refusal: Refusal,
    /// The place of the pair that is refused, counted from 1; 0 where none is.
    pub place: u64,
}

/// The records before and after.
pub struct Sets {
    pub before: Vec<Record>,
    pub after: Vec<Record>,
}

/// A test of two sets that were read: its refusal, or nothing where it is passed.
pub type Test = fn(&Sets, &[Pair]) -> Option<Answer>;

/// In the document's order.
pub const TESTS: [Test; 4] = [list_too_long, pair_misnamed, record_left_out, pair_grown];

pub fn converted(before: &[u8], after: &[u8], pairs: &[Pair]) -> Answer {
    judged(records_of, &TESTS, [before, after], pairs)
}

/// 22 where a text doesn't read; then the first refusal of the tests in order.
pub fn judged(
    read: fn(&[u8]) -> Option<Vec<Record>>,
    tests: &[Test],
    [before, after]: [&[u8]; 2],
    pairs: &[Pair],
) -> Answer {
    let (Some(before), Some(after)) = (read(before), read(after)) else {
        return refused(CONVERSION_TEXT_BAD, 0);
    };
    let sets = Sets { before, after };
    tests
        .iter()
        .find_map(|test| test(&sets, pairs))
        .unwrap_or(refused(DONE, 0))
}

pub fn refused(refusal: Refusal, place: u64) -> Answer {
    Answer { refusal, place }
}

/// The records of a text, if all of it reads and no number stands twice.
pub fn records_of(text: &[u8]) -> Option<Vec<Record>> {
    let mut records: Vec<Record> = Vec::new();
    let mut rest = text;
    while !rest.is_empty() {
        let record = parse(rest).ok()?;
        if with_number(&records, Some(record.number)).is_some() {
            return None;
        }
        rest = &rest[record.length..];
        records.push(record);
    }
    Some(records)
}

pub fn with_number(records: &[Record], number: Option<u64>) -> Option<&Record> {
    records.iter().find(|record| Some(record.number) == number)
}

fn list_too_long(_: &Sets, pairs: &[Pair]) -> Option<Answer> {
    (pairs.len() > MOST_PAIRS).then_some(refused(CONVERSION_PAIR_BAD, 0))
}

/// The first pair of which this holds, given its place from 0 on.
pub fn first_pair(
    refusal: Refusal,
    pairs: &[Pair],
    holds: impl Fn(usize, &Pair) -> bool,
) -> Option<Answer> {
    let place = (0..pairs.len()).find(|&place| holds(place, &pairs[place]))?;
    Some(refused(refusal, place as u64 + 1))
}

/// A number that is not there, or that an earlier pair names on its side.
fn pair_misnamed(sets: &Sets, pairs: &[Pair]) -> Option<Answer> {
    first_pair(CONVERSION_PAIR_BAD, pairs, |place, pair| {
        let earlier = &pairs[..place];
        with_number(&sets.before, pair.before).is_none()
            || with_number(&sets.after, pair.after).is_none()
            || earlier.iter().any(|other| other.before == pair.before)
            || earlier.iter().any(|other| other.after == pair.after)
    })
}

/// A record after the conversion that stands in no pair.
fn record_left_out(sets: &Sets, pairs: &[Pair]) -> Option<Answer> {
    let paired = |record: &Record| pairs.iter().any(|pair| pair.after == Some(record.number));
    let all = sets.after.iter().all(paired);
    (!all).then_some(refused(CONVERSION_PAIR_BAD, 0))
}

/// A pair that widens or differs.
fn pair_grown(sets: &Sets, pairs: &[Pair]) -> Option<Answer> {
    pair_unlike(sets, pairs, agree)
}

/// The first pair of which both records are there and don't stand to each other like this.
pub fn pair_unlike(
    sets: &Sets,
    pairs: &[Pair],
    alike: impl Fn(&Record, &Record) -> bool,
) -> Option<Answer> {
    first_pair(CONVERSION_GROWS, pairs, |_, pair| {
        let before = with_number(&sets.before, pair.before);
        let after = with_number(&sets.after, pair.after);
        before.zip(after).is_some_and(|(b, a)| !alike(b, a))
    })
}

/// Key, version, algorithm, side, place and network are the same, and the use lies within the use before.
pub fn agree(before: &Record, after: &Record) -> bool {
    let (old, new) = (&before.fields, &after.fields);
    before.key == after.key
        && old.version == new.version
        && old.algorithm == new.algorithm
        && old.side == new.side
        && old.place == new.place
        && (old.mcc, old.mnc) == (new.mcc, new.mnc)
        && within(new.usage, old.usage)
}

/// Of sending, receiving and both: a use lies within itself and within both.
pub fn within(usage: u64, other: u64) -> bool {
    usage == other || other == BOTH
}

/// A flat list of numbers as pairs. The last number of an odd count has no other.
pub fn pairs_of(numbers: &[u64]) -> Vec<Pair> {
    let pair = |two: &[u64]| Pair {
        before: two.first().copied(),
        after: two.get(1).copied(),
    };
    numbers.chunks(2).map(pair).collect()
}
