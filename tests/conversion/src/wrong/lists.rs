//! What is tested of the list of pairs, and in which order.

use second::conversion::{first_pair, pairs_of, refused, with_number, Pair, TESTS};
use second::records::Record;

use super::{in_order, right, with, Checker, GROWN, LEFT_OUT, MISNAMED, TOO_LONG};

pub fn orders() -> Vec<Checker> {
    vec![
        in_order("24 before 23", &[TOO_LONG, GROWN, MISNAMED, LEFT_OUT]),
        in_order(
            "24 before a record left out",
            &[TOO_LONG, MISNAMED, GROWN, LEFT_OUT],
        ),
        in_order(
            "a record left out before a wrong name",
            &[TOO_LONG, LEFT_OUT, MISNAMED, GROWN],
        ),
        in_order(
            "a wrong name before a long list",
            &[MISNAMED, TOO_LONG, LEFT_OUT, GROWN],
        ),
        in_order(
            "an after record without a pair passes",
            &[TOO_LONG, MISNAMED, GROWN],
        ),
        in_order("33 pairs pass as they are", &[MISNAMED, LEFT_OUT, GROWN]),
        in_order("names not tested", &[TOO_LONG, LEFT_OUT, GROWN]),
        Checker {
            told: |conversion, answer| match conversion.numbers.len() {
                65.. => refused(23, 0),
                _ => answer,
            },
            ..right("a long list is refused before the texts")
        },
    ]
}

pub fn names() -> Vec<Checker> {
    vec![
        with("32 pairs are refused", TOO_LONG, |_, pairs| {
            (pairs.len() > 31).then_some(refused(23, 0))
        }),
        with(
            "the earlier of two repeated pairs is named",
            MISNAMED,
            |sets, pairs| {
                let found = TESTS[MISNAMED](sets, pairs)?;
                let pair = pairs[found.place as usize - 1];
                let repeats =
                    |_, other: &Pair| other.before == pair.before || other.after == pair.after;
                first_pair(23, pairs, repeats)
            },
        ),
        with("sides are not apart", MISNAMED, |sets, pairs| {
            TESTS[MISNAMED](sets, pairs).or_else(|| {
                first_pair(23, pairs, |place, pair| {
                    let other_side =
                        |other: &Pair| [other.before, other.after] == [pair.after, pair.before];
                    pairs[..place].iter().any(other_side)
                })
            })
        }),
        with(
            "a number may be named twice before",
            MISNAMED,
            |sets, pairs| {
                first_pair(23, pairs, |place, pair| {
                    with_number(&sets.before, pair.before).is_none()
                        || with_number(&sets.after, pair.after).is_none()
                        || pairs[..place].iter().any(|other| other.after == pair.after)
                })
            },
        ),
        with(
            "a before record has to stand in a pair",
            LEFT_OUT,
            |sets, pairs| {
                let paired =
                    |record: &Record| pairs.iter().any(|pair| pair.before == Some(record.number));
                TESTS[LEFT_OUT](sets, pairs)
                    .or_else(|| (!sets.before.iter().all(paired)).then_some(refused(23, 0)))
            },
        ),
    ]
}

/// The numbers without their upper bits.
fn cut(numbers: &[u64], kept: u64) -> Vec<Pair> {
    let cut: Vec<u64> = numbers.iter().map(|number| number & kept).collect();
    pairs_of(&cut)
}

pub fn numbers() -> Vec<Checker> {
    vec![
        Checker {
            pairs: |numbers| pairs_of(&numbers[..numbers.len() & !1]),
            ..right("the last number of an odd count is passed over")
        },
        Checker {
            pairs: |numbers| cut(numbers, 0xff),
            ..right("numbers are cut to a byte")
        },
        Checker {
            pairs: |numbers| cut(numbers, 0xffff_ffff),
            ..right("numbers are cut to 32 bits")
        },
        Checker {
            told: |_, answer| refused(answer.refusal, answer.place.saturating_sub(1)),
            ..right("places are counted from 0")
        },
        Checker {
            told: |_, answer| match answer.refusal {
                24 => refused(24, 0),
                _ => answer,
            },
            ..right("24 gives no place")
        },
    ]
}
