//! The checker of conversions answers as the second program does, and each of its refusals says what to look at.
#![cfg(feature = "conversion")]

use card::{converted, Pair, Refusal, PAIRS};
use second::conversion::{converted as second_converted, pairs_of};

const GOOD: &str = include_str!("../../../samples/conversion.txt");
const GROWN: &str = include_str!("../../../samples/grown.txt");
const HEADER: &str = include_str!("../../../include/card_converted.h");

/// The records before and after of a sample.
fn texts(sample: &str) -> [&str; 2] {
    let (before, rest) = sample.split_once("\n\n").unwrap();
    let (after, _) = rest.split_once("\n\n").unwrap();
    // the LF of each text's last line is the first of the two
    [before, after].map(|text| &sample[offset(sample, text)..][..text.len() + 1])
}

fn offset(whole: &str, part: &str) -> usize {
    part.as_ptr() as usize - whole.as_ptr() as usize
}

const PAIRED: [[u64; 2]; 3] = [[1, 11], [2, 12], [32, 2]];

/// What the checker answers, which is what the second program answers.
fn answer(before: &str, after: &str, numbers: &[[u64; 2]]) -> Result<(), Refusal> {
    let pairs: Vec<Pair> = numbers
        .iter()
        .map(|&[before, after]| Pair { before, after })
        .collect();
    let expected = second_converted(
        before.as_bytes(),
        after.as_bytes(),
        &pairs_of(&numbers.concat()),
    );
    let given = converted(before.as_bytes(), after.as_bytes(), &pairs);
    let (number, place) = match given {
        Ok(()) => (0, 0),
        Err(Refusal::PairList { pair }) => (23, pair.unwrap_or(0)),
        Err(Refusal::PairDiffers { pair }) => (24, pair),
        Err(refusal) => (refusal.number(), 0),
    };
    assert_eq!(u64::from(number), expected.refusal, "{numbers:?}");
    assert_eq!(u64::from(place), expected.place, "{numbers:?}");
    given
}

#[test]
fn a_good_conversion_is_accepted() {
    let [before, after] = texts(GOOD);
    assert_eq!(answer(before, after, &PAIRED), Ok(()));
    assert_eq!(answer("", "", &[]), Ok(()));
    assert_eq!(answer(before, "", &[]), Ok(()));
}

#[test]
fn a_use_that_grew_is_found_at_its_pair() {
    let [before, after] = texts(GROWN);
    let refusal = answer(before, after, &PAIRED).unwrap_err();
    assert_eq!(refusal, Refusal::PairDiffers { pair: 2 });
    assert_eq!(
        refusal.to_string(),
        "refused with 24: the records of pair 2 differ, or the use after is wider than the use before; \
         look at the use of both first, then at key, version, algorithm, side, place and network"
    );
}

#[test]
fn a_text_is_refused_before_its_pairs() {
    let [before, after] = texts(GOOD);
    let twice = format!("{after}{after}");
    for bad in [&after[1..], &after[..after.len() - 1], &twice, "\n"] {
        for refusal in [answer(before, bad, &PAIRED), answer(bad, after, &[])] {
            let refusal = refusal.unwrap_err();
            assert_eq!(refusal, Refusal::ConversionText);
            assert!(refusal
                .to_string()
                .starts_with("refused with 22: the records"));
        }
    }
}

#[test]
fn pairs_are_refused_where_they_name_wrongly() {
    let [before, after] = texts(GROWN);
    let at = |numbers: &[[u64; 2]]| match answer(before, after, numbers) {
        Err(refusal @ Refusal::PairList { pair }) => (pair, refusal.to_string()),
        other => panic!("{other:?}"),
    };
    for wrong in [[0, 2], [33, 2], [32, 3], [u64::MAX, 2], [2, 2], [32, 12]] {
        let (pair, said) = at(&[PAIRED[0], PAIRED[1], wrong]);
        assert_eq!(pair, Some(3));
        assert!(
            said.starts_with("refused with 23: pair 3 names a number"),
            "{said}"
        );
    }
    for list in [&PAIRED[..2], &[[0, 0]; PAIRS + 1]] {
        let (pair, said) = at(list);
        assert_eq!(pair, None);
        assert!(
            said.starts_with("refused with 23: there are more than 32 pairs, or"),
            "{said}"
        );
    }
}

#[test]
fn the_numbers_are_those_of_the_header() {
    for (name, number) in [
        ("CARD_CONVERSION_TEXT", Refusal::ConversionText.number()),
        ("CARD_PAIR_LIST", Refusal::PairList { pair: None }.number()),
        (
            "CARD_PAIR_DIFFERS",
            Refusal::PairDiffers { pair: 1 }.number(),
        ),
        ("CARD_PAIRS", PAIRS as u8),
    ] {
        let (_, rest) = HEADER.split_once(&format!("{name} = ")).unwrap();
        let digits: String = rest.chars().take_while(char::is_ascii_digit).collect();
        assert_eq!(digits, number.to_string(), "{name}");
    }
}
