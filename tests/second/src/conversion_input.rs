//! The program `converted` as a function from its input to its output: the records before, an empty line, the records
//! after, an empty line, and a line `before=B after=A` for each pair.

use crate::conversion::{converted, refused, Pair};
use crate::refusals::{CONVERSION_TEXT_BAD, DONE};

/// No good input is longer; a longer one is refused as a text that doesn't read.
const LONGEST_INPUT: usize = 16_384;

pub struct Input<'a> {
    pub before: &'a [u8],
    pub after: &'a [u8],
    pub pairs: Vec<Pair>,
}

/// What the program prints.
pub fn printed(input: &[u8]) -> Vec<u8> {
    let Input {
        before,
        after,
        pairs,
    } = parts_of(input);
    let answer = if input.len() > LONGEST_INPUT {
        refused(CONVERSION_TEXT_BAD, 0)
    } else {
        converted(before, after, &pairs)
    };
    match answer.refusal {
        DONE => format!("converted={}\n", pairs.len()),
        refusal => format!("refused={refusal} pair={}\n", answer.place),
    }
    .into_bytes()
}

pub fn parts_of(input: &[u8]) -> Input<'_> {
    let (before, rest) = until_empty_line(input);
    let (after, list) = until_empty_line(rest);
    Input {
        before,
        after,
        pairs: pairs_in(list),
    }
}

/// What stands before the first empty line and what stands behind it. Without an empty line nothing stands behind it.
fn until_empty_line(text: &[u8]) -> (&[u8], &[u8]) {
    let empty = |place: &usize| text[*place] == b'\n' && (*place == 0 || text[place - 1] == b'\n');
    match (0..text.len()).find(empty) {
        Some(place) => (&text[..place], &text[place + 1..]),
        None => (text, &[]),
    }
}

/// A pair for each line. A line of another form, and a last one without LF, names numbers that are not there.
fn pairs_in(list: &[u8]) -> Vec<Pair> {
    list.split_inclusive(|&byte| byte == b'\n')
        .map(|line| {
            pair_in(line).unwrap_or(Pair {
                before: None,
                after: None,
            })
        })
        .collect()
}

fn pair_in(line: &[u8]) -> Option<Pair> {
    let text = std::str::from_utf8(line).ok()?.strip_suffix('\n')?;
    let (before, after) = text.strip_prefix("before=")?.split_once(" after=")?;
    Some(Pair {
        before: Some(number_in(before)?),
        after: Some(number_in(after)?),
    })
}

/// A number as it stands in records: digits without leading zeros.
fn number_in(digits: &str) -> Option<u64> {
    let number: u64 = digits.parse().ok()?;
    (number.to_string() == digits).then_some(number)
}
