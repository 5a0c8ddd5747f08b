//! The numbers that an engineer sees.

use std::error::Error;
use std::fmt;

/// Why a call did nothing. It prints as its number and what an engineer should look at.
///
/// ```
/// let refusal = card::Table::new().read(33).unwrap_err();
/// assert_eq!(refusal.number(), 7);
/// assert_eq!(
///     refusal.to_string(),
///     "refused with 7: the slot number isn't 1 to 32; look at the number, which counts from 1"
/// );
/// ```
#[derive(Clone, Copy, Debug, PartialEq, Eq, Hash)]
#[non_exhaustive]
pub enum Refusal {
    /// 1: algorithm not 5, 6, 7.
    Algorithm,
    /// 2: bench key not 24 bytes.
    BenchKey,
    /// 3: initial value not 10 bytes.
    IvSize,
    /// 4: length 0, or skip + length above 8,288.
    Length,
    /// 5: buffer above 8,192 bytes.
    Buffer,
    /// 6: start + length, or a PDU's length, above 8 times the buffer's bytes.
    Span,
    /// 7: slot number not 1..32.
    SlotNumber,
    /// 8: slot empty.
    SlotEmpty,
    /// 9: target slot filled.
    TargetFilled,
    /// 10: use or direction code unknown.
    Code,
    /// 11: side above 1 or place above 79.
    SideOrPlace,
    /// 12: use doesn't include the direction.
    Direction,
    /// 13: the initial value's side bit is wrong.
    IvSide,
    /// 14: asked use not within the present use, or 0 asked of a key for both.
    UseWider,
    /// 15: record text bad.
    RecordText {
        /// The form of the record, by the text's first byte: 2, or 1.
        form: u8,
        /// The first line that is wrong or cut short, 1 to 7, or to 10 of form 2.
        line: u8,
        /// The byte of that line, counted from 1, at which no good record can go on; just past the end of a
        /// text that ends too early.
        column: u8,
    },
    /// 16: table not 32 records, or a bad slot in it.
    Table,
    /// 17: record text longer than the buffer.
    RecordRoom,
    /// 18: PDU kind, state or flag unknown, or PDU above 8,288 bits.
    PduCode,
    /// 19: PDU parts don't fit.
    PduParts,
    /// 20: mobile country code above 1,023 or mobile network code above 16,383.
    Network,
    /// 21: algorithm out of service: a load of TEA6, or a send with it.
    OutOfService,
    /// 22: a text of a conversion bad, or a number twice in it.
    ConversionText,
    /// 23: pairs of a conversion above 32, a number that is not there or named again, or a record after without a
    /// pair.
    PairList {
        /// The first pair that names a number wrongly, counted from 1. None where no pair does.
        pair: Option<u8>,
    },
    /// 24: a pair of a conversion that widens or differs.
    PairDiffers {
        /// The first such pair, counted from 1.
        pair: u8,
    },
    /// A number that isn't listed here: the library is newer than these bindings.
    Unlisted(u8),
}

/// Every refusal, in the order of its number.
const LISTED: [Refusal; 24] = [
    Refusal::Algorithm,
    Refusal::BenchKey,
    Refusal::IvSize,
    Refusal::Length,
    Refusal::Buffer,
    Refusal::Span,
    Refusal::SlotNumber,
    Refusal::SlotEmpty,
    Refusal::TargetFilled,
    Refusal::Code,
    Refusal::SideOrPlace,
    Refusal::Direction,
    Refusal::IvSide,
    Refusal::UseWider,
    Refusal::RecordText {
        form: 0,
        line: 0,
        column: 0,
    },
    Refusal::Table,
    Refusal::RecordRoom,
    Refusal::PduCode,
    Refusal::PduParts,
    Refusal::Network,
    Refusal::OutOfService,
    Refusal::ConversionText,
    Refusal::PairList { pair: None },
    Refusal::PairDiffers { pair: 0 },
];

/// What is wrong and what to look at, for each of `LISTED`. Refusals 15, 23 and 24 say more where they have a place.
const SENTENCES: [&str; 24] = [
    "the algorithm isn't 5, 6 or 7; look at the algorithm that was asked for",
    "the bench key isn't 24 bytes; look at how long the key is",
    "the initial value isn't 10 bytes; look at how long it is",
    "the length is 0, or skip and length together are above 8,288 bits; look at the span's length and skip",
    "the buffer is longer than 8,192 bytes; look at whether more than one PDU is handed over",
    "the span, or the PDU, ends after the buffer's last bit; look at its start and length, which count bits and not bytes",
    "the slot number isn't 1 to 32; look at the number, which counts from 1",
    "the slot is empty; look at whether its key was loaded, or moved to another slot",
    "the target slot is filled; look at what it holds, and clear it if that key is done with",
    "the use or direction code is unknown; look at the code: a use is 1, 2 or 3, or 0 on a move, and a direction is 1 or 2",
    "the side is above 1 or the place above 79; look at these two numbers",
    "the key's use doesn't include this direction; look at the use letter of the slot's record",
    "the initial value's side bit is wrong for this direction; look at the slot's side and place, and at which end made the initial value",
    "the asked use isn't within the key's present use, or it is 0 and the key is for both; look at the slot's use, which a move can narrow and never widen, and ask 3 where a key for both is to stay one",
    "a line of the record is wrong or cut short; look at that line",
    "the table isn't 32 slots, or one of them is bad; look for a field out of range, or an empty slot with a byte that isn't zero",
    "the record is longer than the buffer; look at the buffer's length: 137 bytes hold any record",
    "the PDU's kind, state or flag is unknown, or the PDU is above 8,288 bits; look at these four numbers",
    "the PDU's parts don't fit; look at its length, and at where its address and its DM-SDU start",
    "the mobile country code is above 1,023 or the mobile network code above 16,383; look at these two numbers",
    "TEA6 is out of service: it isn't loaded, and a key of it doesn't send; look at the algorithm, and ask for a key of TEA5 or TEA7",
    "the records before or after the conversion don't read to their end, or a number stands twice; look at both texts one by one: slotlist names a bad record and its line",
    "there are more than 32 pairs, or a record after the conversion stands in no pair; look at whether each record after has one line in the list",
    "a pair's records differ, or the use after is wider than the use before; look at the use of both first",
];

/// What the lines of a record of form 2 should be, from line 1 on.
const LINES: [&str; 10] = [
    "form=2",
    "number= and 1 to 32",
    "version= and 0 to 65535",
    "alg= and TEA5, TEA6 or TEA7",
    "use= and SEND, RECV or BOTH",
    "side= and 0 or 1",
    "place= and 0 to 79",
    "mcc= and 0 to 1023",
    "mnc= and 0 to 16383",
    "key= and 48 lower-case hex digits",
];

impl Refusal {
    /// The number that the card answered, from 1 on.
    pub const fn number(self) -> u8 {
        match self {
            Refusal::Algorithm => 1,
            Refusal::BenchKey => 2,
            Refusal::IvSize => 3,
            Refusal::Length => 4,
            Refusal::Buffer => 5,
            Refusal::Span => 6,
            Refusal::SlotNumber => 7,
            Refusal::SlotEmpty => 8,
            Refusal::TargetFilled => 9,
            Refusal::Code => 10,
            Refusal::SideOrPlace => 11,
            Refusal::Direction => 12,
            Refusal::IvSide => 13,
            Refusal::UseWider => 14,
            Refusal::RecordText { .. } => 15,
            Refusal::Table => 16,
            Refusal::RecordRoom => 17,
            Refusal::PduCode => 18,
            Refusal::PduParts => 19,
            Refusal::Network => 20,
            Refusal::OutOfService => 21,
            Refusal::ConversionText => 22,
            Refusal::PairList { .. } => 23,
            Refusal::PairDiffers { .. } => 24,
            Refusal::Unlisted(number) => number,
        }
    }

    /// The sentence that this prints as; where it names a place, with the line of the text that was read and a
    /// caret below the byte. What may be digits of a key is shown as `*`.
    ///
    /// ```
    /// let text = b"number=3\nversion=65536\n";
    /// let shown = card::record_read(text).unwrap_err().shown_in(text);
    /// assert!(shown.ends_with("\nversion=65536\n            ^"));
    /// ```
    pub fn shown_in(self, text: &[u8]) -> String {
        let Refusal::RecordText { line, column, .. } = self else {
            return self.to_string();
        };
        let mut lines = text.split(|byte| *byte == b'\n');
        let shown = lines
            .nth(usize::from(line).saturating_sub(1))
            .map(shown_line);
        let below = usize::from(column);
        format!("{self}\n{}\n{:>below$}", shown.unwrap_or_default(), '^')
    }

    /// The refusal that a call answered; nothing where it was done.
    pub(crate) fn answered(answer: u8) -> Option<Refusal> {
        let listed = || {
            LISTED
                .into_iter()
                .find(|refusal| refusal.number() == answer)
        };
        (answer > 0).then(|| listed().unwrap_or(Refusal::Unlisted(answer)))
    }

    /// What is wrong and what to look at, without a place.
    fn sentence(self) -> &'static str {
        let listed = LISTED.iter().zip(SENTENCES);
        let mut same = listed.filter(|(refusal, _)| refusal.number() == self.number());
        same.next().map_or(
            "this number is newer than the bindings; look it up in the library's headers",
            |(_, sentence)| sentence,
        )
    }
}

impl fmt::Display for Refusal {
    fn fmt(&self, f: &mut fmt::Formatter) -> fmt::Result {
        let number = self.number();
        write!(f, "refused with {number}: ")?;
        match self {
            Refusal::RecordText { form, line, column } => {
                write_line_sentence(f, *form, *line, *column)
            }
            Refusal::PairList { pair: Some(pair) } => write!(
                f,
                "pair {pair} names a number that no record has, or one that an earlier pair names on the same side; look at that pair and at the records' numbers"
            ),
            Refusal::PairDiffers { pair } => write!(
                f,
                "the records of pair {pair} differ, or the use after is wider than the use before; look at the use of both first, then at key, version, algorithm, side, place and network"
            ),
            _ => f.write_str(self.sentence()),
        }
    }
}

fn write_line_sentence(f: &mut fmt::Formatter, form: u8, line: u8, column: u8) -> fmt::Result {
    let good = good_line(form, line).unwrap_or("1 to 10");
    write!(
        f,
        "line {line} of the record is wrong or cut short at column {column}; look there: the line should be {good}"
    )
}

/// What a line of a record should be. Form 1 lacks the first line of form 2 and those of the network.
fn good_line(form: u8, line: u8) -> Option<&'static str> {
    let place = usize::from(line).checked_sub(1)?;
    match (form, place) {
        (2, place) => LINES.get(place),
        (_, 0..=5) => LINES.get(place + 1),
        (_, 6) => LINES.last(),
        _ => None,
    }
    .copied()
}

/// The longest line but for the key's, `version=65535`, and the most that is shown of one.
const LINE_BYTES: usize = 13;
const SHOWN_BYTES: usize = 60;

/// A line as it can be printed, a letter for each byte: `*` for what may be a digit of a key, and `?` for what is
/// no letter.
fn shown_line(line: &[u8]) -> String {
    let secret = line.starts_with(b"key") || line.len() > LINE_BYTES;
    let name = line.iter().position(|byte| *byte == b'=').unwrap_or(0);
    let letter = |(place, byte): (usize, &u8)| match byte {
        byte if secret && place >= name && byte.is_ascii_hexdigit() => '*',
        b' '..=b'~' => char::from(*byte),
        _ => '?',
    };
    line.iter()
        .take(SHOWN_BYTES)
        .enumerate()
        .map(letter)
        .collect()
}

impl Error for Refusal {}

#[cfg(test)]
mod tests {
    use super::*;

    #[test]
    fn every_answer_keeps_its_number() {
        assert_eq!(Refusal::answered(0), None);
        for answer in 1..=u8::MAX {
            let refusal = Refusal::answered(answer).unwrap();
            assert_eq!(refusal.number(), answer);
            let listed = !matches!(refusal, Refusal::Unlisted(_));
            assert_eq!(listed, matches!(answer, 1..=24));
        }
    }
}
