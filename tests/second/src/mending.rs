//! A damaged record sheet mended (document 02, [12]), from the request's text and the points decided for it: the text is cut
//! into lines, each wanted name has to have one line, each value is read as what it means, and the record is written
//! anew from these meanings.

use crate::hex::from_hex;
use crate::records::{write, WriteAnswer, ALGORITHM_NAMES, FIRST_ALGORITHM, FIRST_USE, USE_NAMES};
use crate::refusals::*;
use crate::rijndael::Key;
use crate::slots::Fields;

/// A name that is missing, doubled or unknown for the form, a last line without its LF, or a longer text.
pub const SHEET_NAMES_WRONG: Refusal = 25;
/// A value that is still out of form or range.
pub const SHEET_VALUE_WRONG: Refusal = 26;

const LONGEST_TEXT: usize = 4096;
const LONGEST_RECORD: usize = 137;

const FORM_1: [&str; 7] = ["number", "version", "alg", "use", "side", "place", "key"];
const FORM_2: [&str; 10] = [
    "form", "number", "version", "alg", "use", "side", "place", "mcc", "mnc", "key",
];

/// The kinds of change, in the order in which they are listed.
const KINDS: [&str; 6] = ["crlf", "hex", "zeros", "spaces", "order", "form"];

#[derive(Clone, Debug, PartialEq, Eq)]
pub struct Mended {
    /// The text of form 2.
    pub record: Vec<u8>,
    pub changes: Vec<&'static str>,
}

impl Mended {
    /// The record, then a line for each kind of change.
    pub fn text(&self) -> Vec<u8> {
        let lines = self.changes.iter().map(|kind| format!("changed={kind}\n"));
        let mut text = self.record.clone();
        text.extend(lines.collect::<String>().into_bytes());
        text
    }
}

/// What the program `mend` prints.
pub fn mend_sheet(text: &[u8]) -> Vec<u8> {
    match mend(text) {
        Ok(mended) => mended.text(),
        Err(refusal) => format!("refused={refusal}\n").into_bytes(),
    }
}

/// Leaves what is printed of an accepted text at the front of a buffer. Refusals 25, 26, 17.
pub fn mend_into(text: &[u8], buffer: &mut [u8]) -> WriteAnswer {
    let (refusal, length) = match mend(text).map(|mended| mended.text()) {
        Err(refusal) => (refusal, 0),
        Ok(text) if text.len() > buffer.len() => (RECORD_TOO_LONG, 0),
        Ok(text) => {
            buffer[..text.len()].copy_from_slice(&text);
            (DONE, text.len() as u64)
        }
    };
    WriteAnswer { refusal, length }
}

/// Refusals 25, 26.
pub fn mend(text: &[u8]) -> Result<Mended, Refusal> {
    let lines = lines_of(text).ok_or(SHEET_NAMES_WRONG)?;
    let of_form_2 = lines.iter().any(|line| line.name == b"form");
    let names: &[&str] = if of_form_2 { &FORM_2 } else { &FORM_1 };
    let places = places_of(names, &lines).ok_or(SHEET_NAMES_WRONG)?;
    let sheet = Sheet {
        names,
        values: places.iter().map(|place| lines[*place].value).collect(),
    };
    let record = sheet.record().ok_or(SHEET_VALUE_WRONG)?;
    let made = [
        lines.iter().any(|line| line.cr),
        sheet.value("key").iter().any(u8::is_ascii_uppercase),
        sheet.has_leading_zeros(),
        lines.iter().any(|line| line.spaces),
        !places.is_sorted(),
        !of_form_2,
    ];
    let kinds = KINDS.iter().zip(made).filter(|(_, made)| *made);
    Ok(Mended {
        record,
        changes: kinds.map(|(kind, _)| *kind).collect(),
    })
}

/// A line `name=value`: without its end, and without spaces beside its first `=`.
struct Line<'a> {
    name: &'a [u8],
    value: &'a [u8],
    /// Whether a CR stood before its LF.
    cr: bool,
    spaces: bool,
}

/// The lines of a text, if it isn't too long, each has its LF, and each has a name.
fn lines_of(text: &[u8]) -> Option<Vec<Line<'_>>> {
    if text.len() > LONGEST_TEXT {
        return None;
    }
    let lines = text.strip_suffix(b"\n")?.split(|byte| *byte == b'\n');
    lines.map(line_of).collect()
}

fn line_of(ended: &[u8]) -> Option<Line<'_>> {
    let line = ended.strip_suffix(b"\r").unwrap_or(ended);
    let equals = line.iter().position(|byte| *byte == b'=')?;
    let (mut name, mut value) = (&line[..equals], &line[equals + 1..]);
    while let Some(shorter) = name.strip_suffix(b" ") {
        name = shorter;
    }
    while let Some(shorter) = value.strip_prefix(b" ") {
        value = shorter;
    }
    Some(Line {
        name,
        value,
        cr: line.len() < ended.len(),
        spaces: name.len() + 1 + value.len() < line.len(),
    })
}

/// Where the line of each name stands, if each name has one line and no line has another name.
fn places_of(names: &[&str], lines: &[Line]) -> Option<Vec<usize>> {
    let place_of = |name: &&str| {
        let named = |place: &usize| lines[*place].name == name.as_bytes();
        let found: Vec<usize> = (0..lines.len()).filter(named).collect();
        (found.len() == 1).then(|| found[0])
    };
    let places: Vec<usize> = names.iter().map(place_of).collect::<Option<_>>()?;
    (places.len() == lines.len()).then_some(places)
}

/// The names of a form, and the value of each.
struct Sheet<'a> {
    names: &'a [&'a str],
    values: Vec<&'a [u8]>,
}

impl Sheet<'_> {
    /// The value of a name that the form has.
    fn value(&self, name: &str) -> &[u8] {
        let place = self.names.iter().position(|known| *known == name);
        place.map_or(b"", |place| self.values[place])
    }

    fn number(&self, name: &str) -> Option<u64> {
        number_of(self.value(name))
    }

    /// The number of a name of form 2 alone, or what a record of form 1 has in its place.
    fn number_or(&self, name: &str, otherwise: u64) -> Option<u64> {
        if self.names.contains(&name) {
            self.number(name)
        } else {
            Some(otherwise)
        }
    }

    /// The record's text, if every value is in form and in range.
    fn record(&self) -> Option<Vec<u8>> {
        let fields = Fields {
            version: u16::try_from(self.number("version")?).ok()?,
            algorithm: FIRST_ALGORITHM + word_of(self.value("alg"), &ALGORITHM_NAMES)?,
            usage: FIRST_USE + word_of(self.value("use"), &USE_NAMES)?,
            side: self.number("side")?,
            place: self.number("place")?,
            mcc: self.number_or("mcc", 0)?,
            mnc: self.number_or("mnc", 0)?,
        };
        let (number, key) = (self.number("number")?, key_of(self.value("key"))?);
        let mut text = [0; LONGEST_RECORD];
        let written = write(number, &fields, &key, &mut text);
        let good = self.number_or("form", 2)? == 2 && written.refusal == DONE;
        good.then(|| text[..written.length as usize].to_vec())
    }

    /// Whether a number has a zero before its last digit that could go.
    fn has_leading_zeros(&self) -> bool {
        let is_number = |name: &&str| !["alg", "use", "key"].contains(name);
        let leads = |value: &[u8]| value.len() > 1 && value[0] == b'0';
        let mut both = self.names.iter().zip(&self.values);
        both.any(|(name, value)| is_number(name) && leads(value))
    }
}

/// A decimal number with any leading zeros; one that is too large for 64 bits is the largest.
fn number_of(value: &[u8]) -> Option<u64> {
    if value.is_empty() || !value.iter().all(u8::is_ascii_digit) {
        return None;
    }
    let longer = |number: u64, digit: &u8| {
        (number.saturating_mul(10)).saturating_add(u64::from(*digit - b'0'))
    };
    Some(value.iter().fold(0, longer))
}

fn word_of(value: &[u8], words: &[&str]) -> Option<u64> {
    let place = words.iter().position(|word| word.as_bytes() == value);
    place.map(|place| place as u64)
}

/// 48 hex digits, of which the letters may be in either case.
fn key_of(value: &[u8]) -> Option<Key> {
    from_hex(&value.to_ascii_lowercase())?.try_into().ok()
}
