//! Damage beyond the faults that are mended.

use second::generator::Generator;

use crate::faults::{stretch, LONGEST_TEXT};
use crate::lines::{one_of, text_of, Line};

/// The text of the lines with a damage by which it gets 25: a name that is missing, doubled or unknown, a last line without
/// its LF, or more than 4,096 bytes.
pub fn with_bad_names(mixture: u64, mut lines: Vec<Line>, generator: &mut Generator) -> Vec<u8> {
    if generator.below(4) == 0 {
        return as_a_whole(mixture, lines, generator);
    }
    let place = generator.below(lines.len() as u64) as usize;
    let elsewhere = generator.below(lines.len() as u64 + 1) as usize;
    match generator.below(7) {
        0 => drop(lines.remove(place)),
        1 => lines.insert(elsewhere, lines[place].clone()),
        2 => {
            // two lines of one name that differ
            let other = Line {
                value: b"1".to_vec(),
                ..lines[place].clone()
            };
            lines.insert(elsewhere, other);
        }
        3 => lines[place].name = another_name(&lines[place].name, generator),
        4 => {
            let other = lines[(place + 1) % lines.len()].name.clone();
            lines[place].name = other;
        }
        5 => lines.insert(
            elsewhere,
            Line::new(one_of(&STRANGE, generator), "0".to_string()),
        ),
        _ => change_form(&mut lines, elsewhere, generator),
    }
    text_of(&lines)
}

/// Names that no form has.
const STRANGE: [&str; 8] = ["", "colour", "form2", "numbe", "keys", "mcc\0", "#", "Form"];

/// A name that is like a good one.
fn another_name(name: &[u8], generator: &mut Generator) -> Vec<u8> {
    let beside = |front: &[u8], back: &[u8]| [front, name, back].concat();
    match generator.below(9) {
        0 => name.to_ascii_uppercase(),
        1 => beside(b" ", b""),
        2 => beside(b"\t", b""),
        3 => beside(b"", b"\t"),
        4 => beside(b"", b"\r"),
        5 => beside(b"", b" \t "),
        6 => beside(b"\xef\xbb\xbf", b""),
        7 => name[1..].to_vec(),
        _ => one_of(&STRANGE, generator).into(),
    }
}

/// A record of form 1 gets a line that only form 2 has, and one of form 2 loses its form.
fn change_form(lines: &mut Vec<Line>, place: usize, generator: &mut Generator) {
    if let Some(form) = lines.iter().position(|line| line.is("form")) {
        lines.remove(form);
    } else {
        let added = [("form", "2"), ("form", "1"), ("mcc", "0"), ("mnc", "0")];
        let (name, value) = one_of(&added, generator);
        lines.insert(place, Line::new(name, value.to_string()));
    }
}

/// What befalls a text as a whole.
fn as_a_whole(mixture: u64, mut lines: Vec<Line>, generator: &mut Generator) -> Vec<u8> {
    let mut text = text_of(&lines);
    match generator.below(9) {
        0 => drop(text.pop()),
        1 => text.extend(b"\n"),
        2 => text.extend(b"\r\n"),
        3 => text.insert(0, b'\n'),
        4 => text.splice(0..0, *b"\xef\xbb\xbf").for_each(drop),
        5 => text.extend(text.clone()),
        6 => text.truncate(text.iter().position(|byte| *byte == b'=').unwrap_or(0)),
        7 => text = without_equals(&lines, generator),
        _ => {
            let bytes = LONGEST_TEXT + one_of(&[1, 1, 2, 400], generator);
            stretch(mixture, &mut lines, bytes, generator);
            text = text_of(&lines);
            // a mixture without zeros and spaces is filled by a longer name
            text.splice(0..0, vec![b'x'; bytes.saturating_sub(text.len())]);
        }
    }
    text
}

/// The text with one line that has lost its `=`.
fn without_equals(lines: &[Line], generator: &mut Generator) -> Vec<u8> {
    let place = generator.below(lines.len() as u64) as usize;
    let mut line = text_of(&lines[place..=place]);
    line.retain(|byte| *byte != b'=');
    [text_of(&lines[..place]), line, text_of(&lines[place + 1..])].concat()
}

/// Damages one value so that it is still out of form or range when it is mended: the text gets 26.
pub fn spoil_value(lines: &mut [Line], generator: &mut Generator) {
    let place = generator.below(lines.len() as u64) as usize;
    let line = &mut lines[place];
    match generator.below(4) {
        0 => line.end = behind(&line.end, generator),
        1 => line
            .after
            .extend(one_of(&["\t", "=", "\r", "\0", "+", "-", "'"], generator).bytes()),
        _ => line.value = bad_value(line, generator),
    }
}

/// What stands before the LF, with what doesn't belong there.
fn behind(end: &[u8], generator: &mut Generator) -> Vec<u8> {
    let more = one_of(
        &[" ", "   ", "\t", "\r\r", "\r ", ";", " # note"],
        generator,
    )
    .as_bytes();
    [more, end].concat()
}

fn bad_value(line: &Line, generator: &mut Generator) -> Vec<u8> {
    let one = |choices: &[&str], generator: &mut Generator| {
        one_of(choices, generator).as_bytes().to_vec()
    };
    match line.name.as_slice() {
        b"alg" => one(
            &[
                "TEA05", "TEA4", "TEA8", "tea5", "Tea6", "TEA", "TEA55", "TEA 5", "5", "05", "",
                "0TEA7",
            ],
            generator,
        ),
        b"use" => one(
            &[
                "send",
                "Send",
                "recv",
                "both",
                "SENDS",
                "SEN",
                "1",
                "03",
                "",
                "SEND RECV",
            ],
            generator,
        ),
        b"key" => bad_key(&line.value, generator),
        name => bad_number(name, generator),
    }
}

fn bad_key(digits: &[u8], generator: &mut Generator) -> Vec<u8> {
    let mut bad = digits.to_vec();
    let place = generator.below(48) as usize;
    match generator.below(7) {
        0 => bad.insert(0, b'0'),
        1 => drop(bad.remove(0)),
        2 => bad.insert(place, b'0'),
        3 => drop(bad.remove(place)),
        4 => {
            bad[place] = *b"gGxX-+ /:@`\xc1"
                .get(generator.below(12) as usize)
                .unwrap_or(&b'?')
        }
        5 => bad[..2].copy_from_slice(b"0x"),
        _ => bad.truncate(place),
    }
    bad
}

/// A number that is out of range, also one that a narrower type cuts to a good one; or what is no number.
fn bad_number(name: &[u8], generator: &mut Generator) -> Vec<u8> {
    let (low, high) = match name {
        b"form" => (2, 2),
        b"number" => (1, 32),
        b"version" => (0, 65535),
        b"side" => (0, 1),
        b"place" => (0, 79),
        b"mcc" => (0, 1023),
        _ => (0, 16383),
    };
    let good = generator.between(low, high);
    let strange = [
        "", "-1", "+1", "1.0", "1,0", "1e0", "0x1", "1 0", "a", "one", "\u{661}", "1\0",
    ];
    match generator.below(6) {
        0 if low > 0 => (low - 1).to_string().into(),
        1 => wrapping(good, generator).into(),
        2 => generator
            .between(high + 1, 10 * high + 10)
            .to_string()
            .into(),
        3 => one_of(&strange, generator).into(),
        _ => (high + 1).to_string().into(),
    }
}

/// A number that 16, 32 or 64 bits cut to this one.
fn wrapping(good: u64, generator: &mut Generator) -> String {
    let bits = one_of(&[16, 32, 64], generator);
    let turns = u128::from(generator.between(1, 3));
    ((turns << bits) + u128::from(good)).to_string()
}

/// Damages a text at any of its bytes, one to four times: what comes of it is not known.
pub fn at_any_byte(mut text: Vec<u8>, generator: &mut Generator) -> Vec<u8> {
    for _ in 0..generator.between(1, 4) {
        let place = generator.below(text.len() as u64 + 1) as usize;
        let other = generator.below(text.len() as u64 + 1) as usize;
        let byte = one_of(b" =\n\r\t\0\xff0123456789abcdefABCDEFGnumberTSV", generator);
        match generator.below(8) {
            0 | 1 => text.insert(place, byte),
            2 if place < text.len() => text[place] = byte,
            3 if place < text.len() => text[place] ^= 1 << generator.below(8),
            4 | 5 if place < text.len() => drop(text.remove(place)),
            6 if place < text.len() && other < text.len() => text.swap(place, other),
            7 if generator.below(4) == 0 => text.truncate(place),
            _ => {
                let part = text[place.min(other)..(place.min(other) + 9).min(text.len())].to_vec();
                text.splice(other..other, part);
            }
        }
    }
    text
}
