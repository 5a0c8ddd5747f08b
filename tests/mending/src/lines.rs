//! A good record, and its lines in parts that can be damaged one by one.

use second::generator::Generator;

/// `name`, what stands between it and the `=`, what follows the `=`, `value`, and what stands before the LF.
#[derive(Clone)]
pub struct Line {
    pub name: Vec<u8>,
    pub before: Vec<u8>,
    pub after: Vec<u8>,
    pub value: Vec<u8>,
    pub end: Vec<u8>,
}

impl Line {
    pub fn new(name: &str, value: String) -> Line {
        Line {
            name: name.into(),
            before: Vec::new(),
            after: Vec::new(),
            value: value.into(),
            end: Vec::new(),
        }
    }

    pub fn is(&self, name: &str) -> bool {
        self.name == name.as_bytes()
    }

    pub fn is_number(&self) -> bool {
        !["alg", "use", "key"].iter().any(|name| self.is(name))
    }

    fn text(&self) -> Vec<u8> {
        [
            &self.name[..],
            &self.before,
            b"=",
            &self.after,
            &self.value,
            &self.end,
            b"\n",
        ]
        .concat()
    }
}

pub fn text_of(lines: &[Line]) -> Vec<u8> {
    lines.iter().flat_map(Line::text).collect()
}

/// The lines of a good record of form 2, or of form 1 with none of a network, and the text of form 2 that it is mended to.
pub struct Good {
    pub lines: Vec<Line>,
    pub mended: Vec<u8>,
}

/// A key with a letter among its digits, if one is wanted, can be spoiled by upper case.
pub fn good_record(old: bool, letter: bool, generator: &mut Generator) -> Good {
    let (mcc, mnc) = if old {
        (0, 0)
    } else {
        (up_to(1023, generator), up_to(16383, generator))
    };
    let numbered = |name, value: u64| Line::new(name, value.to_string());
    let mut lines = vec![
        Line::new("form", "2".to_string()),
        numbered("number", 1 + up_to(31, generator)),
        numbered("version", up_to(65535, generator)),
        Line::new("alg", format!("TEA{}", generator.between(5, 7))),
        Line::new(
            "use",
            one_of(&["SEND", "RECV", "BOTH"], generator).to_string(),
        ),
        numbered("side", up_to(1, generator)),
        numbered("place", up_to(79, generator)),
        numbered("mcc", mcc),
        numbered("mnc", mnc),
        Line::new("key", digits(letter, generator)),
    ];
    let mended = text_of(&lines);
    if old {
        lines.retain(|line| !["form", "mcc", "mnc"].iter().any(|name| line.is(name)));
    }
    Good { lines, mended }
}

/// Any number up to this one, the ends more often than others.
fn up_to(most: u64, generator: &mut Generator) -> u64 {
    match generator.below(6) {
        0 => 0,
        1 => most,
        2 => generator.below(10).min(most),
        _ => generator.between(0, most),
    }
}

pub fn one_of<T: Copy>(choices: &[T], generator: &mut Generator) -> T {
    choices[generator.below(choices.len() as u64) as usize]
}

/// 48 hex digits, at times with zeros in front, or with no letter.
fn digits(letter: bool, generator: &mut Generator) -> String {
    let (bound, zeros) = (
        one_of(&[16, 16, 16, 10], generator),
        one_of(&[0, 0, 1, 8, 47], generator),
    );
    let digit = |place: u64, generator: &mut Generator| match place {
        place if place < zeros => 0,
        _ => generator.below(bound),
    };
    let mut digits: Vec<u64> = (0..48).map(|place| digit(place, generator)).collect();
    if letter && digits.iter().all(|digit| *digit < 10) {
        digits[generator.below(48) as usize] = generator.between(10, 15);
    }
    digits.iter().map(|digit| format!("{digit:x}")).collect()
}
