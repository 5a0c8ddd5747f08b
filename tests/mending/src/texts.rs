//! One text for each seed and number, and what its making says of its answer.

use second::generator::Generator;

use crate::beyond::{at_any_byte, spoil_value, with_bad_names};
use crate::faults::{changed, damage, has, LONGEST_TEXT};
use crate::lines::{good_record, text_of};

/// What must come of a text: what is printed, a refusal, or nothing that its making tells.
#[derive(Clone, Debug, PartialEq, Eq)]
pub enum Known {
    Mended(Vec<u8>),
    Refused(u64),
    Unknown,
}

pub struct Text {
    pub bytes: Vec<u8>,
    pub known: Known,
}

pub const MIXTURES: u64 = 64;

/// A half of the texts have the faults alone, and an eighth each bad names, a bad value, both, and any damage.
pub const KINDS: u64 = 8;

/// The numbers go through each mixture of faults with each kind of damage beyond them.
pub fn text(seed: u64, number: u64) -> Text {
    let mut generator = Generator::new(Generator::new(seed).word() ^ number);
    let (mixture, kind) = (number % MIXTURES, number / MIXTURES % KINDS);
    let good = good_record(has(mixture, "form"), has(mixture, "hex"), &mut generator);
    let mut lines = good.lines;
    damage(mixture, &mut lines, &mut generator);
    if kind == 5 || kind == 6 {
        spoil_value(&mut lines, &mut generator);
    }
    let (bytes, known) = match kind {
        4 | 6 => (
            with_bad_names(mixture, lines, &mut generator),
            Known::Refused(25),
        ),
        5 if text_of(&lines).len() > LONGEST_TEXT => (text_of(&lines), Known::Refused(25)),
        5 => (text_of(&lines), Known::Refused(26)),
        7 => (at_any_byte(text_of(&lines), &mut generator), Known::Unknown),
        _ => {
            let mended = [good.mended, changed(mixture).into_bytes()].concat();
            (text_of(&lines), Known::Mended(mended))
        }
    };
    Text { bytes, known }
}
