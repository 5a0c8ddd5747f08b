//! The text of the vectors program. Input, a case a line: `ALG KEY IV START LENGTH SKIP BUFFER`.
//! Output, a line for each: `MIXED MODEKEY MODEVALUE BUFFER`, or `refused=N` in the order of the
//! bench call (1, 2, 3, 5, 4, 6), or `unreadable` for a line of another form.

use crate::bits::xor_bits;
use crate::card::{Setting, Span};
use crate::hex::{from_hex, to_hex};
use crate::refusals::Refusal;
use crate::tea::{mixed_value, mode};

/// The longest input file.
pub const INPUT_BYTES: usize = 262_144;

#[derive(Clone, Debug, PartialEq, Eq)]
pub struct Case {
    pub algorithm: u64,
    pub key: Vec<u8>,
    pub iv: Vec<u8>,
    pub span: Span,
    pub buffer: Vec<u8>,
}

impl Case {
    /// The case as an input line, without its LF.
    pub fn to_line(&self) -> String {
        format!(
            "{} {} {} {} {} {} {}",
            self.algorithm,
            to_hex(&self.key),
            to_hex(&self.iv),
            self.span.start,
            self.span.length,
            self.span.skip,
            to_hex(&self.buffer)
        )
    }

    /// Reads an input line without its LF; nothing for a line of another form.
    pub fn from_line(line: &[u8]) -> Option<Case> {
        let fields: Vec<&[u8]> = line.split(|byte| *byte == b' ').collect();
        let [algorithm, key, iv, start, length, skip, buffer] = fields[..] else {
            return None;
        };
        Some(Case {
            algorithm: decimal(algorithm)?,
            key: some_bytes(key)?,
            iv: some_bytes(iv)?,
            span: Span {
                start: decimal(start)?,
                length: decimal(length)?,
                skip: decimal(skip)?,
            },
            buffer: some_bytes(buffer)?,
        })
    }

    /// The output line of the case, without its LF.
    pub fn answer(&self) -> String {
        match self.ciphered() {
            Ok(line) => line,
            Err(refusal) => format!("refused={refusal}"),
        }
    }

    fn ciphered(&self) -> Result<String, Refusal> {
        let setting = Setting::checked(self.algorithm, &self.key, &self.iv)?;
        let span = self.span.fitted(self.buffer.len())?;
        let mixed = mixed_value(&setting.iv);
        let mode = mode(setting.algorithm, &setting.key, &mixed);
        let mut buffer = self.buffer.clone();
        xor_bits(&mut buffer, span.start, &setting.keystream_bits(span));
        let parts = [&mixed[..], &mode.key, &mode.value, &buffer];
        Ok(parts.map(to_hex).join(" "))
    }
}

/// The output for a whole input. A last line without its LF is out of form.
pub fn expected_output(input: &[u8]) -> String {
    input
        .split_inclusive(|byte| *byte == b'\n')
        .map(|line| answer_to_line(line) + "\n")
        .collect()
}

fn answer_to_line(line: &[u8]) -> String {
    match line.strip_suffix(b"\n").and_then(Case::from_line) {
        Some(case) => case.answer(),
        None => "unreadable".to_string(),
    }
}

/// A decimal number of 64 bits without leading zeros.
fn decimal(digits: &[u8]) -> Option<u64> {
    let leading_zero = digits.len() > 1 && digits[0] == b'0';
    if leading_zero || !digits.iter().all(u8::is_ascii_digit) {
        return None;
    }
    std::str::from_utf8(digits).ok()?.parse().ok()
}

/// At least one byte in hex: an empty field is out of form.
fn some_bytes(digits: &[u8]) -> Option<Vec<u8>> {
    from_hex(digits).filter(|bytes| !bytes.is_empty())
}
