//! Key records as text, and the program `slotlist` as a function from its input to its output.
//!
//! A record of form 1 is seven lines `name=value`, each ended by one LF: number, version, alg, use, side, place,
//! key. Form 2 has `form=2` before them, and mcc and mnc between place and key. Both are read, and form 2 is written.
//! A text is wrong at the first byte with which no good record of either form can go on.

use crate::hex::{hex_value, to_hex};
use crate::refusals::*;
use crate::rijndael::{Key, KEY_BYTES};
use crate::slots::{
    empty_table, load, read as read_slot, slot_index, Fields, Slot, LAST_MCC, LAST_MNC, LAST_PLACE,
    SLOTS,
};

/// What `slotlist` reads of its input.
const SLOTLIST_BYTES: usize = 8192;

/// Room for every listing.
const LISTING_BYTES: usize = 2560;

pub(crate) const ALGORITHM_NAMES: [&str; 3] = ["TEA5", "TEA6", "TEA7"];
pub(crate) const USE_NAMES: [&str; 3] = ["SEND", "RECV", "BOTH"];

/// The numbers that the first of the names above stand for.
pub(crate) const FIRST_ALGORITHM: u64 = 5;
pub(crate) const FIRST_USE: u64 = 1;

#[derive(Clone, Copy, Debug, PartialEq, Eq)]
pub struct Record {
    pub number: u64,
    pub fields: Fields,
    pub key: Key,
    /// The bytes of its text.
    pub length: usize,
}

/// Where a text stops being the beginning of a good record.
#[derive(Clone, Copy, Debug, PartialEq, Eq)]
pub struct Fault {
    /// The line, counted from 1.
    pub line: u64,
    /// The byte of that line, counted from 1.
    pub column: u64,
    /// The place of the first wrong byte in the text, or the text's length if it ends too early.
    pub place: usize,
}

/// Reads the record at the front of the input.
pub fn parse(input: &[u8]) -> Result<Record, Fault> {
    let mut reader = Reader {
        input,
        place: 0,
        line: 0,
        line_start: 0,
    };
    // No line of form 1 begins with an f, and the first of form 2 does.
    let of_form_2 = input.first() == Some(&b'f');
    if of_form_2 {
        reader.begin_line("form=2")?;
        reader.end_line()?;
    }
    let number = reader.number_line("number=", 1, SLOTS as u64)?;
    let version = reader.number_line("version=", 0, u64::from(u16::MAX))?;
    let algorithm = FIRST_ALGORITHM + reader.name_line("alg=", &ALGORITHM_NAMES)?;
    let usage = FIRST_USE + reader.name_line("use=", &USE_NAMES)?;
    let side = reader.number_line("side=", 0, 1)?;
    let place = reader.number_line("place=", 0, LAST_PLACE)?;
    let (mut mcc, mut mnc) = (0, 0);
    if of_form_2 {
        mcc = reader.number_line("mcc=", 0, LAST_MCC)?;
        mnc = reader.number_line("mnc=", 0, LAST_MNC)?;
    }
    let key = reader.key_line("key=")?;
    Ok(Record {
        number,
        fields: Fields {
            version: version as u16,
            algorithm,
            usage,
            side,
            place,
            mcc,
            mnc,
        },
        key,
        length: reader.place,
    })
}

/// Goes through the input and stops at the first byte that doesn't fit.
struct Reader<'a> {
    input: &'a [u8],
    place: usize,
    line: u64,
    /// The place of the line's first byte.
    line_start: usize,
}

impl Reader<'_> {
    fn number_line(&mut self, name: &str, low: u64, high: u64) -> Result<u64, Fault> {
        self.begin_line(name)?;
        let mut value = self.take(|digit| longer_number(None, digit, low, high))?;
        while self.peek() != Some(b'\n') {
            value = self.take(|digit| longer_number(Some(value), digit, low, high))?;
        }
        self.end_line()?;
        Ok(value)
    }

    /// The place of the line's value among the choices, which are of one length.
    fn name_line(&mut self, name: &str, choices: &[&str]) -> Result<u64, Fault> {
        self.begin_line(name)?;
        let mut fitting: Vec<usize> = (0..choices.len()).collect();
        for offset in 0..choices[0].len() {
            fitting = self.take(|byte| {
                let fits = |choice: &usize| choices[*choice].as_bytes()[offset] == byte;
                let left: Vec<usize> = fitting.iter().copied().filter(fits).collect();
                (!left.is_empty()).then_some(left)
            })?;
        }
        self.end_line()?;
        Ok(fitting[0] as u64)
    }

    fn key_line(&mut self, name: &str) -> Result<Key, Fault> {
        self.begin_line(name)?;
        let mut key = [0; KEY_BYTES];
        for byte in &mut key {
            let high = self.take(hex_value)?;
            let low = self.take(hex_value)?;
            *byte = high << 4 | low;
        }
        self.end_line()?;
        Ok(key)
    }

    fn begin_line(&mut self, name: &str) -> Result<(), Fault> {
        self.line += 1;
        self.line_start = self.place;
        for letter in name.bytes() {
            self.take(|byte| (byte == letter).then_some(()))?;
        }
        Ok(())
    }

    fn end_line(&mut self) -> Result<(), Fault> {
        self.take(|byte| (byte == b'\n').then_some(()))
    }

    /// Passes one byte and gives what it means; a fault here if there is none or it means nothing.
    fn take<T>(&mut self, meaning: impl FnOnce(u8) -> Option<T>) -> Result<T, Fault> {
        match self.peek().and_then(meaning) {
            Some(meant) => {
                self.place += 1;
                Ok(meant)
            }
            None => Err(Fault {
                line: self.line,
                column: (self.place - self.line_start) as u64 + 1,
                place: self.place,
            }),
        }
    }

    fn peek(&self) -> Option<u8> {
        self.input.get(self.place).copied()
    }
}

/// A number without leading zeros, made longer by a digit, if some number from `low` to `high` begins
/// with it. As `low` is 0 or 1, every beginning that isn't 0 is such a number itself.
fn longer_number(value: Option<u64>, digit: u8, low: u64, high: u64) -> Option<u64> {
    if !digit.is_ascii_digit() || value == Some(0) {
        return None;
    }
    let longer = 10 * value.unwrap_or(0) + u64::from(digit - b'0');
    (low..=high).contains(&longer).then_some(longer)
}

#[derive(Clone, Copy, Debug, Default, PartialEq, Eq)]
pub struct ReadRecordAnswer {
    pub refusal: Refusal,
    /// With refusal 15, the first line that is wrong or cut short; else 0.
    pub line: u64,
    /// With refusal 15, the column of the first byte with which no good record can go on; else 0.
    pub column: u64,
    pub number: u64,
    pub fields: Fields,
    pub key: Key,
    pub length: u64,
}

/// Reads the record at the front of the input. Refusal 15.
pub fn read(input: &[u8]) -> ReadRecordAnswer {
    match parse(input) {
        Ok(record) => ReadRecordAnswer {
            refusal: DONE,
            line: 0,
            column: 0,
            number: record.number,
            fields: record.fields,
            key: record.key,
            length: record.length as u64,
        },
        Err(fault) => ReadRecordAnswer {
            refusal: RECORD_BAD,
            line: fault.line,
            column: fault.column,
            ..ReadRecordAnswer::default()
        },
    }
}

#[derive(Clone, Copy, Debug, Default, PartialEq, Eq)]
pub struct WriteAnswer {
    pub refusal: Refusal,
    pub length: u64,
}

/// Puts a record's text of form 2 at the front of the buffer. Refusals 7, 1, 10, 11, 20, 17.
pub fn write(number: u64, fields: &Fields, key: &Key, buffer: &mut [u8]) -> WriteAnswer {
    match fitting_text(number, fields, key, buffer.len()) {
        Ok(text) => {
            buffer[..text.len()].copy_from_slice(text.as_bytes());
            WriteAnswer {
                refusal: DONE,
                length: text.len() as u64,
            }
        }
        Err(refusal) => WriteAnswer { refusal, length: 0 },
    }
}

fn fitting_text(number: u64, fields: &Fields, key: &Key, room: usize) -> Result<String, Refusal> {
    slot_index(number)?;
    fields.check()?;
    let shown = shown_fields(number, fields).join("\n");
    let text = format!("form=2\n{shown}\nkey={}\n", to_hex(key));
    if text.len() > room {
        return Err(RECORD_TOO_LONG);
    }
    Ok(text)
}

/// `name=value` for the number and each field in range, in the order of a record.
fn shown_fields(number: u64, fields: &Fields) -> [String; 8] {
    let algorithm = ALGORITHM_NAMES[(fields.algorithm - FIRST_ALGORITHM) as usize];
    let usage = USE_NAMES[(fields.usage - FIRST_USE) as usize];
    [
        format!("number={number}"),
        format!("version={}", fields.version),
        format!("alg={algorithm}"),
        format!("use={usage}"),
        format!("side={}", fields.side),
        format!("place={}", fields.place),
        format!("mcc={}", fields.mcc),
        format!("mnc={}", fields.mnc),
    ]
}

/// The program `slotlist`: loads the records of its input into an empty table and lists the table.
pub fn slotlist(input: &[u8]) -> Vec<u8> {
    let input = &input[..input.len().min(SLOTLIST_BYTES)];
    match loaded_table(input) {
        Ok(table) => listing(&table),
        Err(stop) => stop.line(),
    }
    .into_bytes()
}

/// Leaves what `slotlist` prints at the front of a buffer that has room for every listing, and gives its length. A smaller
/// buffer stays as it is, and the length is 0.
pub fn list(sheet: &[u8], buffer: &mut [u8]) -> u64 {
    if buffer.len() < LISTING_BYTES {
        return 0;
    }
    let text = slotlist(sheet);
    buffer[..text.len()].copy_from_slice(&text);
    text.len() as u64
}

/// Why, and at which record from 1, `slotlist` stopped.
struct Stop {
    refusal: Refusal,
    record: u64,
    line: u64,
    column: u64,
}

impl Stop {
    fn line(&self) -> String {
        let Stop {
            refusal,
            record,
            line,
            column,
        } = self;
        format!("refused={refusal} record={record} line={line} column={column}\n")
    }
}

fn loaded_table(input: &[u8]) -> Result<Vec<Slot>, Stop> {
    let mut table = empty_table();
    let mut rest = input;
    for record in 1.. {
        if rest.is_empty() {
            break;
        }
        let read = read(rest);
        let refusal = match read.refusal {
            DONE => load(&mut table, read.number, &read.fields, &read.key),
            refusal => refusal,
        };
        if refusal != DONE {
            return Err(Stop {
                refusal,
                record,
                line: read.line,
                column: read.column,
            });
        }
        rest = &rest[read.length as usize..];
    }
    Ok(table)
}

fn listing(table: &[Slot]) -> String {
    let mut text = format!("table={}\n", table.len());
    let mut filled = 0;
    for number in 1..=table.len() as u64 {
        let slot = read_slot(table, number);
        if slot.refusal == DONE {
            filled += 1;
            text += &shown_fields(number, &slot.fields).join(" ");
            text.push('\n');
        }
    }
    text + &format!("filled={filled}\n")
}
