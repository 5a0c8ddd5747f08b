//! The table of key slots and its calls: load, move, clear and read.

use crate::refusals::*;
use crate::rijndael::{Key, KEY_BYTES};
use crate::tea::Algorithm;

/// How many slots a table has. They are numbered from 1.
pub const SLOTS: usize = 32;

pub const SEND: u64 = 1;
pub const RECEIVE: u64 = 2;
pub const BOTH: u64 = 3;

/// Asked on a move, it keeps the use, if that is sending or receiving alone.
pub const KEEP_USE: u64 = 0;

/// The highest number of a bit of the initial value.
pub const LAST_PLACE: u64 = 79;

/// The highest mobile country code, of 10 bits, and mobile network code, of 14.
pub const LAST_MCC: u64 = 1023;
pub const LAST_MNC: u64 = 16383;

/// TEA6: dropped by the networks. A key of it can still receive, be read, moved and cleared.
pub const DROPPED: u64 = 6;

/// What may be shown of a slot. The version is 16 bits by its kind; the other numbers are tested.
#[derive(Clone, Copy, Debug, Default, PartialEq, Eq)]
pub struct Fields {
    pub version: u16,
    pub algorithm: u64,
    pub usage: u64,
    pub side: u64,
    pub place: u64,
    pub mcc: u64,
    pub mnc: u64,
}

impl Fields {
    /// Refusals 1, 10, 11, 20.
    pub fn check(&self) -> Result<(), Refusal> {
        self.check_algorithm()?;
        self.check_rest()
    }

    /// The same of a new key: 1, 21, 10, 11, 20.
    fn check_new(&self) -> Result<(), Refusal> {
        self.check_algorithm()?;
        if self.algorithm == DROPPED {
            return Err(OUT_OF_SERVICE);
        }
        self.check_rest()
    }

    fn check_algorithm(&self) -> Result<(), Refusal> {
        match Algorithm::from_number(self.algorithm) {
            Some(_) => Ok(()),
            None => Err(ALGORITHM_UNKNOWN),
        }
    }

    /// Refusals 10, 11, 20.
    fn check_rest(&self) -> Result<(), Refusal> {
        if !(SEND..=BOTH).contains(&self.usage) {
            return Err(CODE_UNKNOWN);
        }
        if self.side > 1 || self.place > LAST_PLACE {
            return Err(SIDE_OR_PLACE_OUT_OF_RANGE);
        }
        if self.mcc > LAST_MCC || self.mnc > LAST_MNC {
            return Err(NETWORK_OUT_OF_RANGE);
        }
        Ok(())
    }
}

/// A slot of a lent table. Its owner may have put anything into it, also a version above 16 bits.
#[derive(Clone, Copy, Debug, Default, PartialEq, Eq)]
pub struct Slot {
    pub version: u64,
    pub algorithm: u64,
    pub usage: u64,
    pub side: u64,
    pub place: u64,
    pub mcc: u64,
    pub mnc: u64,
    pub key: Key,
}

#[derive(Clone, Copy, Debug, PartialEq, Eq)]
pub enum Content {
    Empty,
    Filled(Fields),
    Bad,
}

impl Slot {
    pub const EMPTY: Slot = Slot {
        version: 0,
        algorithm: 0,
        usage: 0,
        side: 0,
        place: 0,
        mcc: 0,
        mnc: 0,
        key: [0; KEY_BYTES],
    };

    pub fn filled(fields: &Fields, key: &Key) -> Slot {
        Slot {
            version: u64::from(fields.version),
            algorithm: fields.algorithm,
            usage: fields.usage,
            side: fields.side,
            place: fields.place,
            mcc: fields.mcc,
            mnc: fields.mnc,
            key: *key,
        }
    }

    pub fn content(&self) -> Content {
        match self.fields() {
            _ if *self == Slot::EMPTY => Content::Empty,
            Some(fields) if fields.check().is_ok() => Content::Filled(fields),
            _ => Content::Bad,
        }
    }

    fn fields(&self) -> Option<Fields> {
        Some(Fields {
            version: u16::try_from(self.version).ok()?,
            algorithm: self.algorithm,
            usage: self.usage,
            side: self.side,
            place: self.place,
            mcc: self.mcc,
            mnc: self.mnc,
        })
    }
}

/// A table of 32 empty slots.
pub fn empty_table() -> Vec<Slot> {
    vec![Slot::EMPTY; SLOTS]
}

/// Whether a use, or a direction, gives no right that `wide` doesn't give.
pub fn within(narrow: u64, wide: u64) -> bool {
    narrow == wide || wide == BOTH
}

/// The fields of the filled slots of a good table; refusal 16.
pub fn table_fields(table: &[Slot]) -> Result<[Option<Fields>; SLOTS], Refusal> {
    let table: &[Slot; SLOTS] = table.try_into().map_err(|_| TABLE_BAD)?;
    let mut fields = [None; SLOTS];
    for (slot, fields) in table.iter().zip(&mut fields) {
        *fields = match slot.content() {
            Content::Empty => None,
            Content::Filled(found) => Some(found),
            Content::Bad => return Err(TABLE_BAD),
        };
    }
    Ok(fields)
}

/// Where the slot of a number stands in the table; refusal 7.
pub fn slot_index(number: u64) -> Result<usize, Refusal> {
    if (1..=SLOTS as u64).contains(&number) {
        Ok(number as usize - 1)
    } else {
        Err(SLOT_NUMBER_UNKNOWN)
    }
}

/// Fills an empty slot. Refusals 16, 7, 1, 21, 10, 11, 20, 9.
pub fn load(table: &mut [Slot], number: u64, fields: &Fields, key: &Key) -> Refusal {
    match load_index(table, number, fields) {
        Ok(index) => {
            table[index] = Slot::filled(fields, key);
            DONE
        }
        Err(refusal) => refusal,
    }
}

fn load_index(table: &[Slot], number: u64, fields: &Fields) -> Result<usize, Refusal> {
    let present = table_fields(table)?;
    let index = slot_index(number)?;
    fields.check_new()?;
    match present[index] {
        Some(_) => Err(TARGET_FILLED),
        None => Ok(index),
    }
}

/// Carries a slot to an empty one, with the asked use, and empties the first.
/// Refusals 16, 7 for either number, 8, 9, 10, 14.
pub fn move_slot(table: &mut [Slot], from: u64, to: u64, asked: u64) -> Refusal {
    match checked_move(table, from, to, asked) {
        Ok((from, to, usage)) => {
            table[to] = Slot {
                usage,
                ..table[from]
            };
            table[from] = Slot::EMPTY;
            DONE
        }
        Err(refusal) => refusal,
    }
}

fn checked_move(
    table: &[Slot],
    from: u64,
    to: u64,
    asked: u64,
) -> Result<(usize, usize, u64), Refusal> {
    let present = table_fields(table)?;
    let from = slot_index(from)?;
    let to = slot_index(to)?;
    let fields = present[from].ok_or(SLOT_EMPTY)?;
    if present[to].is_some() {
        return Err(TARGET_FILLED);
    }
    Ok((from, to, moved_use(fields.usage, asked)?))
}

/// The use in the second slot; refusals 10, 14. Both must be asked for.
fn moved_use(present: u64, asked: u64) -> Result<u64, Refusal> {
    match asked {
        KEEP_USE if present == BOTH => Err(USE_NOT_WITHIN),
        KEEP_USE => Ok(present),
        SEND..=BOTH if within(asked, present) => Ok(asked),
        SEND..=BOTH => Err(USE_NOT_WITHIN),
        _ => Err(CODE_UNKNOWN),
    }
}

/// Empties a filled slot. Refusals 16, 7, 8.
pub fn clear(table: &mut [Slot], number: u64) -> Refusal {
    match filled_slot(table, number) {
        Ok((index, _)) => {
            table[index] = Slot::EMPTY;
            DONE
        }
        Err(refusal) => refusal,
    }
}

#[derive(Clone, Copy, Debug, Default, PartialEq, Eq)]
pub struct ReadAnswer {
    pub refusal: Refusal,
    pub number: u64,
    pub fields: Fields,
}

/// A filled slot's number and fields, without its key. Refusals 16, 7, 8.
pub fn read(table: &[Slot], number: u64) -> ReadAnswer {
    match filled_slot(table, number) {
        Ok((_, fields)) => ReadAnswer {
            refusal: DONE,
            number,
            fields,
        },
        Err(refusal) => ReadAnswer {
            refusal,
            ..ReadAnswer::default()
        },
    }
}

fn filled_slot(table: &[Slot], number: u64) -> Result<(usize, Fields), Refusal> {
    let present = table_fields(table)?;
    let index = slot_index(number)?;
    let fields = present[index].ok_or(SLOT_EMPTY)?;
    Ok((index, fields))
}
