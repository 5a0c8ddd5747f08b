//! One key, and the table that holds it, for the card and for the second program.
#![allow(dead_code)]

use card::{Algorithm, Asked, Direction, Fields, Pdu, Slot, Span, Table, Use, SLOTS};
use second::card::Span as SecondSpan;
use second::generator::Generator;
use second::pdu::WholePdu;
use second::slots::{empty_table, Fields as SecondFields, Slot as SecondSlot};

pub const ALGORITHMS: [Algorithm; 3] = [Algorithm::Tea5, Algorithm::Tea6, Algorithm::Tea7];

pub const KEY: [u8; 24] = *b"\x3f\x7a\x0c\x91\xd2\xe4\x5b\x68\xa1\xf0\x93\x7c\x5b\xe2\xd4\x8e\x06\xb9\xa3\x7d\xc5\x1f\x8e\x24";

/// Bit 28 is 0: a send for side 0.
pub const IV: [u8; 10] = [0x5a, 0x01, 0x92, 0x37, 0xe0, 0x44, 0x00, 0xff, 0x6b, 0x1d];

pub const WHOLE_BYTE: Span = Span {
    start: 0,
    length: 8,
    skip: 0,
};

pub fn fields(algorithm: Algorithm, usage: Use) -> Fields {
    Fields {
        version: 17,
        algorithm,
        usage,
        side: 0,
        place: 28,
        mcc: 262,
        mnc: 1001,
    }
}

/// A table with `KEY` in slot 3. A key of TEA6 isn't loaded: it was there.
pub fn table(algorithm: Algorithm, usage: Use) -> Table {
    let mut table = Table::new();
    match algorithm {
        Algorithm::Tea6 => return held(fields(algorithm, usage)),
        _ => table.load(3, fields(algorithm, usage), &KEY).unwrap(),
    }
    table
}

/// A table with `KEY` in slot 3, as it comes from C.
fn held(fields: Fields) -> Table {
    let mut slots = vec![Slot::EMPTY; SLOTS];
    slots[2] = Slot {
        version: fields.version,
        algorithm: fields.algorithm as u8,
        usage: fields.usage as u8,
        side: fields.side,
        place: fields.place,
        mcc: fields.mcc,
        mnc: fields.mnc,
        key: KEY,
    };
    Table::try_from(&slots[..]).unwrap()
}

/// The same table of the second program.
pub fn second_table(algorithm: Algorithm, usage: Use) -> Vec<SecondSlot> {
    let mut table = empty_table();
    let asked = Asked::from(fields(algorithm, usage));
    table[2] = SecondSlot::filled(&second_fields(asked), &KEY);
    table
}

/// A direction in which a key of the algorithm is used, and an initial value for it.
pub fn in_service(algorithm: Algorithm) -> (Direction, [u8; 10]) {
    match algorithm {
        Algorithm::Tea6 => (Direction::Receive, other_side()),
        _ => (Direction::Send, IV),
    }
}

/// A good initial value for a receive by side 0.
pub fn other_side() -> [u8; 10] {
    let mut iv = IV;
    iv[3] ^= 0x08;
    iv
}

pub fn second_fields(asked: Asked) -> SecondFields {
    SecondFields {
        version: asked.version,
        algorithm: asked.algorithm,
        usage: asked.usage,
        side: asked.side,
        place: asked.place,
        mcc: asked.mcc,
        mnc: asked.mnc,
    }
}

pub fn second_span(span: Span) -> SecondSpan {
    SecondSpan {
        start: span.start as u64,
        length: span.length as u64,
        skip: span.skip as u64,
    }
}

pub fn second_pdu(pdu: &Pdu) -> WholePdu {
    WholePdu {
        kind: pdu.kind.into(),
        state: pdu.state.into(),
        length: pdu.length_bits as u64,
        address: pdu.address_bit as u64,
        sdu: pdu.sdu_bit as u64,
    }
}

/// What may be shown of each slot.
pub fn shown(table: &Table) -> Vec<Option<Fields>> {
    let numbers = 1..=SLOTS as u64;
    numbers.map(|number| table.read(number).ok()).collect()
}

/// The same random bytes each time.
pub fn bytes(count: usize) -> Vec<u8> {
    Generator::new(1).bytes(count)
}
