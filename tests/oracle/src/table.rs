//! Calls on a lent table.

use std::slice::{from_raw_parts, from_raw_parts_mut};

use second::card::{self, Span};
use second::pdu::{self, WholePdu};
use second::rijndael::Key;
use second::slots::{self, Fields, Slot, SLOTS};

/// A slot as it lies in memory.
#[repr(C)]
pub struct LentSlot {
    version: u16,
    algorithm: u8,
    usage: u8,
    side: u8,
    place: u8,
    mcc: u16,
    mnc: u16,
    key: Key,
}

/// A table as the second program has it. Of one with more than 33 slots it sees 33, which are too many as well.
unsafe fn taken(table: *const LentSlot, slots: usize) -> Vec<Slot> {
    from_raw_parts(table, slots.min(SLOTS + 1))
        .iter()
        .map(|lent| Slot {
            version: lent.version.into(),
            algorithm: lent.algorithm.into(),
            usage: lent.usage.into(),
            side: lent.side.into(),
            place: lent.place.into(),
            mcc: lent.mcc.into(),
            mnc: lent.mnc.into(),
            key: lent.key,
        })
        .collect()
}

unsafe fn give_back(table: *mut LentSlot, changed: &[Slot]) {
    for (lent, slot) in from_raw_parts_mut(table, changed.len())
        .iter_mut()
        .zip(changed)
    {
        *lent = LentSlot {
            version: slot.version as u16,
            algorithm: slot.algorithm as u8,
            usage: slot.usage as u8,
            side: slot.side as u8,
            place: slot.place as u8,
            mcc: slot.mcc as u16,
            mnc: slot.mnc as u16,
            key: slot.key,
        };
    }
}

/// Makes a call that may change the table.
unsafe fn change(table: *mut LentSlot, slots: usize, call: impl FnOnce(&mut [Slot]) -> u64) -> u8 {
    let before = taken(table, slots);
    let mut after = before.clone();
    let refusal = call(&mut after);
    if after != before {
        give_back(table, &after);
    }
    refusal as u8
}

/// # Safety
/// As for the crate.
#[no_mangle]
pub unsafe extern "C" fn oracle_load(
    table: *mut LentSlot,
    slots: usize,
    number: u64,
    version: u16,
    algorithm: u64,
    usage: u64,
    side: u64,
    place: u64,
    mcc: u64,
    mnc: u64,
    key: *const Key,
) -> u8 {
    let fields = Fields {
        version,
        algorithm,
        usage,
        side,
        place,
        mcc,
        mnc,
    };
    change(table, slots, |table| {
        slots::load(table, number, &fields, &*key)
    })
}

/// # Safety
/// As for the crate.
#[no_mangle]
pub unsafe extern "C" fn oracle_move(
    table: *mut LentSlot,
    slots: usize,
    from: u64,
    to: u64,
    asked: u64,
) -> u8 {
    change(table, slots, |table| {
        slots::move_slot(table, from, to, asked)
    })
}

/// # Safety
/// As for the crate.
#[no_mangle]
pub unsafe extern "C" fn oracle_clear(table: *mut LentSlot, slots: usize, number: u64) -> u8 {
    change(table, slots, |table| slots::clear(table, number))
}

/// # Safety
/// As for the crate.
#[no_mangle]
pub unsafe extern "C" fn oracle_read(
    table: *const LentSlot,
    slots: usize,
    number: u64,
    found: *mut u64,
    version: *mut u16,
    algorithm: *mut u8,
    usage: *mut u8,
    side: *mut u8,
    place: *mut u8,
    mcc: *mut u16,
    mnc: *mut u16,
) -> u8 {
    let read = slots::read(&taken(table, slots), number);
    *found = read.number;
    *version = read.fields.version;
    *algorithm = read.fields.algorithm as u8;
    *usage = read.fields.usage as u8;
    *side = read.fields.side as u8;
    *place = read.fields.place as u8;
    *mcc = read.fields.mcc as u16;
    *mnc = read.fields.mnc as u16;
    read.refusal as u8
}

/// # Safety
/// As for the crate.
#[no_mangle]
pub unsafe extern "C" fn oracle_traffic(
    table: *const LentSlot,
    slots: usize,
    direction: u64,
    number: u64,
    iv: *const u8,
    iv_bytes: usize,
    buffer: *mut u8,
    buffer_bytes: usize,
    start: usize,
    length: usize,
    skip: usize,
    blocks: *mut usize,
) -> u8 {
    let span = Span {
        start: start as u64,
        length: length as u64,
        skip: skip as u64,
    };
    let table = taken(table, slots);
    let iv = from_raw_parts(iv, iv_bytes);
    let buffer = from_raw_parts_mut(buffer, buffer_bytes);
    let answer = card::traffic(&table, direction, number, iv, buffer, span);
    *blocks = answer.blocks as usize;
    answer.refusal as u8
}

/// # Safety
/// As for the crate.
#[no_mangle]
pub unsafe extern "C" fn oracle_pdu(
    table: *const LentSlot,
    slots: usize,
    direction: u64,
    number: u64,
    iv: *const u8,
    iv_bytes: usize,
    buffer: *mut u8,
    buffer_bytes: usize,
    kind: u64,
    state: u64,
    length_bits: usize,
    address_bit: usize,
    sdu_bit: usize,
    blocks: *mut usize,
) -> u8 {
    let whole = WholePdu {
        kind,
        state,
        length: length_bits as u64,
        address: address_bit as u64,
        sdu: sdu_bit as u64,
    };
    let table = taken(table, slots);
    let iv = from_raw_parts(iv, iv_bytes);
    let buffer = from_raw_parts_mut(buffer, buffer_bytes);
    let answer = pdu::pdu(&table, direction, number, iv, buffer, &whole);
    *blocks = answer.blocks as usize;
    answer.refusal as u8
}
