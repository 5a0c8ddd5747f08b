//! The Rust bindings' calls for C, on a table that is held here, so that tests/hygiene can look at what they
//! leave. `bound.h` declares them. The second program is in the same library, since two of Rust's can't be
//! linked to one program.
//!
//! Safety, for each function: every pointer is good for what bound.h says stands there.

extern crate oracle;

use std::slice::{from_raw_parts, from_raw_parts_mut};
use std::sync::Mutex;

use card::{Asked, Pdu, PduKind, PduState, Refusal, Slot, Span, Table, IV_BYTES, KEY_BYTES, SLOTS};

static TABLE: Mutex<Option<Table>> = Mutex::new(None);

const BOTH: u64 = 3;

fn number<T>(answer: Result<T, Refusal>) -> u8 {
    answer.err().map_or(0, Refusal::number)
}

fn on_table<T>(call: impl FnOnce(&mut Table) -> Result<T, Refusal>) -> u8 {
    let mut held = TABLE.lock().unwrap();
    number(call(held.get_or_insert_default()))
}

fn asked(algorithm: u64, place: u64) -> Asked {
    Asked {
        version: 1,
        algorithm,
        usage: BOTH,
        side: 0,
        place,
        mcc: 0,
        mnc: 0,
    }
}

/// # Safety
/// As for the crate.
#[no_mangle]
pub unsafe extern "C" fn bound_take(table: *const Slot) -> u8 {
    let mut held = TABLE.lock().unwrap();
    // The old one goes first: so the new one stands where it stood, and two runs of a call have one heap.
    *held = None;
    match Table::try_from(from_raw_parts(table, SLOTS)) {
        Ok(taken) => {
            *held = Some(taken);
            0
        }
        Err(refusal) => refusal.number(),
    }
}

/// # Safety
/// As for the crate.
#[no_mangle]
pub unsafe extern "C" fn bound_load(
    number: u64,
    algorithm: u64,
    place: u64,
    key: &[u8; KEY_BYTES],
) -> u8 {
    on_table(|table| table.load(number, asked(algorithm, place), key))
}

#[no_mangle]
pub extern "C" fn bound_move(from: u64, to: u64) -> u8 {
    on_table(|table| table.move_slot(from, to, BOTH))
}

#[no_mangle]
pub extern "C" fn bound_clear(number: u64) -> u8 {
    on_table(|table| table.clear(number))
}

#[no_mangle]
pub extern "C" fn bound_read(number: u64) -> u8 {
    on_table(|table| table.read(number))
}

/// # Safety
/// As for the crate.
#[no_mangle]
pub unsafe extern "C" fn bound_traffic(
    direction: u64,
    number: u64,
    iv: &[u8; IV_BYTES],
    buffer: *mut u8,
    buffer_bytes: usize,
    start: usize,
    length: usize,
    skip: usize,
) -> u8 {
    let buffer = from_raw_parts_mut(buffer, buffer_bytes);
    let span = Span {
        start,
        length,
        skip,
    };
    on_table(|table| table.traffic(direction, number, iv, buffer, span))
}

/// `struct card_pdu_parts` of include/card.h.
#[repr(C)]
pub struct Parts {
    kind: u32,
    state: u32,
    length_bits: usize,
    address_bit: usize,
    sdu_bit: usize,
}

/// # Safety
/// As for the crate.
#[no_mangle]
pub unsafe extern "C" fn bound_pdu(
    direction: u64,
    number: u64,
    iv: &[u8; IV_BYTES],
    buffer: *mut u8,
    buffer_bytes: usize,
    parts: &Parts,
) -> u8 {
    let buffer = from_raw_parts_mut(buffer, buffer_bytes);
    let named = PduKind::try_from(u64::from(parts.kind))
        .and_then(|kind| Ok((kind, PduState::try_from(u64::from(parts.state))?)));
    let (kind, state) = match named {
        Ok(named) => named,
        Err(refusal) => return refusal.number(),
    };
    let pdu = Pdu {
        kind,
        state,
        length_bits: parts.length_bits,
        address_bit: parts.address_bit,
        sdu_bit: parts.sdu_bit,
    };
    on_table(|table| table.pdu(direction, number, iv, buffer, &pdu))
}

/// # Safety
/// As for the crate.
#[no_mangle]
pub unsafe extern "C" fn bound_bench(
    algorithm: u64,
    key: &[u8; KEY_BYTES],
    iv: &[u8; IV_BYTES],
    buffer: *mut u8,
    buffer_bytes: usize,
    length: usize,
) -> u8 {
    let buffer = from_raw_parts_mut(buffer, buffer_bytes);
    number(card::bench(algorithm, key, iv, buffer, length))
}

/// # Safety
/// As for the crate.
#[no_mangle]
pub unsafe extern "C" fn bound_record_read(text: *const u8, text_bytes: usize) -> u8 {
    number(card::record_read(from_raw_parts(text, text_bytes)))
}

/// # Safety
/// As for the crate.
#[no_mangle]
pub unsafe extern "C" fn bound_record_write(
    slot: u64,
    algorithm: u64,
    place: u64,
    key: &[u8; KEY_BYTES],
    buffer: *mut u8,
    buffer_bytes: usize,
) -> u8 {
    let buffer = from_raw_parts_mut(buffer, buffer_bytes);
    number(card::record_write(
        slot,
        asked(algorithm, place),
        key,
        buffer,
    ))
}

/// # Safety
/// As for the crate.
#[no_mangle]
pub unsafe extern "C" fn bound_slotlist(sheet: *const u8, sheet_bytes: usize) -> u8 {
    card::slotlist(from_raw_parts(sheet, sheet_bytes));
    0
}
