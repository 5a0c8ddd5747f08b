//! Key records.

use std::slice::{from_raw_parts, from_raw_parts_mut};

use second::records;
use second::rijndael::Key;
use second::slots::Fields;

/// # Safety
/// As for the crate.
#[no_mangle]
pub unsafe extern "C" fn oracle_record_read(
    text: *const u8,
    text_bytes: usize,
    shown: *mut [u64; 8],
    key: *mut Key,
    used: *mut usize,
    line: *mut usize,
    column: *mut usize,
) -> u8 {
    let read = records::read(from_raw_parts(text, text_bytes));
    let fields = read.fields;
    *shown = [
        read.number,
        fields.version.into(),
        fields.algorithm,
        fields.usage,
        fields.side,
        fields.place,
        fields.mcc,
        fields.mnc,
    ];
    *key = read.key;
    *used = read.length as usize;
    *line = read.line as usize;
    *column = read.column as usize;
    read.refusal as u8
}

/// # Safety
/// As for the crate.
#[no_mangle]
pub unsafe extern "C" fn oracle_record_write(
    number: u64,
    version: u16,
    algorithm: u64,
    usage: u64,
    side: u64,
    place: u64,
    mcc: u64,
    mnc: u64,
    key: *const Key,
    buffer: *mut u8,
    buffer_bytes: usize,
    length: *mut usize,
) -> u8 {
    let fields = Fields {
        version,
        algorithm,
        usage,
        side,
        place,
        mcc,
        mnc,
    };
    let buffer = from_raw_parts_mut(buffer, buffer_bytes);
    let written = records::write(number, &fields, &*key, buffer);
    *length = written.length as usize;
    written.refusal as u8
}

/// # Safety
/// As for the crate.
#[no_mangle]
pub unsafe extern "C" fn oracle_slotlist(
    sheet: *const u8,
    sheet_bytes: usize,
    buffer: *mut u8,
    buffer_bytes: usize,
) -> usize {
    let sheet = from_raw_parts(sheet, sheet_bytes);
    records::list(sheet, from_raw_parts_mut(buffer, buffer_bytes)) as usize
}
