//! The second program for C, with the signatures of include/card.h, so that one harness can make a call to
//! both. `oracle.h` declares it. Here is no rule of the card: numbers are widened and narrowed, and what the
//! second program gives is put where the caller wants it.
//!
//! Safety, for each function: every pointer is good for what include/card.h says stands there, and nothing
//! that is written to overlaps with anything else.

mod records;
mod secrets;
mod table;

use std::slice::{from_raw_parts, from_raw_parts_mut};

use second::card;
use second::plan::{self, Pdu};

/// # Safety
/// As for the crate.
#[no_mangle]
pub unsafe extern "C" fn oracle_bench(
    algorithm: u64,
    key: *const u8,
    key_bytes: usize,
    iv: *const u8,
    iv_bytes: usize,
    buffer: *mut u8,
    buffer_bytes: usize,
    length: usize,
    blocks: *mut usize,
) -> u8 {
    let key = from_raw_parts(key, key_bytes);
    let iv = from_raw_parts(iv, iv_bytes);
    let buffer = from_raw_parts_mut(buffer, buffer_bytes);
    let answer = card::bench(algorithm, key, iv, buffer, length as u64);
    *blocks = answer.blocks as usize;
    answer.refusal as u8
}

/// # Safety
/// As for the crate.
#[no_mangle]
pub unsafe extern "C" fn oracle_plain(
    algorithm: u64,
    key: *const u8,
    key_bytes: usize,
    iv: *const u8,
    iv_bytes: usize,
    buffer: *mut u8,
    buffer_bytes: usize,
    length: usize,
    skip: usize,
    blocks: *mut usize,
) -> u8 {
    let key = from_raw_parts(key, key_bytes);
    let iv = from_raw_parts(iv, iv_bytes);
    let buffer = from_raw_parts_mut(buffer, buffer_bytes);
    let answer = card::bench_from(algorithm, key, iv, buffer, length as u64, skip as u64);
    *blocks = answer.blocks as usize;
    answer.refusal as u8
}

/// # Safety
/// As for the crate.
#[no_mangle]
pub unsafe extern "C" fn oracle_plan(
    kind: u64,
    state: u64,
    flag: u64,
    length: usize,
    address: usize,
    sdu: usize,
    pieces: *mut [usize; 6],
) -> u8 {
    let answer = plan::plan(&Pdu {
        kind,
        state,
        flag,
        length: length as u64,
        address: address as u64,
        sdu: sdu as u64,
    });
    let [first, second] = answer.pieces;
    *pieces = [
        first.start,
        first.length,
        first.skip,
        second.start,
        second.length,
        second.skip,
    ]
    .map(|number| number as usize);
    answer.refusal as u8
}
