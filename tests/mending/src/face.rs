//! The texts and the second program's answers for C. `compare.h` declares them.
//!
//! Safety, for each function: every pointer is good for what compare.h says stands there, and nothing that is written to overlaps
//! with anything else.

use std::slice::{from_raw_parts, from_raw_parts_mut};

use second::mending::mend_into;

use crate::texts::{text, Known};

/// # Safety
/// As for the file.
#[no_mangle]
pub unsafe extern "C" fn second_mend(
    text: *const u8,
    text_bytes: usize,
    out: *mut u8,
    out_bytes: usize,
    written: *mut usize,
) -> u8 {
    let text = if text_bytes == 0 {
        &[]
    } else {
        from_raw_parts(text, text_bytes)
    };
    let answer = mend_into(text, from_raw_parts_mut(out, out_bytes));
    *written = answer.length as usize;
    answer.refusal as u8
}

/// # Safety
/// As for the file.
#[no_mangle]
pub unsafe extern "C" fn damaged_text(
    seed: u64,
    number: u64,
    bytes: *mut u8,
    room: usize,
    mended: *mut u8,
    mended_bytes: *mut usize,
    known: *mut u8,
) -> usize {
    let made = text(seed, number);
    assert!(made.bytes.len() <= room);
    from_raw_parts_mut(bytes, room)[..made.bytes.len()].copy_from_slice(&made.bytes);
    *mended_bytes = 0;
    *known = match made.known {
        Known::Unknown => u8::MAX,
        Known::Refused(refusal) => refusal as u8,
        Known::Mended(text) => {
            from_raw_parts_mut(mended, text.len()).copy_from_slice(&text);
            *mended_bytes = text.len();
            0
        }
    };
    made.bytes.len()
}
