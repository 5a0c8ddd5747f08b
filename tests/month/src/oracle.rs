//! The second program's month sheet for C, with the signature of `month_of_log`.

use second::month::month_sheet;

/// # Safety
/// `log` points to `log_bytes` bytes and `sheet` to `sheet_bytes` bytes that may be written.
#[no_mangle]
pub unsafe extern "C" fn second_month_of_log(
    log: *const u8,
    log_bytes: usize,
    sheet: *mut u8,
    sheet_bytes: usize,
) -> usize {
    let log = if log_bytes == 0 {
        &[]
    } else {
        std::slice::from_raw_parts(log, log_bytes)
    };
    let text = month_sheet(log);
    assert!(text.len() <= sheet_bytes);
    std::ptr::copy_nonoverlapping(text.as_ptr(), sheet, text.len());
    text.len()
}
