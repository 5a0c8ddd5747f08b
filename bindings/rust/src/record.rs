//! Keys as text.

use crate::{ffi, Asked, Fields, Key, Refusal, KEY_BYTES};

/// A key record as it was read.
#[derive(Clone, Debug)]
pub struct Record {
    /// The slot that it is for.
    pub number: u64,
    /// What may be shown of it.
    pub fields: Fields,
    /// Its key.
    pub key: Key,
    /// The bytes that its text took.
    pub length: usize,
}

/// Reads one record of form 1 or 2 from the front of a text; form 1 has no network, and gives 0 for both codes. What follows it is not judged.
///
/// Refused: 15, with line and column of the first byte at which no good record can go on;
/// [`Refusal::shown_in`] points at it.
///
/// A sheet of records is loaded so:
///
/// ```
/// use card::{record_read, Refusal, Table};
///
/// fn loaded(mut sheet: &[u8]) -> Result<Table, Refusal> {
///     let mut table = Table::new();
///     while !sheet.is_empty() {
///         let record = record_read(sheet)?;
///         table.load(record.number, record.fields, &record.key)?;
///         sheet = &sheet[record.length..];
///     }
///     Ok(table)
/// }
///
/// assert!(loaded(include_bytes!("../../../samples/keys.txt")).is_ok());
/// let refusal = loaded(include_bytes!("../../../samples/damaged.txt")).unwrap_err();
/// assert_eq!(refusal, Refusal::RecordText { form: 1, line: 6, column: 8 });
/// ```
pub fn record_read(text: &[u8]) -> Result<Record, Refusal> {
    ffi::record_read(text)
}

/// Writes a record of form 2 to the front of a buffer, keeps the bytes after it and gives its length, 124 to
/// [`RECORD_BYTES`](crate::RECORD_BYTES).
///
/// Refused: 7, 1, 10, 11, 20, 17.
///
/// ```
/// use card::{record_write, Algorithm, Fields, Use, RECORD_BYTES};
///
/// let fields = Fields { version: 9, algorithm: Algorithm::Tea5, usage: Use::Both, side: 1, place: 28, mcc: 262, mnc: 1001 };
/// let mut buffer = [0; RECORD_BYTES];
/// let length = record_write(4, fields, &[0xab; 24], &mut buffer)?;
/// assert!(buffer[..length].starts_with(b"form=2\nnumber=4\nversion=9\nalg=TEA5\nuse=BOTH\n"));
/// # Ok::<(), card::Refusal>(())
/// ```
pub fn record_write(
    number: u64,
    fields: impl Into<Asked>,
    key: &[u8; KEY_BYTES],
    buffer: &mut [u8],
) -> Result<usize, Refusal> {
    ffi::record_write(number, &fields.into(), key, buffer)
}

/// The listing of a sheet of records: every record is loaded into an empty table, and each filled slot is
/// listed without its key. Where a record is refused, the listing is the refusal's line alone.
///
/// ```
/// use card::slotlist;
///
/// let listing = slotlist(include_bytes!("../../../samples/keys.txt"));
/// assert!(listing.starts_with("table=32\nnumber=1 version=17 alg=TEA5 use=BOTH side=0 place=28 mcc=0 mnc=0\n"));
/// assert!(listing.ends_with("filled=4\n"));
/// let refused = slotlist(include_bytes!("../../../samples/damaged.txt"));
/// assert_eq!(refused, "refused=15 record=2 line=6 column=8\n");
/// ```
pub fn slotlist(sheet: &[u8]) -> String {
    let (length, buffer) = ffi::slotlist(sheet);
    String::from_utf8_lossy(&buffer[..length]).into_owned()
}
