//! The numbers an engineer sees. Each is given exactly under its condition, first in a call's order.

pub type Refusal = u64;

pub const DONE: Refusal = 0;
pub const ALGORITHM_UNKNOWN: Refusal = 1;
pub const KEY_NOT_24_BYTES: Refusal = 2;
pub const IV_NOT_10_BYTES: Refusal = 3;
/// Length 0, or skip + length above 8,288.
pub const LENGTH_OUT_OF_RANGE: Refusal = 4;
/// Buffer above 8,192 bytes.
pub const BUFFER_TOO_LONG: Refusal = 5;
/// Start + length above the buffer's bits.
pub const SPAN_PAST_BUFFER: Refusal = 6;
pub const SLOT_NUMBER_UNKNOWN: Refusal = 7;
pub const SLOT_EMPTY: Refusal = 8;
pub const TARGET_FILLED: Refusal = 9;
/// A use or direction code.
pub const CODE_UNKNOWN: Refusal = 10;
pub const SIDE_OR_PLACE_OUT_OF_RANGE: Refusal = 11;
pub const USE_LACKS_DIRECTION: Refusal = 12;
/// The bit of the initial value that marks the direction.
pub const SIDE_BIT_WRONG: Refusal = 13;
/// The use asked on a move isn't within the present one.
pub const USE_NOT_WITHIN: Refusal = 14;
/// A record's text is wrong or cut short; the line is given.
pub const RECORD_BAD: Refusal = 15;
/// Not 32 slots, or a bad slot among them.
pub const TABLE_BAD: Refusal = 16;
/// A record's text is longer than the buffer.
pub const RECORD_TOO_LONG: Refusal = 17;
/// Kind, state or flag unknown, or a PDU above 8,288 bits.
pub const PDU_UNKNOWN: Refusal = 18;
pub const PDU_PARTS_DO_NOT_FIT: Refusal = 19;
/// A mobile country code or a mobile network code.
pub const NETWORK_OUT_OF_RANGE: Refusal = 20;
/// No new key of the algorithm is loaded, and nothing is sent with one.
pub const OUT_OF_SERVICE: Refusal = 21;
/// A text of a conversion doesn't read, or repeats a number.
pub const CONVERSION_TEXT_BAD: Refusal = 22;
/// More than 32 pairs, a number that is not there or already named on its side, or a record after that stands in no pair.
pub const CONVERSION_PAIR_BAD: Refusal = 23;
/// A pair that widens a use or differs.
pub const CONVERSION_GROWS: Refusal = 24;
