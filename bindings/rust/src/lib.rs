#![doc = include_str!("../README.md")]
#![deny(missing_docs)]
#![deny(unsafe_code)]

mod bench;
mod code;
#[cfg(feature = "conversion")]
mod conversion;
#[allow(unsafe_code)]
mod ffi;
mod fields;
mod key;
#[cfg(feature = "plain")]
mod plain;
mod plan;
mod record;
mod refusal;
mod span;
mod table;
#[allow(unsafe_code)]
mod wipe;

pub use bench::bench;
pub use code::{Algorithm, Code, Direction, PduKind, PduState, Use, KEEP};
#[cfg(feature = "conversion")]
pub use conversion::{converted, Pair};
pub use fields::{Asked, Fields};
pub use key::Key;
#[cfg(feature = "plain")]
pub use plain::plain;
pub use plan::{plan, Pdu};
pub use record::{record_read, record_write, slotlist, Record};
pub use refusal::Refusal;
pub use span::Span;
pub use table::{Slot, Table};
pub use wipe::WIPED_BYTES;

/// The slots of a table. They are numbered from 1.
pub const SLOTS: usize = 32;
/// The bytes of a key.
pub const KEY_BYTES: usize = 24;
/// The bytes of an initial value.
pub const IV_BYTES: usize = 10;
/// The longest buffer of a call.
pub const BUFFER_BYTES: usize = 8192;
/// The most keystream bits of a call, its skip included.
pub const KEYSTREAM_BITS: usize = 8288;
/// The longest record.
pub const RECORD_BYTES: usize = 137;
/// Room for every listing of a sheet.
pub const LISTING_BYTES: usize = 2560;
/// The most pairs of a conversion.
#[cfg(feature = "conversion")]
pub const PAIRS: usize = 32;
