//! What may be shown of a key, and what a load is asked for.

use crate::{Algorithm, Refusal, Use};

/// What may be shown of a filled slot: everything but its key.
#[derive(Clone, Copy, Debug, PartialEq, Eq, Hash)]
pub struct Fields {
    /// The key's version.
    pub version: u16,
    /// The key's algorithm.
    pub algorithm: Algorithm,
    /// What the key is for.
    pub usage: Use,
    /// 0 or 1: what bit `place` of the initial value is in a send.
    pub side: u8,
    /// 0 to 79: the bit of the initial value that marks the direction.
    pub place: u8,
    /// The network's mobile country code, 0 to 1,023.
    pub mcc: u16,
    /// The network's mobile network code, 0 to 16,383.
    pub mnc: u16,
}

/// The same as numbers that an engineer typed, good or not. The card tests them.
///
/// ```
/// use card::{Asked, Refusal, Table};
///
/// let asked = Asked { version: 17, algorithm: 7, usage: 1, side: 0, place: 80, mcc: 0, mnc: 0 };
/// assert_eq!(Table::new().load(3, asked, &[7; 24]), Err(Refusal::SideOrPlace));
/// ```
#[derive(Clone, Copy, Debug, PartialEq, Eq, Hash)]
pub struct Asked {
    /// The key's version.
    pub version: u16,
    /// 5, 6 or 7; any other number is refused with 1, and 6 with 21 where a key is loaded.
    pub algorithm: u64,
    /// 1 sending, 2 receiving, 3 both; any other number is refused with 10.
    pub usage: u64,
    /// 0 or 1; any other number is refused with 11.
    pub side: u64,
    /// 0 to 79; any other number is refused with 11.
    pub place: u64,
    /// 0 to 1,023; any other number is refused with 20.
    pub mcc: u64,
    /// 0 to 16,383; any other number is refused with 20.
    pub mnc: u64,
}

impl From<Fields> for Asked {
    fn from(fields: Fields) -> Asked {
        Asked {
            version: fields.version,
            algorithm: fields.algorithm.into(),
            usage: fields.usage.into(),
            side: fields.side.into(),
            place: fields.place.into(),
            mcc: fields.mcc.into(),
            mnc: fields.mnc.into(),
        }
    }
}

impl Fields {
    /// Version, algorithm, use, side, place and network as a call that was done reports them. Its numbers are
    /// good ones, so this gives no refusal.
    pub(crate) fn reported(numbers: [u64; 7]) -> Result<Fields, Refusal> {
        let [version, algorithm, usage, side, place, mcc, mnc] = numbers;
        Ok(Fields {
            version: version as u16,
            algorithm: algorithm.try_into()?,
            usage: usage.try_into()?,
            side: side as u8,
            place: place as u8,
            mcc: mcc as u16,
            mnc: mnc as u16,
        })
    }
}
