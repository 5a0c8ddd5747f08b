//! The table of key slots.

use std::fmt;

use crate::{ffi, Asked, Code, Direction, Fields, Pdu, Refusal, Span, Use, KEY_BYTES, SLOTS};

/// A slot as it lies in memory, `struct card_slot` of include/card.h. All zeros: empty.
///
/// Only for a table that comes from C, or from a file: see `Table::try_from`.
#[repr(C)]
#[derive(Clone)]
pub struct Slot {
    /// The key's version.
    pub version: u16,
    /// 5, 6 or 7.
    pub algorithm: u8,
    /// 1 sending, 2 receiving, 3 both.
    pub usage: u8,
    /// 0 or 1.
    pub side: u8,
    /// 0 to 79.
    pub place: u8,
    /// 0 to 1,023.
    pub mcc: u16,
    /// 0 to 16,383.
    pub mnc: u16,
    /// The key, which `Debug` doesn't print.
    pub key: [u8; KEY_BYTES],
}

impl Slot {
    /// A slot without a key.
    pub const EMPTY: Slot = Slot {
        version: 0,
        algorithm: 0,
        usage: 0,
        side: 0,
        place: 0,
        mcc: 0,
        mnc: 0,
        key: [0; KEY_BYTES],
    };
}

impl fmt::Debug for Slot {
    fn fmt(&self, f: &mut fmt::Formatter) -> fmt::Result {
        f.debug_struct("Slot")
            .field("version", &self.version)
            .field("algorithm", &self.algorithm)
            .field("usage", &self.usage)
            .field("side", &self.side)
            .field("place", &self.place)
            .field("mcc", &self.mcc)
            .field("mnc", &self.mnc)
            .finish_non_exhaustive()
    }
}

/// The slots of a table, which are overwritten with zeros when they are dropped.
pub(crate) struct Slots(pub(crate) [Slot; SLOTS]);

impl Drop for Slots {
    fn drop(&mut self) {
        for slot in &mut self.0 {
            ffi::overwrite(slot, Slot::EMPTY);
        }
    }
}

/// Thirty-two key slots, numbered from 1.
///
/// A key goes in by [`load`](Table::load) and doesn't come out again: no call gives it and `Debug`
/// doesn't print it. The slots stay at one place in memory while the table is moved about, and are
/// overwritten with zeros when it is dropped.
///
/// A slot number is any number of 64 bits, and one that isn't 1 to 32 is refused with 7. A call that is
/// refused changes nothing.
pub struct Table {
    slots: Box<Slots>,
}

impl Table {
    /// A table of empty slots.
    pub fn new() -> Table {
        Table {
            slots: Box::new(Slots([Slot::EMPTY; SLOTS])),
        }
    }

    /// Fills an empty slot, with [`Fields`] or with the numbers of an [`Asked`].
    ///
    /// Refused: 7, 1, 21 (TEA6), 10, 11, 20, 9.
    pub fn load(
        &mut self,
        number: u64,
        fields: impl Into<Asked>,
        key: &[u8; KEY_BYTES],
    ) -> Result<(), Refusal> {
        ffi::load(&mut self.slots.0, number, &fields.into(), key)
    }

    /// Carries a slot to an empty one and empties the first. The asked use must lie within
    /// the present one; asked [`KEEP`](crate::KEEP) keeps it, unless the key is for both. A slot moved to itself is
    /// refused with 9.
    ///
    /// Refused: 7 for either number, 8, 9, 10, 14.
    pub fn move_slot(
        &mut self,
        from: u64,
        to: u64,
        asked: impl Into<Code<Use>>,
    ) -> Result<(), Refusal> {
        ffi::move_slot(&mut self.slots.0, from, to, asked.into().number())
    }

    /// Empties a filled slot.
    ///
    /// Refused: 7, 8.
    pub fn clear(&mut self, number: u64) -> Result<(), Refusal> {
        ffi::clear(&mut self.slots.0, number)
    }

    /// Gives what may be shown of a filled slot.
    ///
    /// Refused: 7, 8.
    pub fn read(&self, number: u64) -> Result<Fields, Refusal> {
        ffi::read(&self.slots.0, number)
    }

    /// Ciphers a span of the buffer with the key of a slot, and gives the number of keystream blocks,
    /// of 256 bits, in which a used bit lies. The same call again brings the buffer back.
    ///
    /// Refused: 10, 7, 8, 12, 21 (a send with TEA6), 3, 13, 5, 4, 6.
    pub fn traffic(
        &self,
        direction: impl Into<Code<Direction>>,
        number: u64,
        iv: &[u8],
        buffer: &mut [u8],
        span: Span,
    ) -> Result<usize, Refusal> {
        let direction = direction.into().number();
        ffi::traffic(&self.slots.0, direction, number, iv, buffer, span)
    }

    /// Ciphers a whole PDU, which stands in the buffer from bit 0 on, with the key of a slot: every piece of its
    /// [`plan`](crate::plan), or no bit. The fragmentation flag is read from the PDU. It gives the number of different
    /// keystream blocks that are used, 0 where there is no piece. The same call again brings the PDU back.
    ///
    /// Refused: 10, 7, 8, 12, 21 (a send with TEA6), 3, 13, 5, 6, 18, 19.
    ///
    /// ```
    /// use card::{Algorithm, Direction, Fields, Pdu, PduKind, PduState, Table, Use};
    ///
    /// let fields = Fields { version: 0, algorithm: Algorithm::Tea7, usage: Use::Send, side: 0, place: 0, mcc: 262, mnc: 1001 };
    /// let mut table = Table::new();
    /// table.load(1, fields, &[7; 24])?;
    /// let pdu = Pdu {
    ///     kind: PduKind::DmacData,
    ///     state: PduState::AddressAndSdu,
    ///     length_bits: 124,
    ///     address_bit: 10,
    ///     sdu_bit: 50,
    /// };
    /// let mut buffer = [0; 16];
    /// assert_eq!(table.pdu(Direction::Send, 1, &[0; 10], &mut buffer, &pdu)?, 1);
    /// assert_eq!(table.pdu(Direction::Send, 1, &[0; 10], &mut buffer, &pdu)?, 1);
    /// assert_eq!(buffer, [0; 16]);
    /// # Ok::<(), card::Refusal>(())
    /// ```
    pub fn pdu(
        &self,
        direction: impl Into<Code<Direction>>,
        number: u64,
        iv: &[u8],
        buffer: &mut [u8],
        pdu: &Pdu,
    ) -> Result<usize, Refusal> {
        let direction = direction.into().number();
        ffi::pdu(&self.slots.0, direction, number, iv, buffer, pdu)
    }
}

impl Default for Table {
    fn default() -> Table {
        Table::new()
    }
}

/// The filled slots with their fields.
impl fmt::Debug for Table {
    fn fmt(&self, f: &mut fmt::Formatter) -> fmt::Result {
        let numbers = 1..=SLOTS as u64;
        let filled = numbers.filter_map(|number| Some((number, self.read(number).ok()?)));
        f.debug_map().entries(filled).finish()
    }
}

/// Takes over a copy of a table that comes from C, or from a file.
///
/// Refused: 16, where it isn't 32 slots or one of them is bad. The card itself is asked, so no call on
/// a `Table` is refused with 16.
impl TryFrom<&[Slot]> for Table {
    type Error = Refusal;

    fn try_from(slots: &[Slot]) -> Result<Table, Refusal> {
        if let Err(Refusal::Table) = ffi::read(slots, 1) {
            return Err(Refusal::Table);
        }
        let mut table = Table::new();
        table.slots.0.clone_from_slice(slots);
        Ok(table)
    }
}
