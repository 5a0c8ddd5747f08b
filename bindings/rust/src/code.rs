//! The card's codes by name, and numbers that may be no code.
//!
//! A name can't be wrong. A number that an engineer typed can: a [`Code`] takes it to the card as it
//! is, and the card refuses it in its turn among the call's other tests.

use std::marker::PhantomData;

use crate::Refusal;

/// The algorithm of a key.
#[derive(Clone, Copy, Debug, PartialEq, Eq, Hash)]
pub enum Algorithm {
    /// TEA5.
    Tea5 = 5,
    /// TEA6, which is out of service: no key of it is loaded, and none sends. One that is there can receive, be read,
    /// moved and cleared.
    Tea6 = 6,
    /// TEA7.
    Tea7 = 7,
}

/// What a key is for.
#[derive(Clone, Copy, Debug, PartialEq, Eq, Hash)]
pub enum Use {
    /// Sending only.
    Send = 1,
    /// Receiving only.
    Receive = 2,
    /// Sending and receiving.
    Both = 3,
}

/// What a key is used for in a call.
#[derive(Clone, Copy, Debug, PartialEq, Eq, Hash)]
pub enum Direction {
    /// The initial value's bit `place` must be the slot's side.
    Send = 1,
    /// The initial value's bit `place` must not be the slot's side.
    Receive = 2,
}

/// Which direct mode PDU it is.
#[derive(Clone, Copy, Debug, PartialEq, Eq, Hash)]
pub enum PduKind {
    /// DMAC-DATA.
    DmacData = 1,
    /// DMAC-SYNC on SCH/H.
    DmacSyncSchH = 2,
    /// DMAC-SYNC on SCH/S.
    DmacSyncSchS = 3,
}

/// A direct mode PDU's encryption state: what of it is ciphered. A DMAC-SYNC on SCH/S is clear in every state.
#[derive(Clone, Copy, Debug, PartialEq, Eq, Hash)]
pub enum PduState {
    /// Nothing.
    AllClear = 0,
    /// What follows the head: 10 bits of a DMAC-DATA, 12 of a DMAC-SYNC, 18 if its fragmentation flag is 1.
    AfterHead = 1,
    /// The DM-SDU.
    Sdu = 2,
    /// The address and the DM-SDU.
    AddressAndSdu = 3,
}

/// A code of the kind `T`, or any number in its place.
///
/// A call that takes `impl Into<Code<Use>>` takes a `Use`, and any number of 64 bits too: what an
/// engineer typed reaches the card, and the first test that fails gives the refusal.
///
/// ```
/// use card::{Algorithm, Fields, Refusal, Table, Use};
///
/// let fields = Fields { version: 0, algorithm: Algorithm::Tea5, usage: Use::Send, side: 0, place: 0, mcc: 0, mnc: 0 };
/// let mut table = Table::new();
/// table.load(1, fields, &[7; 24])?;
/// assert_eq!(table.move_slot(1, 2, Use::Both), Err(Refusal::UseWider));
/// assert_eq!(table.move_slot(1, 2, 4), Err(Refusal::Code));
/// assert_eq!(table.move_slot(1, 33, 4), Err(Refusal::SlotNumber));
/// # Ok::<(), Refusal>(())
/// ```
#[derive(Clone, Copy, Debug, PartialEq, Eq, Hash)]
pub struct Code<T> {
    number: u64,
    kind: PhantomData<T>,
}

/// Asked on a move, it keeps the use of a key for sending or for receiving. A key for both is refused it with 14:
/// where it is to stay one for both, [`Use::Both`] is asked.
///
/// ```
/// use card::{Algorithm, Fields, Refusal, Table, Use, KEEP};
///
/// let fields = Fields { version: 0, algorithm: Algorithm::Tea5, usage: Use::Both, side: 0, place: 0, mcc: 0, mnc: 0 };
/// let mut table = Table::new();
/// table.load(1, fields, &[7; 24])?;
/// assert_eq!(table.move_slot(1, 2, KEEP), Err(Refusal::UseWider));
/// table.move_slot(1, 2, Use::Both)?;
/// table.move_slot(2, 1, Use::Send)?;
/// table.move_slot(1, 2, KEEP)?;
/// # Ok::<(), Refusal>(())
/// ```
pub const KEEP: Code<Use> = Code::new(0);

impl<T> Code<T> {
    const fn new(number: u64) -> Code<T> {
        Code {
            number,
            kind: PhantomData,
        }
    }

    /// The number that the card is given.
    pub const fn number(&self) -> u64 {
        self.number
    }
}

/// The kinds that a call takes by name or by number. No other crate can add to them.
pub trait Kind: Into<u64> {}

impl Kind for Algorithm {}
impl Kind for Use {}
impl Kind for Direction {}

impl<T: Kind> From<T> for Code<T> {
    fn from(code: T) -> Code<T> {
        Code::new(code.into())
    }
}

impl<T: Kind> From<u64> for Code<T> {
    fn from(number: u64) -> Code<T> {
        Code::new(number)
    }
}

impl From<Algorithm> for u64 {
    fn from(algorithm: Algorithm) -> u64 {
        algorithm as u64
    }
}

impl From<Use> for u64 {
    fn from(usage: Use) -> u64 {
        usage as u64
    }
}

impl From<Direction> for u64 {
    fn from(direction: Direction) -> u64 {
        direction as u64
    }
}

impl From<PduKind> for u64 {
    fn from(kind: PduKind) -> u64 {
        kind as u64
    }
}

impl From<PduState> for u64 {
    fn from(state: PduState) -> u64 {
        state as u64
    }
}

/// Refused: 1.
impl TryFrom<u64> for Algorithm {
    type Error = Refusal;

    fn try_from(number: u64) -> Result<Algorithm, Refusal> {
        match number {
            5 => Ok(Algorithm::Tea5),
            6 => Ok(Algorithm::Tea6),
            7 => Ok(Algorithm::Tea7),
            _ => Err(Refusal::Algorithm),
        }
    }
}

/// Refused: 10.
impl TryFrom<u64> for Use {
    type Error = Refusal;

    fn try_from(number: u64) -> Result<Use, Refusal> {
        match number {
            1 => Ok(Use::Send),
            2 => Ok(Use::Receive),
            3 => Ok(Use::Both),
            _ => Err(Refusal::Code),
        }
    }
}

/// Refused: 10.
impl TryFrom<u64> for Direction {
    type Error = Refusal;

    fn try_from(number: u64) -> Result<Direction, Refusal> {
        match number {
            1 => Ok(Direction::Send),
            2 => Ok(Direction::Receive),
            _ => Err(Refusal::Code),
        }
    }
}

/// Refused: 18, as a plan refuses an unknown kind before anything else.
impl TryFrom<u64> for PduKind {
    type Error = Refusal;

    fn try_from(number: u64) -> Result<PduKind, Refusal> {
        match number {
            1 => Ok(PduKind::DmacData),
            2 => Ok(PduKind::DmacSyncSchH),
            3 => Ok(PduKind::DmacSyncSchS),
            _ => Err(Refusal::PduCode),
        }
    }
}

/// Refused: 18, as a plan refuses an unknown state before anything else.
impl TryFrom<u64> for PduState {
    type Error = Refusal;

    fn try_from(number: u64) -> Result<PduState, Refusal> {
        match number {
            0 => Ok(PduState::AllClear),
            1 => Ok(PduState::AfterHead),
            2 => Ok(PduState::Sdu),
            3 => Ok(PduState::AddressAndSdu),
            _ => Err(Refusal::PduCode),
        }
    }
}
