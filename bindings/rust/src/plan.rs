//! Which bits of a direct mode PDU are ciphered.

use crate::{ffi, PduKind, PduState, Refusal, Span};

/// A PDU by its parts. Places are in bits, counted from 0; what a state doesn't use may be anything.
#[derive(Clone, Copy, Debug, PartialEq, Eq, Hash)]
pub struct Pdu {
    /// Which PDU it is.
    pub kind: PduKind,
    /// What of it is ciphered.
    pub state: PduState,
    /// The PDU's bits, without fill bits.
    pub length_bits: usize,
    /// Where its address starts.
    pub address_bit: usize,
    /// Where its DM-SDU starts.
    pub sdu_bit: usize,
}

/// The pieces of a PDU that are ciphered, in order; `flag` is its fragmentation flag. In state 3 the DM-SDU starts at
/// keystream bit 24 + n + 1, with n the bits between the address and it, and a plan that would need keystream bit 8,288 is
/// refused with 19.
///
/// Refused: 18, 19.
///
/// ```
/// use card::{plan, Pdu, PduKind, PduState, Span};
///
/// let pdu = Pdu {
///     kind: PduKind::DmacData,
///     state: PduState::AddressAndSdu,
///     length_bits: 124,
///     address_bit: 10,
///     sdu_bit: 50,
/// };
/// let pieces: Vec<Span> = plan(&pdu, false)?.into_iter().flatten().collect();
/// assert_eq!(pieces[0], Span { start: 10, length: 24, skip: 0 });
/// assert_eq!(pieces[1], Span { start: 50, length: 74, skip: 41 });
/// # Ok::<(), card::Refusal>(())
/// ```
///
/// Each piece is a span for [`Table::traffic`](crate::Table::traffic); [`Table::pdu`](crate::Table::pdu) ciphers all of
/// them at once.
pub fn plan(pdu: &Pdu, flag: bool) -> Result<[Option<Span>; 2], Refusal> {
    let [a, b, c, d, e, f] = ffi::plan(pdu, flag)?;
    Ok([[a, b, c], [d, e, f]].map(piece))
}

/// A place without a piece holds zeros.
fn piece([start, length, skip]: [usize; 3]) -> Option<Span> {
    (length > 0).then_some(Span {
        start,
        length,
        skip,
    })
}
