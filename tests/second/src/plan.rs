//! Which bits of a direct mode PDU are ciphered, with which keystream bits (pr ETS 300 396-6, the
//! DMAC-SYNC and DMAC-DATA PDUs in each encryption state, as the card's rules read it).

use std::array::from_fn;

use crate::card::Span;
use crate::refusals::*;
use crate::tea::KEYSTREAM_BITS;

/// The longest PDU.
pub const PDU_BITS: u64 = 8288;

pub const DATA: u64 = 1;
pub const SYNC_ON_HALF_SLOT: u64 = 2;
pub const SYNC_ON_SYNC_SLOT: u64 = 3;

const LAST_STATE: u64 = 3;

/// The bits of a destination address.
const ADDRESS_BITS: u64 = 24;

/// What a plan is made for. All places and lengths are in bits, counted from 0.
#[derive(Clone, Copy, Debug, Default, PartialEq, Eq)]
pub struct Pdu {
    pub kind: u64,
    pub state: u64,
    pub flag: u64,
    pub length: u64,
    pub address: u64,
    pub sdu: u64,
}

#[derive(Clone, Copy, Debug, Default, PartialEq, Eq)]
pub struct PlanAnswer {
    pub refusal: Refusal,
    /// The pieces in order; zeros where there is none.
    pub pieces: [Span; 2],
}

/// Refusals 18, 19.
pub fn plan(pdu: &Pdu) -> PlanAnswer {
    match pieces(pdu) {
        Ok(pieces) => PlanAnswer {
            refusal: DONE,
            pieces: closed_up(pieces),
        },
        Err(refusal) => PlanAnswer {
            refusal,
            ..PlanAnswer::default()
        },
    }
}

/// Leaves out pieces of length 0 and fills up with zeros.
fn closed_up(pieces: [Span; 2]) -> [Span; 2] {
    let mut kept = pieces.into_iter().filter(|piece| piece.length > 0);
    from_fn(|_| kept.next().unwrap_or_default())
}

fn pieces(pdu: &Pdu) -> Result<[Span; 2], Refusal> {
    check(pdu)?;
    let none = Span::default();
    match (pdu.kind, pdu.state) {
        (SYNC_ON_SYNC_SLOT, _) | (_, 0) => Ok([none, none]),
        (_, 1) => Ok([rest_from(clear_head(pdu), pdu.length)?, none]),
        (_, 2) => Ok([rest_from(pdu.sdu, pdu.length)?, none]),
        _ => address_and_sdu(pdu),
    }
}

fn check(pdu: &Pdu) -> Result<(), Refusal> {
    let known = (DATA..=SYNC_ON_SYNC_SLOT).contains(&pdu.kind)
        && pdu.state <= LAST_STATE
        && pdu.flag <= 1
        && pdu.length <= PDU_BITS;
    known.then_some(()).ok_or(PDU_UNKNOWN)
}

/// How many bits stay clear in state 1. Only a DMAC-SYNC has a fragmentation flag in its head.
fn clear_head(pdu: &Pdu) -> u64 {
    match (pdu.kind, pdu.flag) {
        (DATA, _) => 10,
        (_, 1) => 18,
        _ => 12,
    }
}

/// The piece from `start` to the PDU's end, by the keystream from its bit 0 on.
fn rest_from(start: u64, length: u64) -> Result<Span, Refusal> {
    let length = length.checked_sub(start).ok_or(PDU_PARTS_DO_NOT_FIT)?;
    Ok(Span {
        start,
        length,
        skip: 0,
    })
}

/// State 3: the address, then the SDU, for which there may be too little keystream.
fn address_and_sdu(pdu: &Pdu) -> Result<[Span; 2], Refusal> {
    let address = Span {
        start: pdu.address,
        length: ADDRESS_BITS,
        skip: 0,
    };
    let between = bits_between(pdu).ok_or(PDU_PARTS_DO_NOT_FIT)?;
    let rest = rest_from(pdu.sdu, pdu.length)?;
    let sdu = Span {
        skip: sdu_skip(between),
        ..rest
    };
    let too_far = sdu.length > 0 && sdu.skip + sdu.length > KEYSTREAM_BITS as u64;
    (!too_far)
        .then_some([address, sdu])
        .ok_or(PDU_PARTS_DO_NOT_FIT)
}

/// n: the bits from the end of the address to the start of the SDU.
fn bits_between(pdu: &Pdu) -> Option<u64> {
    pdu.sdu.checked_sub(pdu.address)?.checked_sub(ADDRESS_BITS)
}

/// The keystream bit that the SDU begins with in state 3: KSS(24) to KSS(24+n) are discarded, which are n + 1 bits.
fn sdu_skip(between: u64) -> u64 {
    ADDRESS_BITS + between + 1
}
