//! One call for a whole PDU: every piece of its plan is ciphered, or no bit.

use std::collections::BTreeSet;

use crate::bits::{bit_at, xor_bits};
use crate::card::{permitted, Answer, FittedSpan, Span, BUFFER_BYTES};
use crate::plan::{plan, Pdu, SYNC_ON_HALF_SLOT};
use crate::refusals::*;
use crate::slots::Slot;
use crate::tea::BLOCK_BITS;

/// The fragmentation flag's bit in a DMAC-SYNC, numbered from 1 as the standard does.
const FLAG_BIT: usize = 12;

/// What the call is told of the PDU. The flag isn't: the PDU has it.
#[derive(Clone, Copy, Debug, Default, PartialEq, Eq)]
pub struct WholePdu {
    pub kind: u64,
    pub state: u64,
    pub length: u64,
    pub address: u64,
    pub sdu: u64,
}

/// Refusals 16, 10, 7, 8, 12, 21, 3, 13, 5, 6, 18, 19.
pub fn pdu(
    table: &[Slot],
    direction: u64,
    number: u64,
    iv: &[u8],
    buffer: &mut [u8],
    whole: &WholePdu,
) -> Answer {
    Answer::new(checked_pdu(table, direction, number, iv, buffer, whole))
}

fn checked_pdu(
    table: &[Slot],
    direction: u64,
    number: u64,
    iv: &[u8],
    buffer: &mut [u8],
    whole: &WholePdu,
) -> Result<u64, Refusal> {
    let setting = permitted(table, direction, number, iv)?;
    if buffer.len() > BUFFER_BYTES {
        return Err(BUFFER_TOO_LONG);
    }
    if whole.length > 8 * buffer.len() as u64 {
        return Err(SPAN_PAST_BUFFER);
    }
    let pieces = planned_pieces(buffer, whole)?;
    for piece in &pieces {
        xor_bits(buffer, piece.start, &setting.keystream_bits(*piece));
    }
    Ok(different_blocks(&pieces))
}

/// The pieces that are there. A plan's pieces fit by themselves, so 4 can't be given for one.
fn planned_pieces(buffer: &[u8], whole: &WholePdu) -> Result<Vec<FittedSpan>, Refusal> {
    let planned = plan(&Pdu {
        kind: whole.kind,
        state: whole.state,
        flag: flag(buffer, whole),
        length: whole.length,
        address: whole.address,
        sdu: whole.sdu,
    });
    if planned.refusal != DONE {
        return Err(planned.refusal);
    }
    let there = |piece: &Span| piece.length > 0;
    let pieces = planned.pieces.into_iter().filter(there);
    pieces.map(|piece| piece.fitted(buffer.len())).collect()
}

/// Only a DMAC-SYNC on SCH/H that is long enough has a flag.
fn flag(buffer: &[u8], whole: &WholePdu) -> u64 {
    let has_flag = whole.kind == SYNC_ON_HALF_SLOT && whole.length >= FLAG_BIT as u64;
    (has_flag && bit_at(buffer, FLAG_BIT - 1)).into()
}

/// In how many blocks a used keystream bit lies, counted bit by bit.
fn different_blocks(pieces: &[FittedSpan]) -> u64 {
    let bits = pieces
        .iter()
        .flat_map(|piece| piece.skip..piece.skip + piece.length);
    let blocks: BTreeSet<usize> = bits.map(|bit| bit / BLOCK_BITS).collect();
    blocks.len() as u64
}
