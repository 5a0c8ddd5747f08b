//! Checks of the call for a whole PDU.

use super::card::refused_leaves;
use super::slots::small_table;
use super::{same, same_order, Check, Finding};
use crate::bits::bit_at;
use crate::card::{traffic, Answer, BUFFER_BYTES};
use crate::generator::Generator;
use crate::pdu::{pdu, WholePdu};
use crate::plan::{plan, Pdu};
use crate::refusals::*;
use crate::slots::{Slot, BOTH, RECEIVE};

pub const CHECKS: &[Check] = &[
    ("PDU order", pdu_order),
    ("PDU blocks", pdu_blocks),
    ("PDU flag", pdu_flag),
    ("PDUs as traffic, and twice", pdus_as_traffic),
];

#[derive(Clone)]
struct PduCall {
    table: Vec<Slot>,
    direction: u64,
    number: u64,
    iv: Vec<u8>,
    buffer: Vec<u8>,
    whole: WholePdu,
}

impl PduCall {
    /// The PDU of request [3]'s example, received with slot 1, whose side is 0.
    fn good() -> PduCall {
        PduCall {
            table: small_table(),
            direction: RECEIVE,
            number: 1,
            iv: vec![0xff; 10],
            buffer: vec![0xa5; 16],
            whole: WholePdu {
                kind: 1,
                state: 3,
                length: 124,
                address: 10,
                sdu: 50,
            },
        }
    }

    fn of(kind: u64, state: u64, length: u64, address: u64, sdu: u64) -> PduCall {
        PduCall {
            buffer: vec![0; length as usize / 8 + 1],
            whole: WholePdu {
                kind,
                state,
                length,
                address,
                sdu,
            },
            ..PduCall::good()
        }
    }

    fn run(&self) -> (Answer, Vec<u8>) {
        let mut buffer = self.buffer.clone();
        let answer = pdu(
            &self.table,
            self.direction,
            self.number,
            &self.iv,
            &mut buffer,
            &self.whole,
        );
        (answer, buffer)
    }

    fn outcome(&self) -> Result<Refusal, String> {
        let (answer, buffer) = self.run();
        refused_leaves(answer, &buffer, &self.buffer)
    }
}

/// Kind 3 and state 0 make every test too; 6 stands ahead of 18.
fn pdu_order() -> Finding {
    same_order(
        &PduCall::good(),
        &[
            (TABLE_BAD, |call| call.table[30].version = 1),
            (CODE_UNKNOWN, |call| call.direction = BOTH),
            (SLOT_NUMBER_UNKNOWN, |call| call.number = 0),
            (SLOT_EMPTY, |call| call.number = 3),
            (USE_LACKS_DIRECTION, |call| call.number = 2),
            (IV_NOT_10_BYTES, |call| call.iv = vec![0; 9]),
            (SIDE_BIT_WRONG, |call| call.iv = vec![0xf7; 10]),
            (BUFFER_TOO_LONG, |call| {
                call.buffer = vec![0; BUFFER_BYTES + 1];
            }),
            (SPAN_PAST_BUFFER, |call| call.whole.length = 65537),
            (PDU_UNKNOWN, |call| call.whole.state = 4),
            (PDU_PARTS_DO_NOT_FIT, |call| call.whole.sdu = 33),
        ],
        PduCall::outcome,
    )?;
    let mut clear = PduCall::of(3, 0, 9000, 0, 0);
    same(
        "a clear PDU that is too long",
        clear.outcome()?,
        PDU_UNKNOWN,
    )?;
    clear.buffer.truncate(1000);
    same("and past its buffer", clear.outcome()?, SPAN_PAST_BUFFER)
}

/// Different blocks: one that two pieces share counts once, and no piece is none.
fn pdu_blocks() -> Finding {
    for (call, blocks) in [
        (PduCall::of(1, 0, 124, 0, 0), 0),
        (PduCall::of(3, 3, 124, 0, 0), 0),
        (PduCall::of(1, 1, 10, 0, 0), 0),
        (PduCall::of(1, 1, 11, 0, 0), 1),
        (PduCall::of(1, 2, 257, 0, 0), 2),
        (PduCall::of(1, 3, 124, 10, 50), 1),
        (PduCall::of(1, 3, 300, 10, 34), 2),
        (PduCall::of(1, 3, 8288, 1, 25), 33),
        (PduCall::of(1, 3, 600, 0, 255), 3),
        (PduCall::of(1, 3, 600, 0, 254), 3),
        (PduCall::of(1, 3, 300, 0, 256), 2),
        (PduCall::of(1, 3, 124, 100, 124), 1),
    ] {
        let wanted = Answer {
            refusal: DONE,
            blocks,
        };
        same(&format!("{:?}", call.whole), call.run().0, wanted)?;
    }
    Ok(())
}

/// Bit 12, numbered from 1, of kind 2 alone, and of none under 12 bits.
fn pdu_flag() -> Finding {
    for (kind, flag_byte, head) in [
        (1, 0xff, 10),
        (2, 0x10, 18),
        (2, 0xef, 12),
        (2, 0x20, 12),
        (2, 0x08, 12),
    ] {
        let mut call = PduCall::of(kind, 1, 124, 0, 0);
        call.buffer[1] = flag_byte;
        let (answer, after) = call.run();
        same("done", answer.refusal, DONE)?;
        let changed =
            (0..128).filter(|place| bit_at(&after, *place) != bit_at(&call.buffer, *place));
        let first = changed.min().unwrap_or(0);
        same("the head stays clear", first >= head, true)?;
        let whole = Pdu {
            kind,
            state: 1,
            flag: (head == 18).into(),
            length: 124,
            ..Pdu::default()
        };
        same("head", plan(&whole).pieces[0].start, head as u64)?;
    }
    let mut short = PduCall::of(2, 1, 11, 0, 0);
    short.buffer = vec![0xff; 2];
    same("11 bits", short.outcome()?, PDU_PARTS_DO_NOT_FIT)?;
    let mut twelve = PduCall::of(2, 1, 12, 0, 0);
    same("12 bits, flag 0", twelve.outcome()?, DONE)?;
    twelve.buffer = vec![0xff; 2];
    same("12 bits, flag 1", twelve.outcome()?, PDU_PARTS_DO_NOT_FIT)
}

/// A call is the traffic calls of its pieces one after the other, and the same call brings the PDU back, also where it
/// ciphered the flag.
fn pdus_as_traffic() -> Finding {
    let mut generator = Generator::new(16);
    for _ in 0..300 {
        let mut call = random_pdu(&mut generator);
        let (answer, after) = call.run();
        if answer.refusal != DONE {
            continue;
        }
        same("as traffic", &after, &by_traffic(&call))?;
        let before = std::mem::replace(&mut call.buffer, after);
        same("twice", call.run(), (answer, before))?;
    }
    Ok(())
}

fn random_pdu(generator: &mut Generator) -> PduCall {
    let length = generator.between(12, 600);
    let sdu = generator.below(length);
    let mut call = PduCall::of(
        generator.between(1, 3),
        generator.below(4),
        length,
        generator.below(sdu.saturating_sub(23).max(1)),
        sdu,
    );
    call.buffer = generator.bytes(80);
    call
}

fn by_traffic(call: &PduCall) -> Vec<u8> {
    let WholePdu {
        kind,
        state,
        length,
        address,
        sdu,
    } = call.whole;
    let flag = (kind == 2 && call.buffer[1] & 0x10 != 0).into();
    let planned = plan(&Pdu {
        kind,
        state,
        flag,
        length,
        address,
        sdu,
    });
    let mut buffer = call.buffer.clone();
    for piece in planned.pieces.into_iter().filter(|piece| piece.length > 0) {
        traffic(
            &call.table,
            call.direction,
            call.number,
            &call.iv,
            &mut buffer,
            piece,
        );
    }
    buffer
}
