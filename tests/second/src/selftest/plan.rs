//! Checks of the plan of a direct mode PDU.

use super::{same, Check, Finding};
use crate::card::Span;
use crate::plan::{plan, Pdu, PlanAnswer};
use crate::refusals::*;

pub const CHECKS: &[Check] = &[
    ("no piece", no_piece),
    ("clear heads", clear_heads),
    ("SDU alone", sdu_alone),
    ("address and SDU", address_and_sdu),
    ("the keystream's end", keystream_end),
    ("unknown PDUs", unknown_pdus),
];

/// Arguments that a case doesn't use must not matter, so they are the worst there are.
const UNUSED: u64 = u64::MAX;

fn pdu(kind: u64, state: u64, flag: u64, length: u64) -> Pdu {
    Pdu {
        kind,
        state,
        flag,
        length,
        address: UNUSED,
        sdu: UNUSED,
    }
}

fn pieces(wanted: &[(u64, u64, u64)]) -> PlanAnswer {
    let mut answer = PlanAnswer::default();
    for (piece, &(start, length, skip)) in answer.pieces.iter_mut().zip(wanted) {
        *piece = Span {
            start,
            length,
            skip,
        };
    }
    answer
}

fn refused(refusal: Refusal) -> PlanAnswer {
    PlanAnswer {
        refusal,
        ..PlanAnswer::default()
    }
}

fn planned(pdu: Pdu, wanted: PlanAnswer) -> Finding {
    same(&format!("{pdu:?}"), plan(&pdu), wanted)
}

fn no_piece() -> Finding {
    for flag in [0, 1] {
        for kind in [1, 2, 3] {
            planned(pdu(kind, 0, flag, 124), pieces(&[]))?;
        }
        for state in [0, 1, 2, 3] {
            planned(pdu(3, state, flag, 0), pieces(&[]))?;
        }
    }
    Ok(())
}

fn clear_heads() -> Finding {
    for (kind, flag, head) in [(1, 0, 10), (1, 1, 10), (2, 0, 12), (2, 1, 18)] {
        let rest = pieces(&[(head, 8288 - head, 0)]);
        planned(pdu(kind, 1, flag, 8288), rest)?;
        planned(pdu(kind, 1, flag, head + 1), pieces(&[(head, 1, 0)]))?;
        planned(pdu(kind, 1, flag, head), pieces(&[]))?;
        planned(pdu(kind, 1, flag, head - 1), refused(PDU_PARTS_DO_NOT_FIT))?;
        planned(pdu(kind, 1, flag, 0), refused(PDU_PARTS_DO_NOT_FIT))?;
    }
    Ok(())
}

fn sdu_alone() -> Finding {
    for (sdu, wanted) in [
        (0, pieces(&[(0, 124, 0)])),
        (50, pieces(&[(50, 74, 0)])),
        (124, pieces(&[])),
        (125, refused(PDU_PARTS_DO_NOT_FIT)),
        (u64::MAX, refused(PDU_PARTS_DO_NOT_FIT)),
    ] {
        for kind in [1, 2] {
            let pdu = Pdu {
                sdu,
                ..pdu(kind, 2, 1, 124)
            };
            planned(pdu, wanted)?;
        }
    }
    Ok(())
}

fn address_and_sdu() -> Finding {
    let last = u64::MAX;
    for (address, sdu, wanted) in [
        (10, 50, pieces(&[(10, 24, 0), (50, 74, 41)])),
        (10, 34, pieces(&[(10, 24, 0), (34, 90, 25)])),
        (0, 124, pieces(&[(0, 24, 0)])),
        (100, 124, pieces(&[(100, 24, 0)])),
        (10, 33, refused(PDU_PARTS_DO_NOT_FIT)),
        (10, 9, refused(PDU_PARTS_DO_NOT_FIT)),
        (101, 125, refused(PDU_PARTS_DO_NOT_FIT)),
        (last, 50, refused(PDU_PARTS_DO_NOT_FIT)),
        (last - 23, 124, refused(PDU_PARTS_DO_NOT_FIT)),
        (last - 24, last, refused(PDU_PARTS_DO_NOT_FIT)),
        (0, last, refused(PDU_PARTS_DO_NOT_FIT)),
    ] {
        for kind in [1, 2] {
            let pdu = Pdu {
                address,
                sdu,
                ..pdu(kind, 3, 0, 124)
            };
            planned(pdu, wanted)?;
        }
    }
    Ok(())
}

/// Only the longest PDU with its address in front can need bit 8,288, and does not if nothing follows the address.
fn keystream_end() -> Finding {
    let too_far = refused(PDU_PARTS_DO_NOT_FIT);
    for (length, address, sdu, wanted) in [
        (8288, 0, 24, too_far),
        (8288, 0, 4000, too_far),
        (8288, 0, 8287, too_far),
        (8288, 0, 8288, pieces(&[(0, 24, 0)])),
        (8288, 1, 25, pieces(&[(1, 24, 0), (25, 8263, 25)])),
        (8288, 1, 8287, pieces(&[(1, 24, 0), (8287, 1, 8287)])),
        (8287, 0, 24, pieces(&[(0, 24, 0), (24, 8263, 25)])),
        (8287, 0, 8286, pieces(&[(0, 24, 0), (8286, 1, 8287)])),
    ] {
        for (kind, flag) in [(1, 0), (1, 1), (2, 0), (2, 1)] {
            let pdu = Pdu {
                address,
                sdu,
                ..pdu(kind, 3, flag, length)
            };
            planned(pdu, wanted)?;
        }
    }
    Ok(())
}

/// 18 stands ahead of 19, and is given also where the argument isn't used otherwise.
fn unknown_pdus() -> Finding {
    for unknown in [
        pdu(0, 0, 0, 124),
        pdu(4, 3, 0, 124),
        pdu(u64::MAX, 0, 0, 124),
        pdu(1, 4, 0, 124),
        pdu(3, 4, 0, 124),
        pdu(1, 3, 2, 124),
        pdu(3, 0, 2, 124),
        pdu(3, 0, 0, 8289),
        pdu(1, 3, 0, 8289),
        pdu(2, 0, 1, u64::MAX),
    ] {
        planned(unknown, refused(PDU_UNKNOWN))?;
    }
    Ok(())
}
