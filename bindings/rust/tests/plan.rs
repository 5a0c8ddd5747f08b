//! Which bits of a PDU are ciphered, as the second program says.

mod common;

use card::{plan, Algorithm, Direction, Pdu, PduKind, PduState, Refusal, Span, Use};
use common::{second_pdu, second_table, table, IV};

fn span((start, length, skip): (usize, usize, usize)) -> Option<Span> {
    Some(Span {
        start,
        length,
        skip,
    })
}

fn pdu(length_bits: usize, address_bit: usize, sdu_bit: usize) -> Pdu {
    Pdu {
        kind: PduKind::DmacData,
        state: PduState::AddressAndSdu,
        length_bits,
        address_bit,
        sdu_bit,
    }
}

#[test]
fn state_3_has_the_pieces_of_request_3() {
    let example = pdu(124, 10, 50);
    let both = [span((10, 24, 0)), span((50, 74, 41))];
    assert_eq!(plan(&example, false), Ok(both));
    let address = [span((10, 24, 0)), None];
    assert_eq!(plan(&pdu(124, 10, 124), false), Ok(address));
    let clear = Pdu {
        state: PduState::AllClear,
        ..example
    };
    assert_eq!(plan(&clear, false), Ok([None, None]));
}

/// The DM-SDU of the longest PDU can need one keystream bit more than there are.
#[test]
fn state_3_does_not_reach_past_the_keystream() {
    let reached = |pdu| plan(&pdu, false);
    assert_eq!(reached(pdu(8288, 0, 24)), Err(Refusal::PduParts));
    assert_eq!(reached(pdu(8288, 0, 8288)), Ok([span((0, 24, 0)), None]));
    let both = [span((1, 24, 0)), span((25, 8263, 25))];
    assert_eq!(reached(pdu(8288, 1, 25)), Ok(both));
}

/// Lengths and places at the edges.
const PLACES: [usize; 15] = [
    0,
    1,
    9,
    10,
    12,
    17,
    18,
    34,
    124,
    432,
    8287,
    8288,
    8289,
    usize::MAX - 23,
    usize::MAX,
];

const STATES: [PduState; 4] = [
    PduState::AllClear,
    PduState::AfterHead,
    PduState::Sdu,
    PduState::AddressAndSdu,
];

#[test]
fn plans_are_the_second_programs() {
    let kinds = [
        PduKind::DmacData,
        PduKind::DmacSyncSchH,
        PduKind::DmacSyncSchS,
    ];
    for kind in kinds {
        for state in STATES {
            for flag in [false, true] {
                for length_bits in PLACES {
                    for address_bit in PLACES {
                        for sdu_bit in PLACES {
                            let pdu = Pdu {
                                kind,
                                state,
                                length_bits,
                                address_bit,
                                sdu_bit,
                            };
                            same(&pdu, flag);
                        }
                    }
                }
            }
        }
    }
}

fn same(pdu: &Pdu, flag: bool) {
    let second = second::plan::plan(&second::plan::Pdu {
        kind: pdu.kind.into(),
        state: pdu.state.into(),
        flag: flag.into(),
        length: pdu.length_bits as u64,
        address: pdu.address_bit as u64,
        sdu: pdu.sdu_bit as u64,
    });
    match plan(pdu, flag) {
        Err(refusal) => assert_eq!(u64::from(refusal.number()), second.refusal, "{pdu:?}"),
        Ok(pieces) => {
            assert_eq!(second.refusal, 0, "{pdu:?}");
            let expected = second.pieces.map(|piece| {
                let piece = [piece.start, piece.length, piece.skip].map(|number| number as usize);
                let [start, length, skip] = piece;
                (length > 0).then_some(Span {
                    start,
                    length,
                    skip,
                })
            });
            assert_eq!(pieces, expected, "{pdu:?}");
        }
    }
}

/// Each state, with the flag set and not: the pieces one after the other by traffic, and the whole by one call, which
/// again brings the PDU back.
#[test]
fn a_plan_is_carried_out_by_traffic_and_at_once() {
    let card = table(Algorithm::Tea7, Use::Both);
    let second_card = second_table(Algorithm::Tea7, Use::Both);
    for state in STATES {
        for flag in [false, true] {
            let pdu = Pdu {
                kind: PduKind::DmacSyncSchH,
                state,
                ..pdu(124, 10, 50)
            };
            let mut before = [0x96; 17];
            before[1] = if flag { 0x10 } else { 0xef };
            let (mut whole, mut pieces, mut expected) = (before, before, before);
            let blocks = card.pdu(Direction::Send, 3, &IV, &mut whole, &pdu);
            let second = second_pdu(&pdu);
            let second = second::pdu::pdu(&second_card, 1, 3, &IV, &mut expected, &second);
            assert_eq!(blocks, Ok(second.blocks as usize));
            assert_eq!(whole, expected);
            for piece in plan(&pdu, flag).unwrap().into_iter().flatten() {
                card.traffic(Direction::Send, 3, &IV, &mut pieces, piece)
                    .unwrap();
            }
            assert_eq!(whole, pieces);
            card.pdu(Direction::Send, 3, &IV, &mut whole, &pdu).unwrap();
            assert_eq!(whole, before);
        }
    }
}
