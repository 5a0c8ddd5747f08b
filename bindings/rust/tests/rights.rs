//! What a key is for, through moves.

mod common;

use card::{Algorithm, Code, Direction, Fields, Refusal, Use, KEEP};
use common::{fields, other_side, table, IV, WHOLE_BYTE};

#[test]
fn a_key_for_sending_stays_one_through_moves() {
    let mut table = table(Algorithm::Tea7, Use::Send);
    for (from, to) in [(3, 9), (9, 32), (32, 1)] {
        table.move_slot(from, to, KEEP).unwrap();
        assert_eq!(table.read(from), Err(Refusal::SlotEmpty));
        assert_eq!(table.read(to), Ok(fields(Algorithm::Tea7, Use::Send)));

        let mut buffer = [0x55];
        let received = table.traffic(
            Direction::Receive,
            to,
            &other_side(),
            &mut buffer,
            WHOLE_BYTE,
        );
        assert_eq!(received.unwrap_err().number(), 12);
        assert_eq!(buffer, [0x55]);
        table
            .traffic(Direction::Send, to, &IV, &mut buffer, WHOLE_BYTE)
            .unwrap();
        assert_ne!(buffer, [0x55]);
    }
}

#[test]
fn a_move_narrows_and_never_widens() {
    let uses = [Use::Send, Use::Receive, Use::Both];
    for present in uses {
        for asked in uses {
            let mut card = table(Algorithm::Tea5, present);
            let mut second = common::second_table(Algorithm::Tea5, present);
            let expected = second::slots::move_slot(&mut second, 3, 4, asked.into());
            match card.move_slot(3, 4, asked) {
                Ok(()) => {
                    assert_eq!(expected, 0);
                    let moved: Fields = card.read(4).unwrap();
                    assert_eq!(moved, fields(Algorithm::Tea5, asked));
                }
                Err(refusal) => {
                    assert_eq!(refusal, Refusal::UseWider);
                    assert_eq!(u64::from(refusal.number()), expected);
                    assert_eq!(card.read(3), Ok(fields(Algorithm::Tea5, present)));
                    assert_eq!(card.read(4), Err(Refusal::SlotEmpty));
                }
            }
        }
    }
}

/// Asked 0 by name and by number, of each use: what the second program answers, and what is then there.
#[test]
fn keep_is_for_a_key_of_one_direction() {
    for (present, answer) in [(Use::Send, 0), (Use::Receive, 0), (Use::Both, 14)] {
        for asked in [KEEP, Code::from(0)] {
            let mut card = table(Algorithm::Tea7, present);
            let mut second = common::second_table(Algorithm::Tea7, present);
            assert_eq!(second::slots::move_slot(&mut second, 3, 4, 0), answer);
            let refused = card.move_slot(3, 4, asked).err();
            assert_eq!(
                refused.map_or(0, |refusal| u64::from(refusal.number())),
                answer
            );
            let there = if answer == 0 { 4 } else { 3 };
            assert_eq!(card.read(there), Ok(fields(Algorithm::Tea7, present)));
        }
    }
}

/// The refusal says what to ask instead, and that is accepted.
#[test]
fn the_refusal_of_keep_names_what_to_ask() {
    let mut card = table(Algorithm::Tea5, Use::Both);
    let sentence = card.move_slot(3, 4, KEEP).unwrap_err().to_string();
    assert!(
        sentence.ends_with("ask 3 where a key for both is to stay one"),
        "{sentence}"
    );
    card.move_slot(3, 4, 3).unwrap();
    assert_eq!(card.read(4), Ok(fields(Algorithm::Tea5, Use::Both)));
}

#[test]
fn a_cleared_slot_is_empty_and_can_be_filled() {
    let mut table = table(Algorithm::Tea7, Use::Both);
    table.clear(3).unwrap();
    assert_eq!(table.clear(3), Err(Refusal::SlotEmpty));
    table
        .load(3, fields(Algorithm::Tea5, Use::Receive), &[1; 24])
        .unwrap();
    assert_eq!(table.read(3), Ok(fields(Algorithm::Tea5, Use::Receive)));
}
