//! Bench and traffic give what the second program gives.

mod common;

use card::{bench, Algorithm, Direction, Refusal, Span, Use, KEYSTREAM_BITS};
use common::{bytes, in_service, second_span, second_table, table, ALGORITHMS, IV, KEY};

#[test]
fn the_bench_keystream_is_the_second_programs() {
    for algorithm in ALGORITHMS {
        for length in [1, 7, 8, 255, 256, 257, 1000, KEYSTREAM_BITS] {
            let mut buffer = bytes(length.div_ceil(8) + 2);
            let mut expected = buffer.clone();
            let blocks = bench(algorithm, &KEY, &IV, &mut buffer, length).unwrap();
            let second =
                second::card::bench(algorithm.into(), &KEY, &IV, &mut expected, length as u64);
            assert_eq!(second.refusal, 0);
            assert_eq!(blocks as u64, second.blocks, "{algorithm:?} {length}");
            assert!(buffer == expected, "{algorithm:?} {length}");
        }
    }
}

#[test]
fn traffic_is_the_second_programs_and_comes_back() {
    let spans = [
        (0, 8, 0),
        (3, 700, 255),
        (13, 1, 8287),
        (5, 8288, 0),
        (801, 2, 255),
    ];
    for algorithm in ALGORITHMS {
        let (direction, iv) = in_service(algorithm);
        let card = table(algorithm, Use::Both);
        let second = second_table(algorithm, Use::Both);
        for (start, length, skip) in spans {
            let span = Span {
                start,
                length,
                skip,
            };
            let plain = bytes(1050);
            let mut buffer = plain.clone();
            let blocks = card.traffic(direction, 3, &iv, &mut buffer, span);
            let mut expected = plain.clone();
            let answer = second::card::traffic(
                &second,
                direction.into(),
                3,
                &iv,
                &mut expected,
                second_span(span),
            );
            assert_eq!(answer.refusal, 0);
            assert_eq!(
                blocks.unwrap() as u64,
                answer.blocks,
                "{algorithm:?} {span:?}"
            );
            assert!(buffer == expected, "{algorithm:?} {span:?}");

            card.traffic(direction, 3, &iv, &mut buffer, span).unwrap();
            assert!(buffer == plain, "{algorithm:?} {span:?}");
        }
    }
}

#[test]
fn what_one_side_sends_the_other_receives() {
    let sender = table(Algorithm::Tea7, Use::Send);
    let mut receiver = card::Table::new();
    let mut fields = common::fields(Algorithm::Tea7, Use::Receive);
    fields.side = 1;
    receiver.load(20, fields, &KEY).unwrap();

    let span = Span {
        start: 4,
        length: 100,
        skip: 24,
    };
    let mut buffer = bytes(20);
    sender
        .traffic(Direction::Send, 3, &IV, &mut buffer, span)
        .unwrap();
    assert_ne!(buffer, bytes(20));
    receiver
        .traffic(Direction::Receive, 20, &IV, &mut buffer, span)
        .unwrap();
    assert_eq!(buffer, bytes(20));
}

/// A key of TEA6 that is there is read, moved and cleared, and what was sent to it is read; it sends nothing.
#[test]
fn a_key_of_tea6_that_is_there_does_all_but_send() {
    let mut card = table(Algorithm::Tea6, Use::Both);
    let fields = common::fields(Algorithm::Tea6, Use::Both);
    assert_eq!(card.read(3), Ok(fields));
    assert_eq!(card.load(4, fields, &KEY), Err(Refusal::OutOfService));
    card.move_slot(3, 32, Use::Both).unwrap();

    let span = Span {
        start: 0,
        length: 160,
        skip: 0,
    };
    let mut buffer = bytes(20);
    let sent = card.traffic(Direction::Send, 32, &IV, &mut buffer, span);
    assert_eq!(sent, Err(Refusal::OutOfService));
    assert_eq!(buffer, bytes(20));
    let received = card.traffic(
        Direction::Receive,
        32,
        &common::other_side(),
        &mut buffer,
        span,
    );
    assert_eq!(received, Ok(1));
    assert_ne!(buffer, bytes(20));
    card.clear(32).unwrap();
}
