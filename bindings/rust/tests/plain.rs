//! The plain engine gives what the second program gives, and at skip 0 what the bench call gives.
#![cfg(feature = "plain")]

mod common;

use card::{bench, plain, Refusal, KEYSTREAM_BITS};
use common::{bytes, ALGORITHMS, IV, KEY};

#[test]
fn its_keystream_is_the_second_programs() {
    let pieces = [
        (1, 0),
        (7, 3),
        (256, 0),
        (257, 255),
        (1000, 8),
        (1, 8287),
        (KEYSTREAM_BITS, 0),
    ];
    for algorithm in ALGORITHMS {
        for (length, skip) in pieces {
            let mut buffer = bytes(length.div_ceil(8) + 2);
            let mut expected = buffer.clone();
            let blocks = plain(algorithm, &KEY, &IV, &mut buffer, length, skip).unwrap();
            let second = second::card::bench_from(
                algorithm.into(),
                &KEY,
                &IV,
                &mut expected,
                length as u64,
                skip as u64,
            );
            assert_eq!(second.refusal, 0);
            assert_eq!(
                blocks as u64, second.blocks,
                "{algorithm:?} {length} {skip}"
            );
            assert!(buffer == expected, "{algorithm:?} {length} {skip}");
        }
    }
}

#[test]
fn at_skip_0_it_is_the_bench_call() {
    for algorithm in ALGORITHMS {
        for length in [0, 1, 255, 300, 8289] {
            let mut quick = bytes(40);
            let mut slow = quick.clone();
            assert_eq!(
                plain(algorithm, &KEY, &IV, &mut slow, length, 0),
                bench(algorithm, &KEY, &IV, &mut quick, length)
            );
            assert!(slow == quick, "{algorithm:?} {length}");
        }
    }
}

#[test]
fn the_skip_counts_in_the_length_and_not_in_the_buffer() {
    let mut buffer = [0; 4];
    let mut from = |length, skip| plain(ALGORITHMS[0], &KEY, &IV, &mut buffer, length, skip);
    assert_eq!(from(32, 8256), Ok(1));
    assert_eq!(from(32, 8257), Err(Refusal::Length));
    assert_eq!(from(33, 0), Err(Refusal::Span));
}
