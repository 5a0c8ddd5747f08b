//! Checks of bench and traffic.

use super::slots::{small_table, KEY};
use super::{same, same_order, Check, Finding};
use crate::bits::bit_at;
use crate::card::{bench, bench_from, traffic, Answer, Span, BUFFER_BYTES};
use crate::generator::Generator;
use crate::refusals::*;
use crate::slots::{Slot, BOTH, RECEIVE, SEND};

pub const CHECKS: &[Check] = &[
    ("bench order", bench_order),
    ("bench bits", bench_bits),
    ("bench from a bit", bench_from_a_bit),
    ("blocks", blocks),
    ("traffic order", traffic_order),
    ("send order", send_order),
    ("TEA6", dropped),
    ("traffic rights", traffic_rights),
    ("traffic ranges", traffic_ranges),
    ("traffic bits", traffic_bits),
];

#[derive(Clone)]
struct BenchCall {
    algorithm: u64,
    key: Vec<u8>,
    iv: Vec<u8>,
    buffer: Vec<u8>,
    length: u64,
}

impl BenchCall {
    fn good() -> BenchCall {
        BenchCall {
            algorithm: 5,
            key: KEY.to_vec(),
            iv: vec![1; 10],
            buffer: vec![0xa5; 40],
            length: 300,
        }
    }

    fn run(&self) -> (Answer, Vec<u8>) {
        let mut buffer = self.buffer.clone();
        let answer = bench(
            self.algorithm,
            &self.key,
            &self.iv,
            &mut buffer,
            self.length,
        );
        (answer, buffer)
    }

    fn outcome(&self) -> Result<Refusal, String> {
        let (answer, buffer) = self.run();
        refused_leaves(answer, &buffer, &self.buffer)
    }
}

/// The refusal, after testing that a refused call reports no blocks and keeps the buffer.
pub(super) fn refused_leaves(
    answer: Answer,
    after: &[u8],
    before: &[u8],
) -> Result<Refusal, String> {
    if answer.refusal != DONE {
        same("blocks of a refused call", answer.blocks, 0)?;
        same("buffer of a refused call", after, before)?;
    }
    Ok(answer.refusal)
}

fn bench_order() -> Finding {
    same_order(
        &BenchCall::good(),
        &[
            (ALGORITHM_UNKNOWN, |call| call.algorithm = 8),
            (KEY_NOT_24_BYTES, |call| call.key.truncate(23)),
            (IV_NOT_10_BYTES, |call| call.iv.push(0)),
            (BUFFER_TOO_LONG, |call| {
                call.buffer = vec![0; BUFFER_BYTES + 1]
            }),
            (LENGTH_OUT_OF_RANGE, |call| call.length = 8289),
            (SPAN_PAST_BUFFER, |call| call.length = 321),
        ],
        BenchCall::outcome,
    )
}

/// The bench writes the keystream whatever was there, and keeps the bits after it.
fn bench_bits() -> Finding {
    for length in [1, 7, 8, 9, 255, 256, 257, 300, 320] {
        let call = BenchCall {
            length,
            ..BenchCall::good()
        };
        let whole = BenchCall {
            buffer: vec![0; 1036],
            length: 8288,
            ..BenchCall::good()
        };
        let (found, keystream) = (call.run().1, whole.run().1);
        for place in 0..320 {
            let source = if place < length as usize {
                &keystream
            } else {
                &call.buffer
            };
            same("bit", bit_at(&found, place), bit_at(source, place))?;
        }
    }
    Ok(())
}

/// The skip names the first keystream bit given, and counts in the length's refusal; the buffer's start stays bit 0.
fn bench_from_a_bit() -> Finding {
    let whole = BenchCall {
        buffer: vec![0; 1036],
        length: 8288,
        ..BenchCall::good()
    };
    let (keystream, before) = (whole.run().1, vec![0xa5; 40]);
    for skip in [0, 1, 8, 255, 256, 7988] {
        let mut found = before.clone();
        let answer = bench_from(5, &KEY, &[1; 10], &mut found, 300, skip as u64);
        same("refusal", answer.refusal, DONE)?;
        for place in 0..320 {
            let wanted = if place < 300 {
                bit_at(&keystream, skip + place)
            } else {
                bit_at(&before, place)
            };
            same("bit", bit_at(&found, place), wanted)?;
        }
    }
    let past = bench_from(5, &KEY, &[1; 10], &mut [0; 40], 300, 7989);
    same(
        "refusal past the keystream",
        past.refusal,
        LENGTH_OUT_OF_RANGE,
    )
}

fn blocks() -> Finding {
    let table = small_table();
    for (skip, length, wanted) in [
        (0, 256, 1),
        (0, 257, 2),
        (0, 8288, 33),
        (255, 2, 2),
        (8287, 1, 1),
    ] {
        let span = Span {
            start: 0,
            length,
            skip,
        };
        let found = traffic(&table, SEND, 1, &[0; 10], &mut [0; 1036], span);
        same("traffic's blocks", found.blocks, wanted)?;
    }
    let found = bench(7, &KEY, &[0; 10], &mut [0; 1036], 8288);
    same("bench's blocks", found.blocks, 33)
}

#[derive(Clone)]
struct TrafficCall {
    table: Vec<Slot>,
    direction: u64,
    number: u64,
    iv: Vec<u8>,
    buffer: Vec<u8>,
    span: Span,
}

impl TrafficCall {
    /// A receive with slot 1, whose side is 0, so bit 28 of the initial value is 1.
    fn good() -> TrafficCall {
        TrafficCall {
            table: small_table(),
            direction: RECEIVE,
            number: 1,
            iv: vec![0, 0, 0, 0x08, 0, 0, 0, 0, 0, 0],
            buffer: vec![0x96; 8],
            span: Span {
                start: 3,
                length: 50,
                skip: 250,
            },
        }
    }

    fn run(&self) -> (Answer, Vec<u8>) {
        let mut buffer = self.buffer.clone();
        let answer = traffic(
            &self.table,
            self.direction,
            self.number,
            &self.iv,
            &mut buffer,
            self.span,
        );
        (answer, buffer)
    }

    fn outcome(&self) -> Result<Refusal, String> {
        let (answer, buffer) = self.run();
        refused_leaves(answer, &buffer, &self.buffer)
    }
}

fn traffic_order() -> Finding {
    same_order(
        &TrafficCall::good(),
        &[
            (TABLE_BAD, |call| call.table[30].version = 1),
            (CODE_UNKNOWN, |call| call.direction = BOTH),
            (SLOT_NUMBER_UNKNOWN, |call| call.number = 0),
            (SLOT_EMPTY, |call| call.number = 3),
            (USE_LACKS_DIRECTION, |call| call.number = 2),
            (IV_NOT_10_BYTES, |call| call.iv = vec![0; 9]),
            (SIDE_BIT_WRONG, |call| call.iv = vec![0xf7; 10]),
            (BUFFER_TOO_LONG, |call| {
                call.buffer = vec![0; BUFFER_BYTES + 1]
            }),
            (LENGTH_OUT_OF_RANGE, |call| call.span.skip = 8239),
            (SPAN_PAST_BUFFER, |call| call.span.start = 15),
        ],
        TrafficCall::outcome,
    )
}

/// A send with slot 1, which the order of a receive leaves out: a key of TEA6 comes between 12 and 3.
fn send_order() -> Finding {
    let good = TrafficCall {
        direction: SEND,
        iv: vec![0; 10],
        ..TrafficCall::good()
    };
    same_order(
        &good,
        &[
            (TABLE_BAD, |call| call.table.truncate(31)),
            (SLOT_EMPTY, |call| call.number = 3),
            (USE_LACKS_DIRECTION, |call| call.table[0].usage = RECEIVE),
            (OUT_OF_SERVICE, |call| call.table[0].algorithm = 6),
            (IV_NOT_10_BYTES, |call| call.iv = vec![0; 9]),
            (SIDE_BIT_WRONG, |call| call.iv = vec![0x08; 10]),
            (LENGTH_OUT_OF_RANGE, |call| call.span.length = 0),
        ],
        TrafficCall::outcome,
    )
}

/// Of the six ways to use a key that may do both, sending with TEA6 alone is refused.
fn dropped() -> Finding {
    for algorithm in 5..=7 {
        for direction in [SEND, RECEIVE] {
            let mut call = TrafficCall::good();
            call.table[0].algorithm = algorithm;
            call.direction = direction;
            call.iv = vec![if direction == SEND { 0 } else { 0x08 }; 10];
            let wanted = match (algorithm, direction) {
                (6, SEND) => OUT_OF_SERVICE,
                _ => DONE,
            };
            same("use", call.outcome()?, wanted)?;
        }
    }
    Ok(())
}

/// Every use, direction, side and side bit at both ends of the initial value.
fn traffic_rights() -> Finding {
    for usage in [SEND, RECEIVE, BOTH] {
        for direction in [SEND, RECEIVE] {
            for (side, bit, place) in [(0, 0, 0), (0, 1, 0), (1, 0, 79), (1, 1, 79)] {
                let mut call = TrafficCall::good();
                call.direction = direction;
                call.table[0] = Slot {
                    usage,
                    side,
                    place,
                    ..call.table[0]
                };
                call.iv = if place == 0 {
                    vec![0x7f; 10]
                } else {
                    vec![0xfe; 10]
                };
                call.iv[place as usize / 8] ^= if bit == 1 { 0x80 >> (place % 8) } else { 0 };
                let own_side = side == bit;
                let wanted = match (usage, direction) {
                    (SEND, RECEIVE) | (RECEIVE, SEND) => USE_LACKS_DIRECTION,
                    _ if own_side == (direction == SEND) => DONE,
                    _ => SIDE_BIT_WRONG,
                };
                same("rights", call.outcome()?, wanted)?;
            }
        }
    }
    Ok(())
}

fn traffic_ranges() -> Finding {
    let last = u64::MAX;
    for (bytes, start, length, skip, wanted) in [
        (8, 0, 64, 0, DONE),
        (8, 63, 1, 8287, DONE),
        (8, 0, 1, 8288, LENGTH_OUT_OF_RANGE),
        (8, 0, 0, 0, LENGTH_OUT_OF_RANGE),
        (8, 0, last, 1, LENGTH_OUT_OF_RANGE),
        (8, 0, 1, last, LENGTH_OUT_OF_RANGE),
        (8, last, last, last, LENGTH_OUT_OF_RANGE),
        (8, 64, 1, 0, SPAN_PAST_BUFFER),
        (8, last, 1, 0, SPAN_PAST_BUFFER),
        (0, 0, 1, 0, SPAN_PAST_BUFFER),
        (1036, 0, 8288, 0, DONE),
        (1036, 1, 8288, 0, SPAN_PAST_BUFFER),
        (1037, 0, 8289, 0, LENGTH_OUT_OF_RANGE),
        (8192, 65535, 1, 0, DONE),
        (8193, 0, 1, 0, BUFFER_TOO_LONG),
    ] {
        let mut call = TrafficCall::good();
        call.buffer = vec![0; bytes];
        call.span = Span {
            start,
            length,
            skip,
        };
        same(
            &format!("{:?} in {bytes}", call.span),
            call.outcome()?,
            wanted,
        )?;
    }
    Ok(())
}

/// Traffic xors the bench's bits into the span, keeps the bits beside it, twice gives the buffer
/// back, and two spans side by side are one.
fn traffic_bits() -> Finding {
    let mut generator = Generator::new(56);
    for _ in 0..60 {
        let mut call = random_traffic(&mut generator);
        let (_, found) = call.run();
        same_as_bench(&call, &found)?;
        let original = call.buffer.clone();
        call.buffer = in_two_parts(&call, generator.below(call.span.length));
        same("two spans side by side", &call.buffer, &found)?;
        same("twice", call.run().1, original)?;
    }
    Ok(())
}

fn random_traffic(generator: &mut Generator) -> TrafficCall {
    let mut call = TrafficCall::good();
    call.table[0].algorithm = generator.between(5, 7);
    call.table[0].key = generator.array();
    call.iv = generator.bytes(10);
    call.iv[3] |= 0x08;
    call.buffer = generator.bytes(100);
    let start = generator.below(400);
    call.span = Span {
        start,
        length: generator.between(1, 800 - start),
        skip: generator.below(7000),
    };
    call
}

fn same_as_bench(call: &TrafficCall, found: &[u8]) -> Finding {
    let slot = &call.table[0];
    let mut keystream = vec![0; 1036];
    bench(slot.algorithm, &slot.key, &call.iv, &mut keystream, 8288);
    let Span {
        start,
        length,
        skip,
    } = call.span;
    for place in 0..8 * found.len() {
        let inside = (start..start + length).contains(&(place as u64));
        let changed = inside && bit_at(&keystream, place + skip as usize - start as usize);
        let wanted = bit_at(&call.buffer, place) != changed;
        same("bit", bit_at(found, place), wanted)?;
    }
    Ok(())
}

/// The buffer after the first `length` bits of the span, then after the rest.
fn in_two_parts(call: &TrafficCall, length: u64) -> Vec<u8> {
    let mut call = call.clone();
    let whole = call.span;
    call.span.length = length;
    call.buffer = call.run().1;
    call.span = Span {
        start: whole.start + length,
        length: whole.length - length,
        skip: whole.skip + length,
    };
    call.run().1
}
