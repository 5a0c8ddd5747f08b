//! The cases of a vector file, from a seed: each family below for all three algorithms, then cases
//! that are refused and lines that can't be read.

use crate::card::{Span, BUFFER_BYTES};
use crate::generator::Generator;
use crate::rijndael::KEY_BYTES;
use crate::tea::{Algorithm, IV_BYTES, KEYSTREAM_BITS};
use crate::vectors::Case;

const LENGTHS: [u64; 10] = [1, 7, 8, 9, 255, 256, 257, 432, 8287, 8288];
const SHORT_LENGTHS: [u64; 8] = [1, 7, 8, 9, 255, 256, 257, 432];

/// Skip and length around the edges of blocks and at the end of the keystream.
const EDGES: [(u64, u64); 17] = [
    (1, 8287),
    (255, 1),
    (255, 2),
    (255, 3),
    (255, 257),
    (255, 258),
    (250, 20),
    (256, 256),
    (257, 254),
    (511, 2),
    (8191, 2),
    (8287, 1),
    (8286, 2),
    (8280, 8),
    (8032, 256),
    (8031, 257),
    (7999, 289),
];

/// Bytes of key and initial value that show a slip which random bytes may hide.
#[derive(Clone, Copy)]
enum Extreme {
    Zeros,
    Ones,
    OneBit(usize),
}

const EXTREMES: [(Extreme, Extreme); 10] = [
    (Extreme::Zeros, Extreme::Zeros),
    (Extreme::Ones, Extreme::Ones),
    (Extreme::Zeros, Extreme::Ones),
    (Extreme::Ones, Extreme::Zeros),
    (Extreme::OneBit(0), Extreme::Zeros),
    (Extreme::OneBit(191), Extreme::Zeros),
    (Extreme::OneBit(100), Extreme::OneBit(37)),
    (Extreme::Zeros, Extreme::OneBit(0)),
    (Extreme::Zeros, Extreme::OneBit(79)),
    (Extreme::Ones, Extreme::OneBit(72)),
];

const RANDOM_CASES: usize = 12;

/// A whole input file for the vectors program.
pub fn vector_file(seed: u64) -> String {
    let mut generator = Generator::new(seed);
    let mut lines: Vec<String> = accepted_cases(&mut generator)
        .iter()
        .chain(&refused_cases(&mut generator))
        .map(Case::to_line)
        .collect();
    lines.extend(unreadable_lines(&mut generator));
    lines.iter().map(|line| format!("{line}\n")).collect()
}

pub fn accepted_cases(generator: &mut Generator) -> Vec<Case> {
    let mut cases = Vec::new();
    for algorithm in Algorithm::ALL.map(Algorithm::number) {
        for length in LENGTHS {
            cases.push(fitting(generator, algorithm, (0, length), 0));
        }
        for length in SHORT_LENGTHS {
            let start = generator.between(1, 40);
            let skip = generator.between(1, 1000);
            cases.push(fitting(generator, algorithm, (skip, length), start));
        }
        for skip_and_length in EDGES {
            let start = generator.below(20);
            cases.push(fitting(generator, algorithm, skip_and_length, start));
        }
        for extremes in EXTREMES {
            cases.push(extreme(generator, algorithm, extremes));
        }
        for _ in 0..RANDOM_CASES {
            cases.push(random(generator, algorithm));
        }
    }
    cases.extend(widest_buffers(generator));
    cases
}

/// A case with random bytes, whose buffer holds the span and up to three bytes more.
fn fitting(
    generator: &mut Generator,
    algorithm: u64,
    (skip, length): (u64, u64),
    start: u64,
) -> Case {
    let bytes = (start + length).div_ceil(8) + generator.below(4);
    let span = Span {
        start,
        length,
        skip,
    };
    with_buffer(generator, algorithm, span, bytes as usize)
}

fn with_buffer(generator: &mut Generator, algorithm: u64, span: Span, bytes: usize) -> Case {
    Case {
        algorithm,
        key: generator.bytes(KEY_BYTES),
        iv: generator.bytes(IV_BYTES),
        span,
        buffer: generator.bytes(bytes),
    }
}

fn extreme(generator: &mut Generator, algorithm: u64, (key, iv): (Extreme, Extreme)) -> Case {
    let skip = generator.below(300);
    Case {
        key: extreme_bytes(key, KEY_BYTES),
        iv: extreme_bytes(iv, IV_BYTES),
        ..fitting(generator, algorithm, (skip, 300), 5)
    }
}

fn extreme_bytes(extreme: Extreme, count: usize) -> Vec<u8> {
    match extreme {
        Extreme::Zeros => vec![0; count],
        Extreme::Ones => vec![0xff; count],
        Extreme::OneBit(place) => {
            let mut bytes = vec![0; count];
            bytes[place / 8] = 0x80 >> (place % 8);
            bytes
        }
    }
}

fn random(generator: &mut Generator, algorithm: u64) -> Case {
    let length = generator.between(1, 600);
    let skip = generator.below(KEYSTREAM_BITS as u64 - length + 1);
    let start = generator.below(100);
    fitting(generator, algorithm, (skip, length), start)
}

/// The longest buffer taken: its last bit alone, and a whole keystream up to its end.
fn widest_buffers(generator: &mut Generator) -> Vec<Case> {
    let end = 8 * BUFFER_BYTES as u64;
    let whole = KEYSTREAM_BITS as u64;
    [(5, 1, 8287), (7, whole, 0)]
        .map(|(algorithm, length, skip)| {
            let start = end - length;
            let span = Span {
                start,
                length,
                skip,
            };
            with_buffer(generator, algorithm, span, BUFFER_BYTES)
        })
        .to_vec()
}

/// What a refused case has instead of a good part: algorithm, bytes of key, initial value and
/// buffer, then start, length and skip.
type Fault = (u64, usize, usize, usize, u64, u64, u64);

const TOO_LONG: usize = BUFFER_BYTES + 1;

const FAULTS: [Fault; 25] = [
    // 1, also ahead of 2 and 3
    (4, 24, 10, 4, 0, 8, 0),
    (8, 24, 10, 4, 0, 8, 0),
    (0, 24, 10, 4, 0, 8, 0),
    (u64::MAX, 23, 9, 4, 0, 0, 0),
    // 2, also ahead of 3
    (5, 23, 10, 4, 0, 8, 0),
    (6, 25, 10, 4, 0, 8, 0),
    (7, 1, 11, 4, 0, 8, 0),
    // 3, also ahead of 5
    (5, 24, 9, 4, 0, 8, 0),
    (6, 24, 11, 4, 0, 8, 0),
    (7, 24, 1, TOO_LONG, 0, 8, 0),
    // 5, also ahead of 4
    (5, 24, 10, TOO_LONG, 0, 8, 0),
    (6, 24, 10, TOO_LONG, u64::MAX, 0, u64::MAX),
    // 4, also ahead of 6, and where a sum of 64 bits would wrap
    (5, 24, 10, 4, 0, 0, 0),
    (6, 24, 10, 4, 33, 0, 0),
    (7, 24, 10, 4, 0, 8289, 0),
    (5, 24, 10, 4, 0, 1, 8288),
    (6, 24, 10, 4, 0, 8288, 1),
    (7, 24, 10, 4, 0, 1, u64::MAX),
    (5, 24, 10, 4, 0, u64::MAX, 2),
    (6, 24, 10, 4, u64::MAX, u64::MAX, u64::MAX),
    // 6, and where a sum of 64 bits would wrap
    (5, 24, 10, 4, 0, 33, 0),
    (6, 24, 10, 4, 25, 8, 0),
    (7, 24, 10, 4, 32, 1, 0),
    (5, 24, 10, 4, u64::MAX, 1, 0),
    (6, 24, 10, 4, u64::MAX - 7, 8, 0),
];

pub fn refused_cases(generator: &mut Generator) -> Vec<Case> {
    let make = |fault: Fault| {
        let (algorithm, key, iv, buffer, start, length, skip) = fault;
        Case {
            algorithm,
            key: generator.bytes(key),
            iv: generator.bytes(iv),
            span: Span {
                start,
                length,
                skip,
            },
            buffer: generator.bytes(buffer),
        }
    };
    FAULTS.map(make).to_vec()
}

/// A field of a good line, and what takes its place in a line that can't be read.
const BAD_FIELDS: [(usize, &str); 16] = [
    (0, "05"),
    (0, "TEA5"),
    (0, ""),
    (1, "A00000000000000000000000000000000000000000000000"),
    (1, "0"),
    (1, ""),
    (2, "0000000000000000000"),
    (2, "0000000000000000000g"),
    (3, "00"),
    (3, "-1"),
    (4, "+8"),
    (4, "18446744073709551616"),
    (5, "1 "),
    (5, "0x0"),
    (6, "FF"),
    (6, ""),
];

pub fn unreadable_lines(generator: &mut Generator) -> Vec<String> {
    let good = fitting(generator, 5, (0, 8), 0).to_line();
    let fields: Vec<&str> = good.split(' ').collect();
    let with_bad_field = |(place, text)| {
        let mut fields = fields.clone();
        fields[place] = text;
        fields.join(" ")
    };
    let mut lines: Vec<String> = BAD_FIELDS.map(with_bad_field).to_vec();
    lines.push(String::new());
    lines.push(fields[..6].join(" "));
    lines.push(format!("{good} 0"));
    lines.push(format!(" {good}"));
    lines.push(format!("{good}\r"));
    lines.push(good.replace(' ', "\t"));
    lines
}
