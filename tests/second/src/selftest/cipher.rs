//! Checks of the field, Rijndael, the mixing and the keystream.

use super::{same, Check, Finding};
use crate::bits::{bit_at, xor_bits};
use crate::cases::{accepted_cases, refused_cases, unreadable_lines, vector_file};
use crate::field::{inverse, mixing_product, substitute, times};
use crate::generator::Generator;
use crate::hex::{from_hex, to_hex};
use crate::printed::{row_keeps_both_rules, COMBINING, EXAMPLE_INPUT, ROW_SIZE};
use crate::rijndael::{round_constant, Schedule};
use crate::tea::{mixed_value, mode, recursion, Algorithm, Keystream, KEYSTREAM_BITS};
use crate::vectors::{expected_output, Case, INPUT_BYTES};

pub const CHECKS: &[Check] = &[
    ("mixing products", mixing_products),
    ("S-box", s_box),
    ("inverses", inverses),
    ("round constants", round_constants),
    ("Rijndael block", pi_under_e),
    ("mixed values", mixed_values),
    ("f values", f_values),
    ("f rules", f_rules),
    ("mode by its bits", mode_by_its_bits),
    ("name in the block", name_in_the_block),
    ("bits of blocks", bits_of_blocks),
    ("spans of the keystream", spans_of_the_keystream),
    ("vector file", vector_file_form),
    ("vector answers", vector_answers),
    ("unreadable vectors", unreadable_vectors),
];

fn mixing_products() -> Finding {
    for (byte, product) in [(0, 0), (0x12, 0x6a), (0x26, 0x61), (0xff, 0x78)] {
        same("M", mixing_product(byte), product)?;
    }
    Ok(())
}

fn s_box() -> Finding {
    for (byte, substitute_byte) in [(0x00, 0x63), (0x01, 0x7c), (0x53, 0xed)] {
        same("S-box", substitute(byte), substitute_byte)?;
    }
    Ok(())
}

fn inverses() -> Finding {
    same("inverse of 0", inverse(0), 0)?;
    for byte in 1..=u8::MAX {
        same("byte times its inverse", times(byte, inverse(byte)), 1)?;
    }
    Ok(())
}

fn round_constants() -> Finding {
    let wanted = "01020408102040801b366cd8ab4d9a2f5ebc63";
    let found: Vec<u8> = (1..=19).map(round_constant).collect();
    same("round constants", to_hex(&found), wanted.to_string())
}

/// The hex digits of pi, encrypted under those of e. libmcrypt gives this block too.
fn pi_under_e() -> Finding {
    let key = "2b7e151628aed2a6abf7158809cf4f3c762e7160f38b4da5";
    let plain = "3243f6a8885a308d313198a2e03707344a4093822299f31d0082efa98ec4e6c8";
    let wanted = "5d7101727bb25781bf6715b0e6955282b9610e23a43c2eb062699f0ebf5887b2";
    let encrypted = Schedule::new(&array(key)).encrypt(&array(plain));
    same("block", to_hex(&encrypted), wanted.to_string())
}

fn array<const N: usize>(digits: &str) -> [u8; N] {
    let bytes = from_hex(digits.as_bytes()).expect("hex digits");
    bytes.try_into().expect("the right number of digits")
}

fn mixed_values() -> Finding {
    same("IVX of zeros", mixed_value(&[0; 10]), [0; 24])?;
    let b = recursion(&[0, 0, 0, 0, 0, 0, 0, 0, 0, 1]);
    same("b[10..12]", to_hex(&b[10..13]), "d73f8b".to_string())?;
    let iv = [7, 0, 0, 0, 0, 0, 0, 0, 0, 1];
    same("end of IVX", mixed_value(&iv)[23], recursion(&iv)[43])
}

/// The clauses' examples, TEA7's as its table prints it, and the repaired entries of TEA6.
fn f_values() -> Finding {
    for (algorithm, input, value) in [
        (Algorithm::Tea5, EXAMPLE_INPUT, 0xcc),
        (Algorithm::Tea6, EXAMPLE_INPUT, 0x20),
        (Algorithm::Tea7, EXAMPLE_INPUT, 0xcf),
        (Algorithm::Tea6, 0x13, 0xe6),
        (Algorithm::Tea6, 0x88, 0xcc),
    ] {
        same("f", algorithm.combine(input), value)?;
    }
    Ok(())
}

fn f_rules() -> Finding {
    for table in &COMBINING[..2] {
        let kept = (0..ROW_SIZE).filter(|row| row_keeps_both_rules(table, *row));
        same(
            "rows of TEA5 and TEA6 by both rules",
            kept.count(),
            ROW_SIZE,
        )?;
    }
    Ok(())
}

/// Clause 5.3 word for word: bits 4i to 4i+3 of key and mixed value give those of CKM and IVM.
fn mode_by_its_bits() -> Finding {
    let mut generator = Generator::new(53);
    for algorithm in Algorithm::ALL {
        let key = generator.array();
        let mixed = generator.array();
        let found = mode(algorithm, &key, &mixed);
        for i in 0..48 {
            let input = four_bits(&key, i) << 4 | four_bits(&mixed, i);
            let output = four_bits(&found.key, i) << 4 | four_bits(&found.value, i);
            same("combined bits", output, algorithm.combine(input))?;
        }
    }
    Ok(())
}

fn four_bits(bytes: &[u8], i: usize) -> u8 {
    (4 * i..4 * i + 4).fold(0, |bits, place| bits << 1 | u8::from(bit_at(bytes, place)))
}

fn name_in_the_block() -> Finding {
    let (key, iv) = ([0x5a; 24], [0xc3; 10]);
    let digits = [53, 54, 55];
    for (algorithm, digit) in Algorithm::ALL.into_iter().zip(digits) {
        let mode = mode(algorithm, &key, &mixed_value(&iv));
        let mut plain = mode.value.to_vec();
        plain.extend([84, 69, 65, digit, 0x01, 0x02, 0x03, 0x04]);
        let plain = plain.try_into().expect("32 bytes");
        let wanted = Schedule::new(&mode.key).encrypt(&plain);
        let found = Keystream::new(algorithm, &key, &iv).block(0x0102_0304);
        same("block", found, wanted)?;
    }
    Ok(())
}

/// Keystream bit 256r+8s+t is bit t of byte s of block r.
fn bits_of_blocks() -> Finding {
    let keystream = Keystream::new(Algorithm::Tea6, &[9; 24], &[8; 10]);
    let bits = keystream.bits(0, KEYSTREAM_BITS);
    same("number of bits", bits.len(), KEYSTREAM_BITS)?;
    for r in 0..KEYSTREAM_BITS / 256 {
        let block = keystream.block(r as u32);
        for (s, byte) in block.iter().enumerate() {
            for t in 0..8 {
                let wanted = (byte >> (7 - t)) & 1 == 1;
                same("bit", bits[256 * r + 8 * s + t], wanted)?;
            }
        }
    }
    Ok(())
}

/// A span is that part of the whole keystream, wherever it begins and ends.
fn spans_of_the_keystream() -> Finding {
    let mut generator = Generator::new(54);
    let keystream = Keystream::new(Algorithm::Tea7, &generator.array(), &generator.array());
    let whole = keystream.bits(0, KEYSTREAM_BITS);
    for _ in 0..200 {
        let length = generator.between(1, 900) as usize;
        let skip = generator.below((KEYSTREAM_BITS - length) as u64 + 1) as usize;
        let wanted = &whole[skip..skip + length];
        same("span", &keystream.bits(skip, length)[..], wanted)?;
    }
    Ok(())
}

fn vector_file_form() -> Finding {
    let file = vector_file(1);
    same("a short enough file", file.len() <= INPUT_BYTES, true)?;
    same("the same seed", file == vector_file(1), true)?;
    same("another seed", file == vector_file(2), false)?;
    let output = expected_output(file.as_bytes());
    same("lines", output.lines().count(), file.lines().count())?;
    let good = |line: &&str| !line.starts_with("refused=") && *line != "unreadable";
    let accepted = output.lines().filter(good).count();
    same("at least 120 accepted", accepted >= 120, true)
}

fn vector_answers() -> Finding {
    let mut generator = Generator::new(55);
    for case in accepted_cases(&mut generator) {
        let answer = case.answer();
        let found = answer.split(' ').map(|part| from_hex(part.as_bytes()));
        same(
            "answer",
            found.collect(),
            answer_by_parts(&case).map(Some).to_vec(),
        )?;
    }
    let numbers: String = refused_cases(&mut generator)
        .iter()
        .map(|case| case.answer().replace("refused=", ""))
        .collect();
    same("refusals", numbers, "1111222333554444444466666".to_string())
}

/// Mixed value, mode key, mode value and buffer of an accepted case, each worked out by itself.
fn answer_by_parts(case: &Case) -> [Vec<u8>; 4] {
    let key = case.key[..].try_into().expect("24 bytes");
    let iv = case.iv[..].try_into().expect("10 bytes");
    let algorithm = Algorithm::from_number(case.algorithm).expect("an algorithm");
    let mixed = mixed_value(&iv);
    let mode = mode(algorithm, &key, &mixed);
    let whole = Keystream::new(algorithm, &key, &iv).bits(0, KEYSTREAM_BITS);
    let (skip, length) = (case.span.skip as usize, case.span.length as usize);
    let mut buffer = case.buffer.clone();
    xor_bits(
        &mut buffer,
        case.span.start as usize,
        &whole[skip..skip + length],
    );
    [
        mixed.to_vec(),
        mode.key.to_vec(),
        mode.value.to_vec(),
        buffer,
    ]
}

fn unreadable_vectors() -> Finding {
    same("no line", expected_output(b""), String::new())?;
    let mut generator = Generator::new(58);
    for line in unreadable_lines(&mut generator) {
        let output = expected_output(format!("{line}\n").as_bytes());
        same(&line, output, "unreadable\n".to_string())?;
    }
    for case in accepted_cases(&mut generator).iter().take(3) {
        let (line, answer) = (case.to_line(), case.answer());
        let output = expected_output(format!("{line}\n{line}").as_bytes());
        same(
            "a last line without its LF",
            output,
            format!("{answer}\nunreadable\n"),
        )?;
    }
    Ok(())
}
