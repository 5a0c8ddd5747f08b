//! Runs the program converted on random conversions, good and damaged, and compares what it prints with what the second program gives.
//! Usage: conversion PROGRAM SEED COUNT

use std::collections::BTreeMap;
use std::env;
use std::process::ExitCode;

use conversion_oracle::random_conversion;
use second::conversion_input::printed;
use second::generator::Generator;
use second::running::output_of;

fn main() -> ExitCode {
    let words: Vec<String> = env::args().skip(1).collect();
    let [program, seed, count] = words.as_slice() else {
        eprintln!("usage: conversion PROGRAM SEED COUNT");
        return ExitCode::FAILURE;
    };
    let (Ok(seed), Ok(count)) = (seed.parse(), count.parse()) else {
        eprintln!("conversion: SEED and COUNT are numbers");
        return ExitCode::FAILURE;
    };
    match compare(program, seed, count) {
        Ok(report) => {
            println!("{report}");
            ExitCode::SUCCESS
        }
        Err(fault) => {
            eprintln!("conversion: {fault} (seed {seed})");
            ExitCode::FAILURE
        }
    }
}

fn compare(program: &str, seed: u64, count: u64) -> Result<String, String> {
    let mut generator = Generator::new(seed);
    let mut seen = BTreeMap::from([
        ("converted", 0),
        ("refused=22", 0),
        ("refused=23", 0),
        ("refused=24", 0),
    ]);
    for number in 0..count {
        let input = input(seed, number, &mut generator);
        let expected = String::from_utf8_lossy(&printed(&input)).into_owned();
        let given = String::from_utf8_lossy(&output_of(program, &input)?).into_owned();
        if given != expected {
            return Err(format!(
                "conversion {number}: {program} printed {given:?}, expected {expected:?}, of {:?}",
                String::from_utf8_lossy(&input)
            ));
        }
        for (start, times) in &mut seen {
            *times += u64::from(expected.starts_with(start));
        }
    }
    if seen.values().any(|&times| times == 0) {
        return Err(format!("{seen:?}: each is to be seen"));
    }
    Ok(format!(
        "conversion: {program} on {count} inputs agrees: {seen:?}"
    ))
}

/// A random conversion as the program reads it; one of three with a byte of all of it damaged, and some with more bytes than the
/// program takes, or just as many.
fn input(seed: u64, number: u64, generator: &mut Generator) -> Vec<u8> {
    let mut input = random_conversion(seed, number).input();
    let place = generator.below(input.len() as u64) as usize;
    match generator.below(21) {
        0 => drop(input.remove(place)),
        1 => input.insert(place, b"0 =\n\r9a"[generator.below(7) as usize]),
        2 => input[place] = generator.word() as u8,
        3 => input.truncate(place),
        4 => input.push(b'\n'),
        5 => drop(input.pop()),
        6 => damage_end(&mut input, generator),
        7 => input.resize(generator.between(16_383, 16_386) as usize, b'\n'),
        _ => (),
    }
    input
}

/// A byte among the last twenty, where the pairs stand.
fn damage_end(input: &mut Vec<u8>, generator: &mut Generator) {
    let place = input.len() - 1 - generator.below(20.min(input.len() as u64)) as usize;
    input.insert(place, b"0 =\n\r9a"[generator.below(7) as usize]);
}
