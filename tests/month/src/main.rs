//! Runs the program month on random call logs, good and damaged, and compares what it prints with what the second program gives.
//! Usage: month PROGRAM SEED COUNT

mod logs;

use std::env;
use std::process::ExitCode;

use logs::{random_log, Kind};
use second::generator::Generator;
use second::month::month_sheet;
use second::running::output_of;

fn main() -> ExitCode {
    let words: Vec<String> = env::args().skip(1).collect();
    let [program, seed, count] = words.as_slice() else {
        eprintln!("usage: month PROGRAM SEED COUNT");
        return ExitCode::FAILURE;
    };
    let (Ok(seed), Ok(count)) = (seed.parse(), count.parse()) else {
        eprintln!("month: SEED and COUNT are numbers");
        return ExitCode::FAILURE;
    };
    match compare(program, seed, count) {
        Ok(report) => {
            println!("{report}");
            ExitCode::SUCCESS
        }
        Err(fault) => {
            eprintln!("month: {fault} (seed {seed})");
            ExitCode::FAILURE
        }
    }
}

fn compare(program: &str, seed: u64, count: u64) -> Result<String, String> {
    let mut generator = Generator::new(seed);
    let (mut sheets, mut refused, mut full) = (0, 0, 0);
    for number in 0..count {
        let kind = Kind::of(number, &mut generator);
        let log = random_log(&kind, &mut generator);
        let expected = month_sheet(&log);
        let printed = output_of(program, &log)?;
        if printed != expected {
            return Err(format!(
                "log {number} ({kind:?}, {} bytes): month printed {:?}, expected {:?}",
                log.len(),
                first_line_that_differs(&printed, &expected),
                first_line_that_differs(&expected, &printed)
            ));
        }
        full += u64::from(kind.lines >= 65_535);
        if expected.starts_with(b"refused=27") {
            refused += 1;
        } else {
            sheets += 1;
        }
    }
    if sheets == 0 || refused == 0 || full == 0 {
        return Err(format!(
            "{sheets} sheets, {refused} refused and {full} of full length: each is to be seen"
        ));
    }
    Ok(format!("month: {count} logs agree, {sheets} sheets and {refused} refused, {full} of 65,535 lines or more"))
}

fn first_line_that_differs(a: &[u8], b: &[u8]) -> String {
    let mut others = b.split(|&x| x == b'\n');
    let line = a
        .split(|&x| x == b'\n')
        .find(|line| others.next() != Some(line));
    String::from_utf8_lossy(line.unwrap_or(b"nothing")).into_owned()
}
