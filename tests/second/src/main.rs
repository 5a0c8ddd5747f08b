//! The second program at the command line.

use std::env;
use std::io::{self, Read, Write};
use std::process::ExitCode;

use second::blocklines::{encrypt_lines, random_lines};
use second::cases::vector_file;
use second::conversion_input;
use second::mending::mend_sheet;
use second::month::month_sheet;
use second::records::slotlist;
use second::selftest::{checks, failures};
use second::vectors::expected_output;

const USAGE: &str = "usage:
  second vectors SEED        print an input file for the vectors program
  second expect              read such a file, print the output it must give
  second blocks SEED COUNT   print random lines KEY BLOCK
  second encrypt             read such lines, print the encrypted blocks
  second slotlist            read key records, list them as the program slotlist does
  second month               read a call log, print its month sheet as the program month does
  second converted           read a conversion, print what the program converted prints of it
  second mend                read a damaged record, print what the program mend does
  second selftest            check the program itself";

fn main() -> ExitCode {
    let arguments: Vec<String> = env::args().skip(1).collect();
    let words: Vec<&str> = arguments.iter().map(String::as_str).collect();
    match run(&words) {
        Ok(()) => ExitCode::SUCCESS,
        Err(fault) => {
            eprintln!("{fault}");
            ExitCode::FAILURE
        }
    }
}

fn run(words: &[&str]) -> Result<(), String> {
    match words {
        ["vectors", seed] => print(vector_file(number(seed)?).as_bytes()),
        ["expect"] => print(expected_output(&input()?).as_bytes()),
        ["blocks", seed, count] => print(random_lines(number(seed)?, number(count)?).as_bytes()),
        ["encrypt"] => print(encrypt_lines(&String::from_utf8_lossy(&input()?))?.as_bytes()),
        ["converted"] => print(&conversion_input::printed(&input()?)),
        ["mend"] => print(&mend_sheet(&input()?)),
        ["month"] => print(&month_sheet(&input()?)),
        ["slotlist"] => print(&slotlist(&input()?)),
        ["selftest"] => run_checks(),
        _ => Err(USAGE.to_string()),
    }
}

fn run_checks() -> Result<(), String> {
    let failures = failures();
    if failures.is_empty() {
        print(format!("selftest: {} checks hold\n", checks().len()).as_bytes())
    } else {
        Err(format!("selftest: failed\n{}", failures.join("\n")))
    }
}

fn number(word: &str) -> Result<u64, String> {
    word.parse()
        .map_err(|_| format!("'{word}' is no number of 64 bits"))
}

fn input() -> Result<Vec<u8>, String> {
    let mut bytes = Vec::new();
    match io::stdin().read_to_end(&mut bytes) {
        Ok(_) => Ok(bytes),
        Err(fault) => Err(format!("can't read standard input: {fault}")),
    }
}

fn print(bytes: &[u8]) -> Result<(), String> {
    io::stdout()
        .write_all(bytes)
        .map_err(|fault| format!("can't write standard output: {fault}"))
}
