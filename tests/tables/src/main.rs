//! Tests the six printed tables of the standard and says what it found.
//!
//! `tables` prints the report. `tables check` fails where `report.txt` is another one, or where its
//! tables in use aren't those of the second program.

mod check;
mod report;
mod split;

use std::env;
use std::process::ExitCode;

fn main() -> ExitCode {
    let arguments: Vec<String> = env::args().skip(1).collect();
    let words: Vec<&str> = arguments.iter().map(String::as_str).collect();
    match words[..] {
        [] => print!("{}", report::report()),
        ["check"] => {
            if let Err(fault) = check::check() {
                eprintln!("tables: {fault}");
                return ExitCode::FAILURE;
            }
            println!("tables: report.txt and the tables in use stand");
        }
        _ => {
            eprintln!("usage: tables [check]");
            return ExitCode::FAILURE;
        }
    }
    ExitCode::SUCCESS
}
