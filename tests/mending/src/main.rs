//! Runs the program mend on damaged texts, and holds what it prints to the second program and to what a text's making says.
//! Usage: mending PROGRAM SEED COUNT     or, to write the texts to files for a fuzzer: mending --texts FOLDER SEED COUNT

use std::env;
use std::fs;
use std::io::{Read, Write};
use std::process::{Command, ExitCode, Stdio};

use mending_oracle::{text, Known, Text};
use second::mending::mend_sheet;

const USAGE: &str = "usage: mending PROGRAM SEED COUNT | mending --texts FOLDER SEED COUNT";

fn main() -> ExitCode {
    let arguments: Vec<String> = env::args().skip(1).collect();
    let words: Vec<&str> = arguments.iter().map(String::as_str).collect();
    let done = match words.as_slice() {
        ["--texts", folder, seed, count] => write_texts(folder, seed, count),
        [program, seed, count] => compare(program, seed, count),
        _ => Err(USAGE.to_string()),
    };
    match done {
        Ok(report) => {
            println!("{report}");
            ExitCode::SUCCESS
        }
        Err(fault) => {
            eprintln!("mending: {fault}");
            ExitCode::FAILURE
        }
    }
}

fn number(word: &str) -> Result<u64, String> {
    word.parse().map_err(|_| USAGE.to_string())
}

fn write_texts(folder: &str, seed: &str, count: &str) -> Result<String, String> {
    for place in 0..number(count)? {
        let name = format!("{folder}/{place}");
        fs::write(&name, text(number(seed)?, place).bytes)
            .map_err(|fault| format!("{name}: {fault}"))?;
    }
    Ok(format!("mending: {count} texts written"))
}

fn compare(program: &str, seed: &str, count: &str) -> Result<String, String> {
    let (mut mended, mut refused) = (0, 0);
    for place in 0..number(count)? {
        let text = text(number(seed)?, place);
        let printed = run(program, &text.bytes)?;
        if printed != mend_sheet(&text.bytes) || !as_made(&text, &printed) {
            return Err(format!(
                "text {place} of seed {seed}, {:?}: printed {:?}",
                String::from_utf8_lossy(&text.bytes),
                String::from_utf8_lossy(&printed)
            ));
        }
        if printed.starts_with(b"refused=") {
            refused += 1;
        } else {
            mended += 1;
        }
    }
    if mended == 0 || refused == 0 {
        return Err(format!(
            "{mended} mended and {refused} refused: each is to be seen"
        ));
    }
    Ok(format!(
        "mending: the program mend agrees on {count} texts, {mended} mended and {refused} refused"
    ))
}

/// Whether what is printed is what the text's making says.
fn as_made(text: &Text, printed: &[u8]) -> bool {
    match &text.known {
        Known::Unknown => true,
        Known::Refused(refusal) => printed == format!("refused={refusal}\n").as_bytes(),
        Known::Mended(mended) => printed == mended,
    }
}

fn run(program: &str, text: &[u8]) -> Result<Vec<u8>, String> {
    let fault = |error: std::io::Error| format!("{program}: {error}");
    let mut child = Command::new(program)
        .stdin(Stdio::piped())
        .stdout(Stdio::piped())
        .spawn()
        .map_err(fault)?;
    // of a text that is too long the program reads no more than it needs: that its end of the pipe is shut is no fault
    let _ = child
        .stdin
        .take()
        .ok_or("no standard input")?
        .write_all(text);
    let mut printed = Vec::new();
    let mut output = child.stdout.take().ok_or("no standard output")?;
    output.read_to_end(&mut printed).map_err(fault)?;
    let ended = child.wait().map_err(fault)?;
    if ended.success() {
        Ok(printed)
    } else {
        Err(format!("{program} ended with {ended}"))
    }
}
