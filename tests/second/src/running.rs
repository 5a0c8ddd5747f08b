//! Runs a program on an input, for comparisons.

use std::io::{Read, Write};
use std::process::{Command, Stdio};

/// What a program prints, if it ends well.
pub fn output_of(program: &str, input: &[u8]) -> Result<Vec<u8>, String> {
    let fault = |error: std::io::Error| format!("{program}: {error}");
    let mut child = Command::new(program)
        .stdin(Stdio::piped())
        .stdout(Stdio::piped())
        .spawn()
        .map_err(fault)?;
    // a program may read no further than it needs: that its end of the pipe is shut is no fault
    let _ = child
        .stdin
        .take()
        .ok_or("no standard input")?
        .write_all(input);
    let mut printed = Vec::new();
    child
        .stdout
        .take()
        .ok_or("no standard output")?
        .read_to_end(&mut printed)
        .map_err(fault)?;
    let ended = child.wait().map_err(fault)?;
    if ended.success() {
        Ok(printed)
    } else {
        Err(format!("{program} ended with {ended}"))
    }
}
