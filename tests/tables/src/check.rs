//! Holds the stored report to the tables, and the second program's f to the stored report.

use second::printed::{parse_table, COMBINING_TABLES, ROW_SIZE};
use second::tea::Algorithm;

use crate::report::{report, table_in_use_heading};

const STORED_REPORT: &str = include_str!("../report.txt");

pub fn check() -> Result<(), String> {
    same_lines(STORED_REPORT, &report())?;
    for (printed, algorithm) in COMBINING_TABLES.iter().zip(Algorithm::ALL) {
        let heading = table_in_use_heading(printed);
        same_function(STORED_REPORT, &heading, |input| algorithm.combine(input))?;
    }
    Ok(())
}

/// Names the first line in which the stored report and the present one differ.
fn same_lines(stored: &str, present: &str) -> Result<(), String> {
    if stored == present {
        return Ok(());
    }
    let first = stored
        .lines()
        .zip(present.lines())
        .position(|(stored, present)| stored != present)
        .unwrap_or(stored.lines().count().min(present.lines().count()));
    let line = |text: &str| text.lines().nth(first).unwrap_or("its end").to_string();
    Err(format!(
        "report.txt differs in line {}: it has '{}', the tables give '{}'",
        first + 1,
        line(stored),
        line(present)
    ))
}

/// Holds `f` to the table that stands below the heading in the stored report.
fn same_function(stored: &str, heading: &str, f: impl Fn(u8) -> u8) -> Result<(), String> {
    let rows = stored.lines().skip_while(|line| *line != heading).skip(1);
    let text: Vec<&str> = rows.take(ROW_SIZE).collect();
    let table = parse_table(&text.join("\n"))
        .map_err(|fault| format!("report.txt, below '{heading}': {fault}"))?;
    match (0..=u8::MAX).find(|input| f(*input) != table[usize::from(*input)]) {
        None => Ok(()),
        Some(input) => Err(format!(
            "report.txt, below '{heading}': 0x{input:02x} has 0x{:02x}, the second program uses 0x{:02x}",
            table[usize::from(input)],
            f(input)
        )),
    }
}

#[cfg(test)]
mod tests {
    use super::*;

    #[test]
    fn report_and_tables_stand() {
        assert_eq!(check(), Ok(()));
    }

    #[test]
    fn another_report_is_named_by_its_line() {
        let fault = same_lines("a\nb\nc\n", "a\nx\nc\n").unwrap_err();
        assert!(fault.contains("line 2: it has 'b', the tables give 'x'"));
        assert!(same_lines("a\n", "a\nb\n").unwrap_err().contains("line 2"));
    }

    #[test]
    fn another_table_is_named_by_its_input() {
        let heading = table_in_use_heading(&COMBINING_TABLES[1]);
        let f = |input| match input {
            0x88 => 0xce,
            _ => Algorithm::Tea6.combine(input),
        };
        let fault = same_function(STORED_REPORT, &heading, f).unwrap_err();
        assert!(fault.contains("0x88 has 0xcc, the second program uses 0xce"));
        assert!(same_function(STORED_REPORT, "no such heading", f).is_err());
    }
}
