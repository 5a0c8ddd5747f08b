//! The report: what each printed table keeps of its rules, what is repaired, and how it is built.

use second::field::mixing_product;
use second::hex::to_hex;
use second::printed::{
    changes_for_first_rule, different, inputs_of, repair_of_row, repaired, row_halves_differ,
    row_keeps_both_rules, row_of, row_values_stand_once, Change, Printed, Table, COMBINING_TABLES,
    EXAMPLE_INPUT, MIXING_TABLES, ROW_SIZE, TABLE_SIZE,
};

use crate::split::{broken_groups, exchanged, exchanges_that_keep_it, Broken};

const OPENING: &str = "\
The six printed tables of ETSI TS 104 053-2 V1.1.1, as scanned.

M tables are held to the product with 0xd7 in GF(2^8). f tables are held to two rules:
first, in one row all 16 high halves differ and all 16 low halves differ;
second, no value stands twice in the table.
A row that breaks a rule is repaired where exactly one change of one entry makes it keep both.
";

pub fn report() -> String {
    let mixing = MIXING_TABLES.iter().map(mixing_section);
    let combining = COMBINING_TABLES.iter().map(combining_section);
    let sections: Vec<String> = mixing.chain(combining).collect();
    format!("{OPENING}\n{}", sections.join("\n"))
}

/// The line above a repaired table in the report.
pub fn table_in_use_heading(printed: &Printed) -> String {
    format!("TEA{} f in use:", printed.algorithm)
}

fn mixing_section(printed: &Printed) -> String {
    let table = printed.table();
    let faults: Vec<String> = (0..=u8::MAX)
        .filter(|input| table[usize::from(*input)] != mixing_product(*input))
        .map(|input| mixing_fault(&table, input))
        .collect();
    let mut lines = vec![title(printed, "M"), example(printed, &table)];
    lines.push(match faults.len() {
        0 => "every entry is the product".to_string(),
        count => format!("entries that aren't the product: {count}"),
    });
    lines.extend(faults);
    text(&lines)
}

fn mixing_fault(table: &Table, input: u8) -> String {
    format!(
        "  0x{input:02x}: printed 0x{:02x}, the product is 0x{:02x}, which decides",
        table[usize::from(input)],
        mixing_product(input)
    )
}

fn title(printed: &Printed, name: &str) -> String {
    format!(
        "== Table {}, clause {}: {name} of TEA{}",
        printed.number, printed.clause, printed.algorithm
    )
}

fn example(printed: &Printed, table: &Table) -> String {
    let stands = table[usize::from(EXAMPLE_INPUT)];
    let opening = format!(
        "example for 0x{EXAMPLE_INPUT:02x}: the clause says 0x{:02x}",
        printed.example
    );
    if stands == printed.example {
        format!("{opening}, and so does the table")
    } else {
        let elsewhere = input_list(&inputs_of(table, printed.example));
        format!("{opening}, BUT THE TABLE PRINTS 0x{stands:02x}; the clause's value stands at {elsewhere}")
    }
}

fn combining_section(printed: &Printed) -> String {
    let table = printed.table();
    let in_use = repaired(&table);
    let mut lines = vec![title(printed, "f"), example(printed, &table)];
    lines.push(values_line("as printed", &table));
    lines.extend(rule_lines(&table, &in_use));
    lines.push(values_line("in use", &in_use));
    lines.push(format!(
        "in use, rows that keep both rules: {} of {ROW_SIZE}",
        (0..ROW_SIZE)
            .filter(|row| row_keeps_both_rules(&in_use, *row))
            .count()
    ));
    lines.extend(structure_lines(&in_use));
    lines.extend(split_lines(printed, &in_use));
    lines.push(table_in_use_heading(printed));
    lines.extend((0..ROW_SIZE).map(|row| row_line(&in_use, row)));
    text(&lines)
}

fn values_line(which: &str, table: &Table) -> String {
    match different(table.iter().copied()) {
        TABLE_SIZE => format!("{which}: {TABLE_SIZE} different values, a permutation"),
        count => format!("{which}: {count} different values, no permutation"),
    }
}

/// What the two rules say about each row that breaks one.
fn rule_lines(table: &Table, in_use: &Table) -> Vec<String> {
    let broken: Vec<usize> = (0..ROW_SIZE)
        .filter(|row| !row_keeps_both_rules(table, *row))
        .collect();
    let mut lines = vec![format!(
        "as printed, rows that keep both rules: {} of {ROW_SIZE}",
        ROW_SIZE - broken.len()
    )];
    for row in broken {
        lines.extend(broken_row_lines(table, in_use, row));
    }
    lines
}

fn broken_row_lines(table: &Table, in_use: &Table, row: usize) -> Vec<String> {
    let changes = changes_for_first_rule(table, row);
    let mut lines = vec![format!("  row 0x{row:x}?: {}", faults_of_row(table, row))];
    lines.extend(
        changes
            .iter()
            .map(|change| change_line(table, row, *change)),
    );
    lines.push(match repair_of_row(table, row) {
        Some(repair) => repair_line(repair),
        None => unrepaired_line(row_keeps_both_rules(in_use, row), changes.len()),
    });
    lines
}

fn faults_of_row(table: &Table, row: usize) -> String {
    let first_rule = if row_halves_differ(table, row) {
        "keeps the first rule".to_string()
    } else {
        let (high, low) = different_halves(row_of(table, row));
        format!("breaks the first rule ({high} high halves, {low} low halves)")
    };
    let second_rule = if row_values_stand_once(table, row) {
        "keeps the second".to_string()
    } else {
        format!("breaks the second ({})", doubles_of_row(table, row))
    };
    format!("{first_rule}, {second_rule}")
}

/// Each value of the row that stands at another input too, and where.
fn doubles_of_row(table: &Table, row: usize) -> String {
    let doubles: Vec<String> = row_of(table, row)
        .iter()
        .map(|value| (value, inputs_of(table, *value)))
        .filter(|(_, inputs)| inputs.len() > 1)
        .map(|(value, inputs)| format!("0x{value:02x} stands at {}", input_list(&inputs)))
        .collect();
    doubles.join(", ")
}

fn change_line(table: &Table, row: usize, change: Change) -> String {
    let before = table[usize::from(change.input)];
    let changed = change.applied_to(table);
    let judgement = if row_keeps_both_rules(&changed, row) {
        "keeps both rules".to_string()
    } else {
        format!("out by the second, {}", doubles_of_row(&changed, row))
    };
    format!(
        "    0x{:02x} from 0x{before:02x} to 0x{:02x} keeps the first rule: {judgement}",
        change.input, change.value
    )
}

fn repair_line(repair: Change) -> String {
    format!(
        "    REPAIRED: 0x{:02x} holds 0x{:02x}",
        repair.input, repair.value
    )
}

fn unrepaired_line(keeps_both_in_use: bool, changes: usize) -> String {
    let why = match changes {
        _ if keeps_both_in_use => "the repair of another row mends it",
        0 => "no change of one entry keeps the first rule",
        _ => "not exactly one change keeps both rules",
    };
    format!("    stands as printed: {why}")
}

/// Different halves in each row and column, and how often each high half comes in a column.
fn structure_lines(table: &Table) -> Vec<String> {
    let mut lines = vec!["in use, different halves (high, low) by row:".to_string()];
    lines.extend((0..ROW_SIZE).map(|row| {
        let (high, low) = different_halves(row_of(table, row));
        format!("  0x{row:x}?: {high:2}, {low:2}")
    }));
    lines
        .push("in use, different halves (high, low) by column; times each high half comes:".into());
    lines.extend((0..ROW_SIZE).map(|column| {
        let (high, low) = different_halves(&column_of(table, column));
        let times = times_of_high_halves(column_of(table, column));
        format!("  0x?{column:x}: {high:2}, {low:2}; {times}")
    }));
    lines
}

/// Where the split of 8, 7 and 1 holds: that it does, what it says about the clause's example where
/// that is another value than the table's, and what it leaves open.
fn split_lines(printed: &Printed, table: &Table) -> Vec<String> {
    if !broken_groups(table).is_empty() {
        return Vec::new();
    }
    let mut lines = vec![
        "in use, an entry is main, second or single as its high half comes 8, 7 or 1 times in its column:"
            .to_string(),
        "  8 main, 7 second and 1 single in every row, every column, every high half and every low half".to_string(),
    ];
    for elsewhere in inputs_of(table, printed.example) {
        if elsewhere != EXAMPLE_INPUT {
            let by_example = exchanged(table, EXAMPLE_INPUT.into(), elsewhere.into());
            lines.push(format!(
                "  with 0x{EXAMPLE_INPUT:02x} and 0x{elsewhere:02x} exchanged, as the clause's example would have it: {}",
                broken_list(&broken_groups(&by_example))
            ));
        }
    }
    let (keep, all) = exchanges_that_keep_it(table);
    lines.push(format!(
        "  what it does not settle: {keep} of the {all} exchanges of two entries keep it too"
    ));
    lines
}

fn broken_list(broken: &[Broken]) -> String {
    let words: Vec<String> = broken
        .iter()
        .map(|group| {
            let [main, second, single] = group.parts;
            format!(
                "{} 0x{:x} has {main}, {second} and {single}",
                group.grouping, group.group
            )
        })
        .collect();
    words.join(", ")
}

fn column_of(table: &Table, column: usize) -> Vec<u8> {
    let entries = table.iter().skip(column).step_by(ROW_SIZE);
    entries.copied().collect()
}

fn different_halves(entries: &[u8]) -> (usize, usize) {
    let high = different(entries.iter().map(|entry| entry >> 4));
    let low = different(entries.iter().map(|entry| entry & 0x0f));
    (high, low)
}

/// How often each high half comes in 16 entries, as `times x half`, the most frequent first.
fn times_of_high_halves(entries: Vec<u8>) -> String {
    let mut times = [0; ROW_SIZE];
    for entry in entries {
        times[usize::from(entry >> 4)] += 1;
    }
    let mut found: Vec<(usize, usize)> = (0..ROW_SIZE)
        .map(|half| (times[half], half))
        .filter(|(times, _)| *times > 0)
        .collect();
    if found.len() == ROW_SIZE {
        return "each once".to_string();
    }
    found.sort_by_key(|(times, half)| (ROW_SIZE - times, *half));
    let words: Vec<String> = found
        .iter()
        .map(|(times, half)| format!("{times} x 0x{half:x}?"))
        .collect();
    words.join(", ")
}

fn row_line(table: &Table, row: usize) -> String {
    let entries: Vec<String> = row_of(table, row)
        .iter()
        .map(|entry| to_hex(&[*entry]))
        .collect();
    entries.join(" ")
}

fn input_list(inputs: &[u8]) -> String {
    match inputs {
        [] => "no input".to_string(),
        _ => {
            let words: Vec<String> = inputs
                .iter()
                .map(|input| format!("0x{input:02x}"))
                .collect();
            words.join(" and ")
        }
    }
}

fn text(lines: &[String]) -> String {
    lines.iter().map(|line| format!("{line}\n")).collect()
}
