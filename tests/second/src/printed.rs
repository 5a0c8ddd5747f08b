//! The six printed tables of the standard (clauses 5.5, 5.6, 6.5, 6.6, 7.5, 7.6), the two rules that
//! the rows of an f table keep, and the repair of a row that breaks them.
//!
//! The rules: in one row all 16 high halves differ and all 16 low halves differ; and no value stands
//! twice in a table. A row is repaired where exactly one change of one entry makes it keep both.
//! Every other row stands as printed.

use std::sync::LazyLock;

pub const TABLE_SIZE: usize = 256;
pub const ROW_SIZE: usize = 16;

pub type Table = [u8; TABLE_SIZE];

/// A table as the standard prints it, with the example its clause gives for input 0x12.
pub struct Printed {
    pub number: u32,
    pub clause: &'static str,
    pub algorithm: u64,
    pub example: u8,
    pub text: &'static str,
}

pub const EXAMPLE_INPUT: u8 = 0x12;

/// The lookup tables for IV mixing of TEA5, TEA6 and TEA7.
pub const MIXING_TABLES: [Printed; 3] = [
    Printed {
        number: 1,
        clause: "5.5",
        algorithm: 5,
        example: 0x6a,
        text: include_str!("../../tables/table1.txt"),
    },
    Printed {
        number: 3,
        clause: "6.5",
        algorithm: 6,
        example: 0x6a,
        text: include_str!("../../tables/table3.txt"),
    },
    Printed {
        number: 5,
        clause: "7.5",
        algorithm: 7,
        example: 0x6a,
        text: include_str!("../../tables/table5.txt"),
    },
];

/// The combining functions f of TEA5, TEA6 and TEA7.
pub const COMBINING_TABLES: [Printed; 3] = [
    Printed {
        number: 2,
        clause: "5.6",
        algorithm: 5,
        example: 0xcc,
        text: include_str!("../../tables/table2.txt"),
    },
    Printed {
        number: 4,
        clause: "6.6",
        algorithm: 6,
        example: 0x20,
        text: include_str!("../../tables/table4.txt"),
    },
    Printed {
        number: 6,
        clause: "7.6",
        algorithm: 7,
        example: 0xc6,
        text: include_str!("../../tables/table6.txt"),
    },
];

/// The f tables in use, for TEA5, TEA6 and TEA7: as printed, then repaired.
pub static COMBINING: LazyLock<[Table; 3]> = LazyLock::new(|| {
    COMBINING_TABLES
        .each_ref()
        .map(|printed| repaired(&printed.table()))
});

impl Printed {
    /// The table's entries. The text is part of the program, so a bad one is a fault of the program.
    pub fn table(&self) -> Table {
        parse_table(self.text).unwrap_or_else(|fault| panic!("table {}: {fault}", self.number))
    }
}

/// Reads 256 hex bytes, apart from lines that begin with `#`.
pub fn parse_table(text: &str) -> Result<Table, String> {
    let lines = text.lines().filter(|line| !line.starts_with('#'));
    let entries = lines
        .flat_map(str::split_whitespace)
        .map(parse_entry)
        .collect::<Result<Vec<u8>, String>>()?;
    let count = entries.len();
    Table::try_from(entries).map_err(|_| format!("{count} entries, not {TABLE_SIZE}"))
}

fn parse_entry(word: &str) -> Result<u8, String> {
    match u8::from_str_radix(word, 16) {
        Ok(entry) if word.len() == 2 => Ok(entry),
        _ => Err(format!("'{word}' is no hex byte")),
    }
}

/// One change of one entry.
#[derive(Clone, Copy, Debug, PartialEq, Eq)]
pub struct Change {
    pub input: u8,
    pub value: u8,
}

impl Change {
    pub fn applied_to(self, table: &Table) -> Table {
        let mut changed = *table;
        changed[usize::from(self.input)] = self.value;
        changed
    }
}

/// The 16 entries whose inputs have `row` as high half.
pub fn row_of(table: &Table, row: usize) -> &[u8] {
    &table[ROW_SIZE * row..ROW_SIZE * (row + 1)]
}

/// First rule: all high halves of the row differ and all low halves differ.
pub fn row_halves_differ(table: &Table, row: usize) -> bool {
    let entries = row_of(table, row);
    different(entries.iter().map(|entry| entry >> 4)) == ROW_SIZE
        && different(entries.iter().map(|entry| entry & 0x0f)) == ROW_SIZE
}

/// Second rule, for one row: none of its values stands at another input of the table.
pub fn row_values_stand_once(table: &Table, row: usize) -> bool {
    row_of(table, row)
        .iter()
        .all(|value| inputs_of(table, *value).len() == 1)
}

pub fn row_keeps_both_rules(table: &Table, row: usize) -> bool {
    row_halves_differ(table, row) && row_values_stand_once(table, row)
}

/// Every input at which `value` stands.
pub fn inputs_of(table: &Table, value: u8) -> Vec<u8> {
    (0..=u8::MAX)
        .filter(|input| table[usize::from(*input)] == value)
        .collect()
}

/// How many different values there are.
pub fn different(values: impl Iterator<Item = u8>) -> usize {
    let mut seen: Vec<u8> = values.collect();
    seen.sort_unstable();
    seen.dedup();
    seen.len()
}

/// Every change of one entry of the row after which the row keeps the first rule.
pub fn changes_for_first_rule(table: &Table, row: usize) -> Vec<Change> {
    let first_input = (ROW_SIZE * row) as u8;
    let mut changes = Vec::new();
    for input in first_input..=first_input + 0x0f {
        for value in 0..=u8::MAX {
            let change = Change { input, value };
            let alters = table[usize::from(input)] != value;
            if alters && row_halves_differ(&change.applied_to(table), row) {
                changes.push(change);
            }
        }
    }
    changes
}

/// The change to make in a row that breaks a rule: the only one after which it keeps both.
pub fn repair_of_row(table: &Table, row: usize) -> Option<Change> {
    if row_keeps_both_rules(table, row) {
        return None;
    }
    let mut repairs = changes_for_first_rule(table, row)
        .into_iter()
        .filter(|change| row_keeps_both_rules(&change.applied_to(table), row));
    match (repairs.next(), repairs.next()) {
        (Some(only), None) => Some(only),
        _ => None,
    }
}

/// The repairs of all rows, each judged on the table as printed.
pub fn repairs(table: &Table) -> Vec<Change> {
    (0..ROW_SIZE)
        .filter_map(|row| repair_of_row(table, row))
        .collect()
}

pub fn repaired(table: &Table) -> Table {
    repairs(table)
        .iter()
        .fold(*table, |table, change| change.applied_to(&table))
}
