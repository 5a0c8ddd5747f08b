//! The split of TEA7's table: an entry is main, second or single as its high half comes 8, 7 or 1
//! times in its column, and there are 8 main entries, 7 second and 1 single in every row, in every
//! column, and among the entries of every high half and of every low half.

use second::printed::{Table, ROW_SIZE, TABLE_SIZE};

/// How many entries of a group are main, second and single.
pub type Parts = [usize; 3];

const TIMES: Parts = [8, 7, 1];

/// A way to put an entry into one of 16 groups, by its input and its value.
type Grouping = (&'static str, fn(usize, u8) -> usize);

const GROUPINGS: [Grouping; 4] = [
    ("row", |input, _| input / ROW_SIZE),
    ("column", |input, _| input % ROW_SIZE),
    ("high half", |_, value| usize::from(value >> 4)),
    ("low half", |_, value| usize::from(value & 0x0f)),
];

/// A group with another split than 8, 7, 1.
pub struct Broken {
    pub grouping: &'static str,
    pub group: usize,
    pub parts: Parts,
}

/// The groups that break the split, by rows first, then columns, high halves and low halves.
pub fn broken_groups(table: &Table) -> Vec<Broken> {
    let times = times_in_column(table);
    let broken = GROUPINGS
        .iter()
        .flat_map(|way| broken_by(table, &times, way));
    broken.collect()
}

fn keeps_the_split(table: &Table) -> bool {
    let times = times_in_column(table);
    GROUPINGS
        .iter()
        .all(|way| broken_by(table, &times, way).is_empty())
}

fn broken_by(table: &Table, times: &[usize; TABLE_SIZE], way: &Grouping) -> Vec<Broken> {
    let (grouping, group_of) = *way;
    let mut parts = [[0; 3]; ROW_SIZE];
    for (input, value) in table.iter().enumerate() {
        if let Some(part) = TIMES.iter().position(|known| *known == times[input]) {
            parts[group_of(input, *value)][part] += 1;
        }
    }
    let wrong = (0..ROW_SIZE).filter(|group| parts[*group] != TIMES);
    let broken = wrong.map(|group| Broken {
        grouping,
        group,
        parts: parts[group],
    });
    broken.collect()
}

/// How many of all exchanges of two entries keep the split.
pub fn exchanges_that_keep_it(table: &Table) -> (usize, usize) {
    let pairs = (0..TABLE_SIZE).flat_map(|one| (0..one).map(move |other| (one, other)));
    pairs.fold((0, 0), |(keep, all), (one, other)| {
        let kept = keeps_the_split(&exchanged(table, one, other));
        (keep + usize::from(kept), all + 1)
    })
}

pub fn exchanged(table: &Table, one: usize, other: usize) -> Table {
    let mut changed = *table;
    changed.swap(one, other);
    changed
}

/// For each entry, how often its high half comes in its column.
fn times_in_column(table: &Table) -> [usize; TABLE_SIZE] {
    let mut counts = [[0; ROW_SIZE]; ROW_SIZE];
    for (input, value) in table.iter().enumerate() {
        counts[input % ROW_SIZE][usize::from(value >> 4)] += 1;
    }
    std::array::from_fn(|input| counts[input % ROW_SIZE][usize::from(table[input] >> 4)])
}

#[cfg(test)]
mod tests {
    use super::*;
    use second::printed::COMBINING_TABLES;

    #[test]
    fn tea7_as_printed_keeps_the_split() {
        assert!(broken_groups(&COMBINING_TABLES[2].table()).is_empty());
    }

    #[test]
    fn tea7_by_the_example_of_its_clause_breaks_it() {
        let table = exchanged(&COMBINING_TABLES[2].table(), 0x12, 0xf7);
        let broken = broken_groups(&table);
        let groups: Vec<(&str, usize, Parts)> = broken
            .iter()
            .map(|group| (group.grouping, group.group, group.parts))
            .collect();
        let expected = [("low half", 0x6, [9, 6, 1]), ("low half", 0xf, [7, 8, 1])];
        assert_eq!(groups, expected);
    }

    #[test]
    fn no_other_table_has_it() {
        assert_eq!(broken_groups(&COMBINING_TABLES[0].table()).len(), 64);
        assert_eq!(broken_groups(&COMBINING_TABLES[1].table()).len(), 64);
    }
}
