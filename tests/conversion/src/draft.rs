//! A conversion before it is written down.

use second::generator::Generator;
use second::records::write;
use second::rijndael::Key;
use second::slots::{clear, move_slot, read, Fields, Slot, BOTH, LAST_PLACE, SLOTS};

#[derive(Clone, Copy)]
pub struct Entry {
    pub number: u64,
    pub fields: Fields,
    pub key: Key,
}

pub struct Draft {
    pub before: Vec<Entry>,
    pub after: Vec<Entry>,
    pub pairs: Vec<[u64; 2]>,
    /// The last number of the list is left out.
    pub odd: bool,
}

impl Draft {
    /// Some keys get new numbers, and some uses are narrowed.
    pub fn good(generator: &mut Generator) -> Draft {
        let before = entries(generator);
        let mut numbers = shuffled((1..=SLOTS as u64).collect(), generator);
        let mut draft = Draft {
            before: before.clone(),
            after: Vec::new(),
            pairs: Vec::new(),
            odd: false,
        };
        let kept = generator.below(4) != 0;
        for mut entry in shuffled(before, generator) {
            if !kept && generator.below(2) == 0 {
                continue;
            }
            let old = entry.number;
            entry.number = numbers.pop().unwrap_or(1);
            if entry.fields.usage == BOTH && generator.below(2) == 0 {
                entry.fields.usage = generator.between(1, 2);
            }
            draft.pairs.push([old, entry.number]);
            draft.after.push(entry);
        }
        draft
    }

    /// Our own moves and clears, those that are accepted, with the number from which each key came.
    pub fn by_moves(generator: &mut Generator) -> Draft {
        let before = entries(generator);
        let mut table = vec![Slot::EMPTY; SLOTS];
        let mut origins: Vec<u64> = (1..=SLOTS as u64).collect();
        for entry in &before {
            table[entry.number as usize - 1] = Slot::filled(&entry.fields, &entry.key);
        }
        for _ in 0..generator.below(60) {
            let (from, to) = (generator.between(1, 32), generator.between(1, 32));
            if generator.below(12) == 0 {
                clear(&mut table, from);
            } else if move_slot(&mut table, from, to, generator.below(4)) == 0 {
                origins[to as usize - 1] = origins[from as usize - 1];
            }
        }
        let mut draft = Draft {
            before,
            after: Vec::new(),
            pairs: Vec::new(),
            odd: false,
        };
        for number in 1..=SLOTS as u64 {
            let shown = read(&table, number);
            if shown.refusal == 0 {
                draft.pairs.push([origins[number as usize - 1], number]);
                draft.after.push(Entry {
                    number,
                    fields: shown.fields,
                    key: table[number as usize - 1].key,
                });
            }
        }
        draft
    }

    pub fn texts(&self, generator: &mut Generator) -> (Vec<u8>, Vec<u8>) {
        (text(&self.before, generator), text(&self.after, generator))
    }

    pub fn numbers(&self) -> Vec<u64> {
        let mut numbers = self.pairs.concat();
        if self.odd {
            numbers.pop();
        }
        numbers
    }
}

/// Up to 32 entries with different numbers: mostly few, and few keys and networks, so that two are often almost the same.
fn entries(generator: &mut Generator) -> Vec<Entry> {
    let most = [3, 3, 8, 32][generator.below(4) as usize];
    let count = match generator.below(8) {
        0 => most,
        _ => generator.below(most + 1),
    };
    let keys: [Key; 2] = [generator.array(), generator.array()];
    let numbers = shuffled((1..=SLOTS as u64).collect(), generator);
    let mut entry = |number: u64| Entry {
        number,
        fields: fields(generator),
        key: keys[generator.below(2) as usize],
    };
    numbers
        .into_iter()
        .take(count as usize)
        .map(&mut entry)
        .collect()
}

fn fields(generator: &mut Generator) -> Fields {
    let networks = [(0, 0), (0, 0), (262, 1001), (1023, 16383), (0, 1)];
    let (mcc, mnc) = networks[generator.below(5) as usize];
    Fields {
        version: [17, 17, 0, 65535][generator.below(4) as usize],
        algorithm: generator.between(5, 7),
        usage: generator.between(1, 3),
        side: generator.below(2),
        place: [0, 28, 28, LAST_PLACE][generator.below(4) as usize],
        mcc,
        mnc,
    }
}

pub fn shuffled<T>(mut things: Vec<T>, generator: &mut Generator) -> Vec<T> {
    for place in (1..things.len()).rev() {
        things.swap(place, generator.below(place as u64 + 1) as usize);
    }
    things
}

/// The records in the order of the draft, of form 2, or of form 1 where an entry has no network.
fn text(entries: &[Entry], generator: &mut Generator) -> Vec<u8> {
    let mut text = Vec::new();
    for entry in entries {
        let mut record = [0; 137];
        let written = write(entry.number, &entry.fields, &entry.key, &mut record);
        assert_eq!(written.refusal, 0);
        let record = &record[..written.length as usize];
        if (entry.fields.mcc, entry.fields.mnc) == (0, 0) && generator.below(2) == 0 {
            text.extend(of_form_1(record));
        } else {
            text.extend(record);
        }
    }
    text
}

fn of_form_1(record: &[u8]) -> Vec<u8> {
    let lines = record.split_inclusive(|&byte| byte == b'\n');
    let of_both = |line: &&[u8]| !line.starts_with(b"form=") && !line.starts_with(b"m");
    lines.filter(of_both).collect::<Vec<_>>().concat()
}
