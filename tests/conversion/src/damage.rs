//! What goes wrong with a conversion on its way.

use second::generator::Generator;

use crate::draft::{shuffled, Draft, Entry};
use crate::Conversion;

/// One damage, of records or of pairs; none where there is nothing to damage.
pub fn damage(draft: &mut Draft, generator: &mut Generator) {
    if generator.below(2) == 0 {
        damage_records(draft, generator);
    } else {
        damage_pairs(draft, generator);
    }
}

/// A place in a list that isn't empty.
fn place_in<T>(list: &[T], generator: &mut Generator) -> Option<usize> {
    (!list.is_empty()).then(|| generator.below(list.len() as u64) as usize)
}

fn damage_records(draft: &mut Draft, generator: &mut Generator) {
    let set = match generator.below(3) {
        0 => &mut draft.before,
        _ => &mut draft.after,
    };
    let Some(place) = place_in(set, generator) else {
        return;
    };
    match generator.below(12) {
        0 => drop(set.remove(place)),
        1 => {
            // a number that stands twice
            let to = generator.below(set.len() as u64 + 1) as usize;
            set.insert(to, set[place]);
        }
        2 => set[place].number = generator.between(1, 32),
        3 => {
            let added = Entry {
                number: generator.between(1, 32),
                ..set[place]
            };
            set.push(added);
        }
        _ => damage_entry(&mut set[place], generator),
    }
}

/// A field that differs, most often the use.
fn damage_entry(entry: &mut Entry, generator: &mut Generator) {
    let fields = &mut entry.fields;
    match generator.below(14) {
        0 => fields.version ^= 1 << generator.below(16),
        1 => fields.algorithm = generator.between(5, 7),
        2 => fields.side ^= 1,
        3 => fields.place = (fields.place + generator.between(1, 79)) % 80,
        4 => fields.mcc ^= 1 << generator.below(10),
        5 => fields.mnc ^= 1 << generator.below(14),
        6 | 7 => entry.key[generator.below(24) as usize] ^= 1 << generator.below(8),
        _ => fields.usage = generator.between(1, 3),
    }
}

fn damage_pairs(draft: &mut Draft, generator: &mut Generator) {
    let pairs = &mut draft.pairs;
    let side = generator.below(2) as usize;
    let Some(place) = place_in(pairs, generator) else {
        pairs.push([any_number(1, generator), any_number(1, generator)]);
        return;
    };
    let other = generator.below(pairs.len() as u64) as usize;
    match generator.below(12) {
        0 => drop(pairs.remove(place)),
        1 => pairs.insert(other, pairs[place]),
        2 => pairs[place][side] = pairs[other][side],
        3 => pairs[place].swap(0, 1),
        4 => {
            let kept = pairs[place][side];
            pairs[place][side] = pairs[other][side];
            pairs[other][side] = kept;
        }
        5 => draft.odd = true,
        6 | 7 => lengthen(pairs, generator),
        8 => *pairs = shuffled(pairs.clone(), generator),
        _ => pairs[place][side] = any_number(pairs[place][side], generator),
    }
}

/// Another number of a set, one just outside, or one that is the old again in fewer bits.
fn any_number(old: u64, generator: &mut Generator) -> u64 {
    match generator.below(8) {
        0 => 0,
        1 => 33,
        2 => u64::MAX,
        3 => old.wrapping_add(1 << generator.between(5, 63)),
        4 => generator.word(),
        _ => generator.between(1, 32),
    }
}

/// About as many pairs as a list may have.
fn lengthen(pairs: &mut Vec<[u64; 2]>, generator: &mut Generator) {
    let count = generator.between(31, 35);
    while (pairs.len() as u64) < count {
        pairs.push([generator.between(1, 32), generator.between(1, 32)]);
    }
}

/// A byte of a text changed, lost or added, or the text's end lost.
pub fn damage_bytes(conversion: &mut Conversion, generator: &mut Generator) {
    let text = match generator.below(2) {
        0 => &mut conversion.before,
        _ => &mut conversion.after,
    };
    let place = generator.below(text.len() as u64 + 1) as usize;
    let added = b"0 =\n\r9f"[generator.below(7) as usize];
    if place == text.len() {
        return text.push(added);
    }
    match generator.below(5) {
        0 => text[place] = generator.word() as u8,
        1 => text[place] ^= 1 << generator.below(8),
        2 => drop(text.remove(place)),
        3 => text.insert(place, added),
        _ => text.truncate(place),
    }
}
