//! What is compared of a pair's records.

use second::conversion::{agree, pair_unlike, within};
use second::records::Record;
use second::slots::{BOTH, SEND};

use super::{with, Checker, GROWN};

/// Whether the records agree once this was made the same in both.
fn agree_after(before: &Record, after: &Record, same: fn(&mut Record)) -> bool {
    let (mut before, mut after) = (*before, *after);
    same(&mut before);
    same(&mut after);
    agree(&before, &after)
}

pub fn uses() -> Vec<Checker> {
    fn other_way(before: &Record, after: &Record) -> bool {
        let both = |record: &mut Record| record.fields.usage = BOTH;
        agree_after(before, after, both) && within(before.fields.usage, after.fields.usage)
    }
    vec![
        with("use compared the wrong way", GROWN, |sets, pairs| {
            pair_unlike(sets, pairs, other_way)
        }),
        with("use not compared", GROWN, |sets, pairs| {
            let both = |record: &mut Record| record.fields.usage = BOTH;
            pair_unlike(sets, pairs, |b, a| agree_after(b, a, both))
        }),
        with("sending widened to both passes", GROWN, |sets, pairs| {
            let widened = |b: &Record, a: &Record| [b.fields.usage, a.fields.usage] == [SEND, BOTH];
            let both = |record: &mut Record| record.fields.usage = BOTH;
            let alike =
                |b: &Record, a: &Record| agree(b, a) || widened(b, a) && agree_after(b, a, both);
            pair_unlike(sets, pairs, alike)
        }),
        with("a narrowed use is refused", GROWN, |sets, pairs| {
            let same = |b: &Record, a: &Record| b.fields.usage == a.fields.usage;
            pair_unlike(sets, pairs, |b, a| agree(b, a) && same(b, a))
        }),
    ]
}

/// A test of pairs that takes one field for the same.
macro_rules! without {
    ($name:literal, $record:ident, $change:expr) => {
        with($name, GROWN, |sets, pairs| {
            pair_unlike(sets, pairs, |b, a| agree_after(b, a, |$record| $change))
        })
    };
}

pub fn fields() -> Vec<Checker> {
    vec![
        without!("version not compared", r, r.fields.version = 0),
        without!("version compared in a byte", r, r.fields.version &= 255),
        without!("algorithm not compared", r, r.fields.algorithm = 5),
        without!("side not compared", r, r.fields.side = 0),
        without!("place not compared", r, r.fields.place = 0),
        without!("country code not compared", r, r.fields.mcc = 0),
        without!("network code not compared", r, r.fields.mnc = 0),
        without!("network code compared in a byte", r, r.fields.mnc &= 255),
        without!("key not compared", r, r.key = [0; 24]),
        without!("last byte of the key not compared", r, r.key[23] = 0),
    ]
}
