//! How a text is read.

use second::conversion::records_of;
use second::records::{parse, Record};

use super::{right, Checker};

pub fn readings() -> Vec<Checker> {
    /// The records that read, and the rest is passed over.
    fn as_far(text: &[u8]) -> Vec<Record> {
        let mut records = Vec::new();
        let mut rest = text;
        while let Ok(record) = parse(rest) {
            rest = &rest[record.length..];
            records.push(record);
        }
        records
    }
    fn unread_rest_passes(text: &[u8]) -> Option<Vec<Record>> {
        let records = as_far(text);
        let length: usize = records.iter().map(|record| record.length).sum();
        records_of(&text[..length])
    }
    fn repeated_numbers_pass(text: &[u8]) -> Option<Vec<Record>> {
        let records = as_far(text);
        let length: usize = records.iter().map(|record| record.length).sum();
        (length == text.len()).then_some(records)
    }
    fn no_tea6(text: &[u8]) -> Option<Vec<Record>> {
        records_of(text).filter(|records| records.iter().all(|r| r.fields.algorithm != 6))
    }
    let reading = |name, read| Checker {
        read,
        ..right(name)
    };
    vec![
        reading(
            "what doesn't read at a text's end is passed over",
            unread_rest_passes,
        ),
        reading("a repeated number passes", repeated_numbers_pass),
        reading("records are loaded, and TEA6 is refused", no_tea6),
        reading("a text that doesn't read is no record", |text| {
            records_of(text).or(Some(Vec::new()))
        }),
        reading("an empty text doesn't read", |text| {
            records_of(text).filter(|_| !text.is_empty())
        }),
    ]
}
