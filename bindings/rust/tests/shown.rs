//! What is printed of that which holds a key.

mod common;

use std::mem::offset_of;

use card::{record_read, Algorithm, Key, Slot, Table, Use};
use common::table;

/// A key of 24 bytes 0xa7, 167: neither stands in any other number here.
const SECRET: [u8; 24] = [0xa7; 24];

fn shows_no_key(printed: &str) {
    for form in ["a7", "A7", "167"] {
        assert!(!printed.contains(form), "{printed}");
    }
}

#[test]
fn debug_prints_no_key() {
    let text = format!(
        "number=3\nversion=17\nalg=TEA5\nuse=SEND\nside=0\nplace=28\nkey={}\n",
        "a7".repeat(24)
    );
    let record = record_read(text.as_bytes()).unwrap();
    assert_eq!(*record.key, SECRET);
    let mut table = Table::new();
    table
        .load(record.number, record.fields, &record.key)
        .unwrap();
    let slot = Slot {
        key: SECRET,
        ..Slot::EMPTY
    };
    let held: [&dyn std::fmt::Debug; 4] = [&Key::from(SECRET), &record, &slot, &table];
    for held in held {
        shows_no_key(&format!("{held:?}"));
        shows_no_key(&format!("{held:#?}"));
        shows_no_key(&format!("{held:x?}"));
    }
}

#[test]
fn debug_of_a_table_lists_the_filled_slots() {
    assert_eq!(format!("{:?}", Table::new()), "{}");
    assert_eq!(
        format!("{:?}", table(Algorithm::Tea6, Use::Send)),
        "{3: Fields { version: 17, algorithm: Tea6, usage: Send, side: 0, place: 28, mcc: 262, mnc: 1001 }}"
    );
}

#[test]
fn a_slot_is_34_bytes_with_its_key_at_10() {
    assert_eq!(size_of::<Slot>(), 34);
    assert_eq!(offset_of!(Slot, key), 10);
}
