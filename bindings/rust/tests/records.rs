//! Key records as text, as the second program reads and writes them.

mod common;

use card::{record_read, record_write, Algorithm, Asked, Fields, Refusal, Use, RECORD_BYTES};
use common::{bytes, second_fields};

/// The record of document 01.
const TEXT: &[u8] = b"number=3
version=17
alg=TEA6
use=SEND
side=0
place=28
key=000000000000000000000000000000000000000000000001
";

/// The same in form 2, as it is written.
const NEW_TEXT: &[u8] = b"form=2
number=3
version=17
alg=TEA6
use=SEND
side=0
place=28
mcc=0
mnc=0
key=000000000000000000000000000000000000000000000001
";

/// The card reads a text as the second program does.
fn same(text: &[u8]) {
    let expected = second::records::read(text);
    match record_read(text) {
        Ok(record) => {
            assert_eq!(expected.refusal, 0, "{text:?}");
            assert_eq!(record.number, expected.number, "{text:?}");
            let asked = Asked::from(record.fields);
            assert_eq!(second_fields(asked), expected.fields, "{text:?}");
            assert_eq!(*record.key, expected.key, "{text:?}");
            assert_eq!(record.length as u64, expected.length, "{text:?}");
        }
        Err(refusal) => {
            let (line, column) = (expected.line as u8, expected.column as u8);
            let form = if text.starts_with(b"f") { 2 } else { 1 };
            let told = Refusal::RecordText { form, line, column };
            assert_eq!(refusal, told, "{text:?}");
            assert_eq!(u64::from(refusal.number()), expected.refusal);
        }
    }
}

#[test]
fn the_record_of_document_01_reads_and_writes_back() {
    same(TEXT);
    let record = record_read(TEXT).unwrap();
    let expected = Fields {
        version: 17,
        algorithm: Algorithm::Tea6,
        usage: Use::Send,
        side: 0,
        place: 28,
        mcc: 0,
        mnc: 0,
    };
    assert_eq!((record.number, record.fields), (3, expected));

    same(NEW_TEXT);
    let new = record_read(NEW_TEXT).unwrap();
    assert_eq!((new.number, new.fields), (3, expected));

    for room in [NEW_TEXT.len(), RECORD_BYTES, 200] {
        let mut buffer = bytes(room);
        let length = record_write(record.number, record.fields, &record.key, &mut buffer);
        assert_eq!(length, Ok(NEW_TEXT.len()));
        assert_eq!(&buffer[..NEW_TEXT.len()], NEW_TEXT);
        assert_eq!(buffer[NEW_TEXT.len()..], bytes(room)[NEW_TEXT.len()..]);
    }
}

#[test]
fn what_follows_a_record_is_not_judged() {
    let text = [TEXT, b"\xff\0number=99"].concat();
    same(&text);
    assert_eq!(record_read(&text).unwrap().length, TEXT.len());
}

#[test]
fn texts_that_are_cut_short_have_line_and_column() {
    for text in [TEXT, NEW_TEXT] {
        for length in 0..text.len() {
            assert!(record_read(&text[..length]).is_err());
            same(&text[..length]);
        }
    }
}

#[test]
fn texts_with_another_byte_have_line_and_column() {
    for good in [TEXT, NEW_TEXT] {
        for place in 0..good.len() {
            for byte in [0, b'\n', b'\r', b' ', b'0', b'1', b'9', b'F', b'f', b'n', 0xff] {
                let mut text = good.to_vec();
                text[place] = byte;
                same(&text);
            }
        }
    }
}

#[test]
fn a_refusal_says_what_its_line_should_be() {
    for (form, text) in [(1, TEXT), (2, NEW_TEXT)] {
        let lines = text.split(|byte| *byte == b'\n');
        for (line, text) in (1..).zip(lines.filter(|line| !line.is_empty())) {
            let name = String::from_utf8_lossy(text);
            let name = name.split_inclusive('=').next().unwrap();
            let refusal = Refusal::RecordText {
                form,
                line,
                column: 9,
            };
            let printed = refusal.to_string();
            let start = format!("refused with 15: line {line} of the record is wrong or cut short at column 9");
            assert!(printed.starts_with(&start), "{printed}");
            assert!(printed.contains(&format!("should be {name}")), "{printed}");
        }
    }
}

/// What `shown_in` prints below the sentence.
fn pointed_at(text: &[u8]) -> String {
    let shown = record_read(text).unwrap_err().shown_in(text);
    shown.split_once('\n').unwrap().1.to_string()
}

#[test]
fn a_refusal_points_at_the_byte() {
    assert_eq!(pointed_at(b""), "\n^");
    assert_eq!(pointed_at(b"number=3\n"), "\n^");
    assert_eq!(
        pointed_at(b"number=3\nversion=65536\n"),
        "version=65536\n            ^"
    );
    assert_eq!(pointed_at(b"number=3\tx\n"), "number=3?x\n        ^");
}

#[test]
fn a_refusal_shows_no_digit_of_a_key() {
    let end = TEXT.len() - 1;
    let digits = "*".repeat(48);
    let long = [&TEXT[..end], b"1\n"].concat();
    assert_eq!(pointed_at(&long), format!("key={digits}*\n{:>53}", '^'));
    let cut = &TEXT[..end - 40];
    assert_eq!(pointed_at(cut), format!("key=********\n{:>13}", '^'));
    let early = [b"number=3\n", &TEXT[end - 52..]].concat();
    assert_eq!(pointed_at(&early), format!("key={digits}\n^"));
}

#[test]
fn another_refusal_shows_no_text() {
    assert_eq!(Refusal::Table.shown_in(TEXT), Refusal::Table.to_string());
}
