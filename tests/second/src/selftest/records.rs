//! Checks of key records and of `slotlist`.

use super::slots::{FIELDS, KEY};
use super::{same, same_order, Check, Finding};
use crate::generator::Generator;
use crate::records::{parse, read, slotlist, write, Fault, ReadRecordAnswer};
use crate::refusals::*;
use crate::slots::{Fields, SEND, SLOTS};

pub const CHECKS: &[Check] = &[
    ("the record of the rules", record_of_the_rules),
    ("record lengths", record_lengths),
    ("written and read back", written_and_read_back),
    ("write order", write_order),
    ("lines of faults", lines_of_faults),
    ("first wrong byte", first_wrong_byte),
    ("texts cut short", texts_cut_short),
    ("slotlist sheets", slotlist_sheets),
    ("slotlist refusals", slotlist_refusals),
];

const SHEET: &str = "number=3\nversion=17\nalg=TEA6\nuse=SEND\nside=0\nplace=28\n\
    key=000000000000000000000000000000000000000000000001\n";

/// The same in form 2, as it is written.
const NEW_SHEET: &str =
    "form=2\nnumber=3\nversion=17\nalg=TEA6\nuse=SEND\nside=0\nplace=28\nmcc=0\nmnc=0\n\
    key=000000000000000000000000000000000000000000000001\n";

/// The longest record of form 2, and of form 1.
const LONGEST: &str =
    "form=2\nnumber=32\nversion=65535\nalg=TEA7\nuse=BOTH\nside=1\nplace=79\nmcc=1023\nmnc=16383\n\
    key=0123456789abcdef0123456789abcdef0123456789abcdef\n";
const LONG_SHEET: &str = "number=32\nversion=65535\nalg=TEA7\nuse=BOTH\nside=1\nplace=79\n\
    key=0123456789abcdef0123456789abcdef0123456789abcdef\n";

fn record_of_the_rules() -> Finding {
    let mut key = [0; 24];
    key[23] = 1;
    let wanted = ReadRecordAnswer {
        refusal: DONE,
        line: 0,
        column: 0,
        number: 3,
        fields: Fields {
            version: 17,
            algorithm: 6,
            usage: SEND,
            side: 0,
            place: 28,
            mcc: 0,
            mnc: 0,
        },
        key,
        length: SHEET.len() as u64,
    };
    same("read", read(SHEET.as_bytes()), wanted)?;
    let followed = format!("{SHEET}\0 what follows");
    same("read with more after it", read(followed.as_bytes()), wanted)?;
    let mut buffer = vec![b'#'; 200];
    let written = write(3, &wanted.fields, &key, &mut buffer);
    same("written", written.refusal, DONE)?;
    let text = &buffer[..written.length as usize];
    same("text", String::from_utf8_lossy(text), NEW_SHEET.into())?;
    let read_back = ReadRecordAnswer {
        length: NEW_SHEET.len() as u64,
        ..wanted
    };
    same("read in form 2", read(NEW_SHEET.as_bytes()), read_back)?;
    let after = &buffer[written.length as usize..];
    same(
        "bytes after it",
        after.iter().all(|byte| *byte == b'#'),
        true,
    )
}

fn record_lengths() -> Finding {
    let shortest = Fields {
        version: 0,
        place: 9,
        mcc: 9,
        mnc: 0,
        ..FIELDS
    };
    let longest = Fields {
        version: 10000,
        place: 10,
        mcc: 1000,
        mnc: 10000,
        ..FIELDS
    };
    for (number, fields, length) in [(9, shortest, 124), (10, longest, 137)] {
        let mut buffer = vec![0; length];
        let exact = write(number, &fields, &KEY, &mut buffer);
        same(
            "length",
            (exact.refusal, exact.length),
            (DONE, length as u64),
        )?;
        same(
            "a byte too few",
            write(number, &fields, &KEY, &mut buffer[1..]).refusal,
            RECORD_TOO_LONG,
        )?;
    }
    Ok(())
}

fn written_and_read_back() -> Finding {
    let mut generator = Generator::new(57);
    for _ in 0..300 {
        let fields = Fields {
            version: generator.word() as u16,
            algorithm: generator.between(5, 7),
            usage: generator.between(1, 3),
            side: generator.below(2),
            place: generator.below(80),
            mcc: generator.below(1024),
            mnc: generator.below(16384),
        };
        let (number, key) = (generator.between(1, SLOTS as u64), generator.array());
        let mut buffer = [0; 137];
        let length = write(number, &fields, &key, &mut buffer).length;
        let wanted = ReadRecordAnswer {
            refusal: DONE,
            line: 0,
            column: 0,
            number,
            fields,
            key,
            length,
        };
        same("read back", read(&buffer), wanted)?;
    }
    Ok(())
}

#[derive(Clone)]
struct WriteCall {
    number: u64,
    fields: Fields,
    buffer: Vec<u8>,
}

impl WriteCall {
    fn outcome(&self) -> Result<Refusal, String> {
        let mut buffer = self.buffer.clone();
        let answer = write(self.number, &self.fields, &KEY, &mut buffer);
        if answer.refusal != DONE {
            same("length of a refused write", answer.length, 0)?;
            same("buffer of a refused write", &buffer, &self.buffer)?;
        }
        Ok(answer.refusal)
    }
}

fn write_order() -> Finding {
    let good = WriteCall {
        number: 32,
        fields: FIELDS,
        buffer: vec![7; 137],
    };
    same_order(
        &good,
        &[
            (SLOT_NUMBER_UNKNOWN, |call| call.number = 0),
            (ALGORITHM_UNKNOWN, |call| call.fields.algorithm = u64::MAX),
            (CODE_UNKNOWN, |call| call.fields.usage = 4),
            (SIDE_OR_PLACE_OUT_OF_RANGE, |call| call.fields.side = 2),
            (NETWORK_OUT_OF_RANGE, |call| call.fields.mcc = 1024),
            (RECORD_TOO_LONG, |call| call.buffer.clear()),
        ],
        WriteCall::outcome,
    )
}

/// Parts of the good sheet, what stands in their place, and the line and column where it is wrong.
const FAULTS: [(&str, &str, u64, u64); 33] = [
    ("number=3", "number=0", 1, 8),
    ("number=3", "number=33", 1, 9),
    ("number=3", "number=03", 1, 8),
    ("number=3", "number=", 1, 8),
    ("number=3", "Number=3", 1, 1),
    ("number=3", "number =3", 1, 7),
    ("number=3\n", "number=3\r\n", 1, 9),
    ("number=3\n", "\nnumber=3\n", 1, 1),
    ("version=17", "version=65536", 2, 13),
    ("version=17", "version=100000", 2, 14),
    ("version=17", "version=00", 2, 10),
    ("version=17", "version=+1", 2, 9),
    ("version=17\n", "", 2, 1),
    ("alg=TEA6", "alg=TEA8", 3, 8),
    ("alg=TEA6", "alg=TEA66", 3, 9),
    ("use=SEND", "use=SECV", 4, 7),
    ("use=SEND", "use=send", 4, 5),
    ("side=0", "side=2", 5, 6),
    ("place=28", "place=80", 6, 8),
    ("place=28", "place=280", 6, 9),
    ("0001\n", "000\n", 7, 52),
    ("0001\n", "00001\n", 7, 53),
    ("0001\n", "000A\n", 7, 52),
    ("0001\n", "0001", 7, 53),
    // Of form 2.
    ("form=2", "form=3", 1, 6),
    ("form=2", "form=02", 1, 6),
    ("form=2", "Form=2", 1, 1),
    ("form=2\n", "form=2\r\n", 1, 7),
    ("place=28\nmcc=0\n", "place=28\n", 8, 2),
    ("mcc=0", "mcc=1024", 8, 8),
    ("mnc=0", "mnc=16384", 9, 9),
    ("mnc=0", "mnc=00", 9, 6),
    ("mnc=0\n", "mnc=0\nmnc=0\n", 10, 1),
];

/// The sheet that a fault is for.
fn sheet_of(part: &str) -> &'static str {
    if SHEET.contains(part) {
        SHEET
    } else {
        NEW_SHEET
    }
}

fn lines_of_faults() -> Finding {
    same("the sheet itself", read(SHEET.as_bytes()).refusal, DONE)?;
    for (part, spoiled, line, column) in FAULTS {
        let text = sheet_of(part).replace(part, spoiled);
        let wanted = ReadRecordAnswer {
            refusal: RECORD_BAD,
            line,
            column,
            ..ReadRecordAnswer::default()
        };
        same(spoiled, read(text.as_bytes()), wanted)?;
        let lines_before: usize = text
            .split_inclusive('\n')
            .take(line as usize - 1)
            .map(str::len)
            .sum();
        let place = lines_before + column as usize - 1;
        same(
            spoiled,
            parse(text.as_bytes()).err(),
            Some(Fault {
                line,
                column,
                place,
            }),
        )?;
    }
    Ok(())
}

/// All the lines that good records have, but for the key's: for each form a sorted list for each of its names.
struct GoodLines {
    old: Vec<Vec<String>>,
    new: Vec<Vec<String>>,
}

impl GoodLines {
    fn new() -> GoodLines {
        let mut old = vec![
            numbered_lines("number", 1, 32),
            numbered_lines("version", 0, 65535),
            named_lines("alg", ["TEA5", "TEA6", "TEA7"]),
            named_lines("use", ["SEND", "RECV", "BOTH"]),
            numbered_lines("side", 0, 1),
            numbered_lines("place", 0, 79),
        ];
        old.iter_mut().for_each(|lines| lines.sort());
        let mut new = old.clone();
        new.insert(0, vec!["form=2\n".to_string()]);
        new.push(numbered_lines("mcc", 0, 1023));
        new.push(numbered_lines("mnc", 0, 16383));
        new.iter_mut().for_each(|lines| lines.sort());
        GoodLines { old, new }
    }

    /// Whether some good record begins with this text.
    fn begin(&self, text: &[u8]) -> bool {
        begins_form(&self.old, text) || begins_form(&self.new, text)
    }
}

fn begins_form(form: &[Vec<String>], text: &[u8]) -> bool {
    let parts: Vec<&[u8]> = text.split_inclusive(|byte| *byte == b'\n').collect();
    let fits = |(number, part): (usize, &&[u8])| match form.get(number) {
        Some(lines) => begins_line(lines, part),
        None => begins_key_line(part),
    };
    parts.len() <= form.len() + 1 && parts.iter().enumerate().all(fits)
}

fn numbered_lines(name: &str, low: u32, high: u32) -> Vec<String> {
    let line = |value: u32| format!("{name}={value}\n");
    (low..=high).map(line).collect()
}

fn named_lines(name: &str, values: [&str; 3]) -> Vec<String> {
    values.map(|value| format!("{name}={value}\n")).to_vec()
}

/// In a sorted list, the lines that begin with a text follow those that are below it.
fn begins_line(sorted: &[String], text: &[u8]) -> bool {
    let below = sorted.partition_point(|line| line.as_bytes() < text);
    sorted
        .get(below)
        .is_some_and(|line| line.as_bytes().starts_with(text))
}

fn begins_key_line(part: &[u8]) -> bool {
    let named = part
        .iter()
        .zip(b"key=")
        .all(|(byte, letter)| byte == letter);
    let (digits, end) = match part.get(4..) {
        None => (&part[..0], &part[..0]),
        Some(value) => value.split_at(value.len().min(48)),
    };
    let hex = digits
        .iter()
        .all(|digit| b"0123456789abcdef".contains(digit));
    named && hex && b"\n".starts_with(end)
}

/// Every byte of two sheets replaced: the reading stops exactly where no good record can go on.
fn first_wrong_byte() -> Finding {
    let good = GoodLines::new();
    for sheet in [SHEET, LONG_SHEET, NEW_SHEET, LONGEST] {
        for place in 0..sheet.len() {
            for byte in b"\n\r =0123456789aAfgBESTVnmok\xff" {
                let mut text = sheet.as_bytes().to_vec();
                text[place] = *byte;
                stops_rightly(&good, &text)?;
            }
        }
    }
    Ok(())
}

fn stops_rightly(good: &GoodLines, text: &[u8]) -> Finding {
    let shown = String::from_utf8_lossy(text);
    match parse(text) {
        Ok(record) => {
            same(&shown, good.begin(&text[..record.length]), true)?;
            let lines = text[..record.length].iter().filter(|byte| **byte == b'\n');
            let of_form_2 = text.starts_with(b"form=2\n");
            same(&shown, lines.count(), if of_form_2 { 10 } else { 7 })
        }
        Err(Fault {
            line,
            column,
            place,
        }) => {
            same(&shown, good.begin(&text[..place]), true)?;
            same(
                &shown,
                place == text.len() || !good.begin(&text[..=place]),
                true,
            )?;
            same(&shown, (line, column), line_and_column(&text[..place]))
        }
    }
}

/// The line and the column that come after a text.
fn line_and_column(before: &[u8]) -> (u64, u64) {
    let line = 1 + before.iter().filter(|byte| **byte == b'\n').count();
    let last = before
        .rsplit(|byte| *byte == b'\n')
        .next()
        .unwrap_or(before);
    (line as u64, 1 + last.len() as u64)
}

/// Every beginning of a sheet is cut short just past its end; the empty one in line 1, column 1.
fn texts_cut_short() -> Finding {
    let empty = read(b"");
    same("empty input", (empty.line, empty.column), (1, 1))?;
    let ended = read(b"number=3\n");
    same("after a line", (ended.line, ended.column), (2, 1))?;
    for length in 0..NEW_SHEET.len() {
        let text = &NEW_SHEET.as_bytes()[..length];
        let (line, column) = line_and_column(text);
        let wanted = Some(Fault {
            line,
            column,
            place: length,
        });
        same("cut short", parse(text).err(), wanted)?;
    }
    Ok(())
}

fn listed(input: &str) -> String {
    String::from_utf8_lossy(&slotlist(input.as_bytes())).into_owned()
}

fn sheet_numbered(number: usize) -> String {
    LONG_SHEET.replace("number=32", &format!("number={number}"))
}

fn slotlist_sheets() -> Finding {
    let line = "number=3 version=17 alg=TEA7 use=SEND side=0 place=28 mcc=0 mnc=0\n";
    let wanted = format!("table=32\n{line}filled=1\n");
    let served = SHEET.replace("TEA6", "TEA7");
    same("the sheet of the rules with TEA7", listed(&served), wanted)?;
    same("no record", listed(""), "table=32\nfilled=0\n".to_string())?;
    let long_line = "number=32 version=65535 alg=TEA7 use=BOTH side=1 place=79 mcc=0 mnc=0\n";
    let wanted = format!("table=32\n{line}{long_line}filled=2\n");
    same(
        "in number order",
        listed(&(LONG_SHEET.to_string() + &served)),
        wanted,
    )?;
    let full: String = (1..=SLOTS).map(sheet_numbered).collect();
    let last = listed(&full);
    same("full", last.lines().count(), 34)?;
    same("full", last.lines().last(), Some("filled=32"))
}

fn slotlist_refusals() -> Finding {
    let full: String = (1..=SLOTS).map(sheet_numbered).collect();
    for (input, wanted) in [
        ("x".to_string(), "refused=15 record=1 line=1 column=1\n"),
        (
            format!("{LONG_SHEET}\n"),
            "refused=15 record=2 line=1 column=1\n",
        ),
        (
            SHEET.replace("TEA6", "TEA4"),
            "refused=15 record=1 line=3 column=8\n",
        ),
        (SHEET.to_string(), "refused=21 record=1 line=0 column=0\n"),
        (
            format!("{LONG_SHEET}{NEW_SHEET}"),
            "refused=21 record=2 line=0 column=0\n",
        ),
        (LONG_SHEET.repeat(2), "refused=9 record=2 line=0 column=0\n"),
        (
            format!("{LONG_SHEET}{}", &SHEET[..60]),
            "refused=15 record=2 line=7 column=7\n",
        ),
        (
            format!("{full}{LONG_SHEET}"),
            "refused=9 record=33 line=0 column=0\n",
        ),
        (
            format!("{full}{}", "number=1".repeat(200)),
            "refused=15 record=33 line=1 column=9\n",
        ),
    ] {
        same(wanted, listed(&input), wanted.to_string())?;
    }
    Ok(())
}
