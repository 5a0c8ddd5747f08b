//! Checks of the checker of conversions.

use super::{same, Check, Finding};
use crate::conversion::{converted, pairs_of, records_of, refused, with_number, Answer, Pair};
use crate::conversion_input::printed;
use crate::generator::Generator;

pub const CHECKS: &[Check] = &[
    ("conversions that are accepted", accepted),
    ("a text that doesn't read or repeats a number", texts),
    ("pairs that name no record, or one again", names),
    ("pairs that widen or differ", growth),
    ("22, 23, 24 in this order", order),
    ("accepted exactly when the document says so", exactly),
    ("what the program prints", program),
];

/// A record of TEA6, which can be read and not be loaded.
fn record(number: u64, usage: &str) -> String {
    format!("form=2\nnumber={number}\nversion=17\nalg=TEA6\nuse={usage}\nside=0\nplace=28\nmcc=262\nmnc=1001\nkey={:048}\n", 7)
}

fn records(numbers: impl IntoIterator<Item = u64>, usage: &str) -> String {
    numbers
        .into_iter()
        .map(|number| record(number, usage))
        .collect()
}

fn answer(before: &str, after: &str, numbers: &[u64]) -> Answer {
    converted(before.as_bytes(), after.as_bytes(), &pairs_of(numbers))
}

fn case(before: &str, after: &str, numbers: &[u64], refusal: u64, place: u64) -> Finding {
    same(
        &format!("{numbers:?}"),
        answer(before, after, numbers),
        refused(refusal, place),
    )
}

fn accepted() -> Finding {
    let both = |numbers: &[u64]| records(numbers.to_vec(), "BOTH");
    case("", "", &[], 0, 0)?;
    case(&both(&[3]), "", &[], 0, 0)?;
    case(&both(&[3]), &record(5, "SEND"), &[3, 5], 0, 0)?;
    case(&record(3, "RECV"), &record(3, "RECV"), &[3, 3], 0, 0)?;
    case(&both(&[3, 4]), &both(&[5]), &[4, 5], 0, 0)?;
    case(&both(&[3, 5]), &both(&[3, 5]), &[3, 5, 5, 3], 0, 0)?;
    let all: Vec<u64> = (1..=32).flat_map(|n| [n, 33 - n]).collect();
    case(
        &records(1..=32, "BOTH"),
        &records(1..=32, "SEND"),
        &all,
        0,
        0,
    )?;
    let form_1 = "number=3\nversion=17\nalg=TEA6\nuse=SEND\nside=0\nplace=28\nkey=000000000000000000000000000000000000000000000007\n";
    let form_2 = record(9, "SEND").replace("262", "0").replace("1001", "0");
    case(form_1, &form_2, &[3, 9], 0, 0)
}

fn texts() -> Finding {
    let good = record(3, "SEND");
    let cut = &good[..good.len() - 1];
    let twice = format!("{good}{}", record(3, "RECV"));
    let full = records(1..=32, "SEND");
    for bad in [
        "\n",
        " ",
        "form=2\n",
        cut,
        &format!("{good}\n"),
        &format!("\n{good}"),
        &format!("{good}x"),
        &good.replace("TEA6", "TEA8"),
        &twice,
        &format!("{full}{good}"),
    ] {
        case(bad, "", &[], 22, 0)?;
        case(&good, bad, &[3, 3], 22, 0)?;
    }
    Ok(())
}

fn names() -> Finding {
    let set = |numbers: &[u64]| records(numbers.to_vec(), "SEND");
    let (before, after) = (set(&[1, 2, 3]), set(&[4, 5, 6]));
    for absent in [0, 4, 33, 257, 65537, (1 << 32) + 1, u64::MAX] {
        case(&before, &after, &[2, 4, absent, 5, 0, 0], 23, 2)?;
    }
    for absent in [0, 1, 33, 260, (1 << 32) + 4, u64::MAX] {
        case(&before, &after, &[2, 4, 3, 5, 1, absent], 23, 3)?;
    }
    // the later pair of a repetition
    case(&before, &after, &[1, 4, 2, 5, 1, 6], 23, 3)?;
    case(&before, &after, &[1, 4, 2, 4, 3, 6], 23, 2)?;
    case(&before, &after, &[1, 4, 1, 4], 23, 2)?;
    // a number without its other
    case(&before, &after, &[1, 4, 2, 5, 3], 23, 3)?;
    case(&before, &after, &[1], 23, 1)?;
    // an after record without a pair
    case(&before, &after, &[1, 4, 3, 6], 23, 0)?;
    case(&before, &after, &[], 23, 0)?;
    // more than 32 pairs, whatever they name
    case(&before, &after, &[0; 66], 23, 0)?;
    case(&before, &after, &[0; 65], 23, 0)?;
    case(&before, &after, &[0; 64], 23, 1)
}

fn growth() -> Finding {
    let before = records([1, 2], "SEND") + &record(3, "BOTH");
    let with = |old: &str, new: &str| record(4, "SEND") + &record(5, "SEND").replace(old, new);
    let pairs = [1, 4, 2, 5];
    case(&before, &with("", ""), &pairs, 0, 0)?;
    for (old, new) in [
        ("version=17", "version=16"),
        ("TEA6", "TEA5"),
        ("use=SEND", "use=BOTH"),
        ("use=SEND", "use=RECV"),
        ("side=0", "side=1"),
        ("place=28", "place=29"),
        ("mcc=262", "mcc=263"),
        ("mnc=1001", "mnc=0"),
        ("07\n", "17\n"),
        ("key=0", "key=8"),
    ] {
        case(&before, &with(old, new), &pairs, 24, 2)?;
    }
    case(&record(1, "RECV"), &record(1, "BOTH"), &[1, 1], 24, 1)?;
    // the first of two
    let wide = records([7, 8, 9], "BOTH");
    case(&before, &wide, &[3, 7, 2, 9, 1, 8], 24, 2)
}

fn order() -> Finding {
    let (before, wide) = (records([1, 2], "SEND"), records([1, 2, 3], "BOTH"));
    let twice = format!("{wide}{wide}");
    case(&before, &twice, &[0; 66], 22, 0)?;
    case(&twice, &wide, &[1, 9], 22, 0)?;
    case(&before, &wide, &[1, 1, 2, 2, 2, 3], 23, 3)?;
    case(&before, &wide, &[1, 1, 2, 2], 23, 0)?;
    case(&before, &wide, &[1, 1, 7, 2], 23, 2)
}

/// The document's sentence, word by word, over what was read.
fn stated(before: &[u8], after: &[u8], pairs: &[Pair]) -> bool {
    let (Some(old), Some(new)) = (records_of(before), records_of(after)) else {
        return false;
    };
    let standing = |after: bool, number: u64| {
        let named = |pair: &&Pair| Some(number) == if after { pair.after } else { pair.before };
        pairs.iter().filter(named).count()
    };
    let every_after_in_one = new.iter().all(|record| standing(true, record.number) == 1);
    let no_before_in_two = old.iter().all(|record| standing(false, record.number) <= 1);
    let pairs_are_good = pairs.iter().all(|pair| {
        let (b, a) = (
            with_number(&old, pair.before),
            with_number(&new, pair.after),
        );
        b.zip(a).is_some_and(|(b, a)| {
            let narrowed = crate::slots::Fields {
                usage: a.fields.usage,
                ..b.fields
            };
            let uses = [b.fields.usage, a.fields.usage];
            b.key == a.key && a.fields == narrowed && matches!(uses, [3, _] | [1, 1] | [2, 2])
        })
    });
    pairs.len() <= 32 && every_after_in_one && no_before_in_two && pairs_are_good
}

/// Few numbers and few fields, so that what is random is often good.
fn exactly() -> Finding {
    let mut generator = Generator::new(11);
    let mut seen = [0; 2];
    for _ in 0..20_000 {
        let mut text = || -> String {
            let count = generator.below(3);
            let mut one = || {
                let usage = ["SEND", "RECV", "BOTH", "BOTH"][generator.below(4) as usize];
                let place = ["place=28", "place=9"][generator.below(5) as usize / 4];
                record(generator.between(1, 3), usage).replace("place=28", place)
            };
            (0..count).map(|_| one()).collect()
        };
        let (before, after) = (text(), text());
        let numbers: Vec<u64> = (0..generator.below(6))
            .map(|_| generator.between(1, 3))
            .collect();
        let given = answer(&before, &after, &numbers);
        let wanted = stated(before.as_bytes(), after.as_bytes(), &pairs_of(&numbers));
        same(
            &format!("{before}\n{after}\n{numbers:?}"),
            given.refusal == 0,
            wanted,
        )?;
        seen[usize::from(wanted)] += 1;
    }
    same("enough of both", seen[0] > 1000 && seen[1] > 1000, true)
}

fn program() -> Finding {
    let prints = |input: &str, wanted: &str| {
        let text = printed(input.as_bytes());
        same(input, String::from_utf8_lossy(&text).as_ref(), wanted)
    };
    let (old, new) = (record(3, "BOTH"), record(5, "SEND"));
    prints("", "converted=0\n")?;
    prints("\n\n", "converted=0\n")?;
    prints(&old, "converted=0\n")?;
    prints(&format!("{old}\n{new}"), "refused=23 pair=0\n")?;
    prints(
        &format!("{old}\n{new}\nbefore=3 after=5\n"),
        "converted=1\n",
    )?;
    prints(
        &format!("{new}\n{old}\nbefore=5 after=3\n"),
        "refused=24 pair=1\n",
    )?;
    prints(
        &format!("{old}\n\n{new}\nbefore=3 after=5\n"),
        "refused=23 pair=1\n",
    )?;
    prints(
        &format!("\n{new}\nbefore=3 after=5\n"),
        "refused=23 pair=1\n",
    )?;
    for line in [
        "before=3 after=5",
        "before=3 after=5\r\n",
        "before=03 after=5\n",
        "before=+3 after=5\n",
        "before=3  after=5\n",
        "after=5 before=3\n",
        "3 5\n",
        "\n",
        "before=18446744073709551619 after=5\n",
        "before=4 after=5\n",
    ] {
        prints(&format!("{old}\n{new}\n{line}"), "refused=23 pair=1\n")?;
        prints(
            &format!("{old}\n{new}\nbefore=3 after=5\n{line}"),
            "refused=23 pair=2\n",
        )?;
    }
    // 33 lines are one too many, and so many lines that the input is too long are a text too long
    let line = "before=1 after=1\n";
    prints(&format!("\n\n{}", line.repeat(32)), "refused=23 pair=1\n")?;
    prints(&format!("\n\n{}", line.repeat(33)), "refused=23 pair=0\n")?;
    prints(&format!("\n\n{:>16382}", ""), "refused=23 pair=1\n")?;
    prints(&format!("\n\n{:>16383}", ""), "refused=22 pair=0\n")
}
