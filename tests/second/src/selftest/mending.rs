//! Checks of the mending of record sheets, by cases worked by hand.

use super::{same, Check, Finding};
use crate::mending::{mend, mend_into, mend_sheet, SHEET_NAMES_WRONG, SHEET_VALUE_WRONG};
use crate::records::{parse, WriteAnswer};
use crate::refusals::*;

pub const CHECKS: &[Check] = &[
    ("a good record of form 2 comes out unchanged", unchanged),
    ("each fault is mended, and is the one change", single_faults),
    ("faults mixed", mixed_faults),
    ("names that are refused", names_refused),
    ("values that are refused", values_refused),
    ("names come before values", names_first),
    ("the longest text", longest_text),
    (
        "what is printed is good, and is mended no more",
        printed_is_good,
    ),
    ("room for what is mended", room),
];

const GOOD: &str =
    "form=2\nnumber=3\nversion=17\nalg=TEA6\nuse=SEND\nside=0\nplace=28\nmcc=262\nmnc=0\n\
    key=00a1b2c3d4e5f60718293a4b5c6d7e8f9001122334455667\n";

/// The same key in form 1, and in form 2 as it is mended.
const OLD: &str = "number=3\nversion=17\nalg=TEA6\nuse=SEND\nside=0\nplace=28\n\
    key=00a1b2c3d4e5f60718293a4b5c6d7e8f9001122334455667\n";
const OLD_MENDED: &str =
    "form=2\nnumber=3\nversion=17\nalg=TEA6\nuse=SEND\nside=0\nplace=28\nmcc=0\nmnc=0\n\
    key=00a1b2c3d4e5f60718293a4b5c6d7e8f9001122334455667\nchanged=form\n";

fn printed(text: &str) -> String {
    String::from_utf8_lossy(&mend_sheet(text.as_bytes())).into_owned()
}

fn unchanged() -> Finding {
    same("form 2", printed(GOOD), GOOD.to_string())?;
    same("form 1", printed(OLD), OLD_MENDED.to_string())
}

/// Parts of the good record, what stands in their place, and the one change that mends it.
const FAULTS: [(&str, &str, &str); 24] = [
    ("\n", "\r\n", "crlf"),
    ("form=2\n", "form=2\r\n", "crlf"),
    ("667\n", "667\r\n", "crlf"),
    ("00a1", "00A1", "hex"),
    ("e8f9", "e8F9", "hex"),
    ("a1b2c3d4e5f6", "A1B2C3D4E5F6", "hex"),
    ("number=3", "number=03", "zeros"),
    ("version=17", "version=000000000000000000000017", "zeros"),
    ("side=0", "side=00", "zeros"),
    ("mnc=0", "mnc=0000", "zeros"),
    ("form=2", "form=02", "zeros"),
    ("place=28", "place=028", "zeros"),
    ("mcc=262", "mcc=0262", "zeros"),
    ("=", " = ", "spaces"),
    ("number=", "number  =", "spaces"),
    ("alg=", "alg= ", "spaces"),
    ("use=", "use =    ", "spaces"),
    ("key=", "key =", "spaces"),
    ("form=", "form= ", "spaces"),
    ("form=2\nnumber=3\n", "number=3\nform=2\n", "order"),
    ("mcc=262\nmnc=0\n", "mnc=0\nmcc=262\n", "order"),
    ("version=17\nalg=TEA6\n", "alg=TEA6\nversion=17\n", "order"),
    (
        "form=2\nnumber=3\nversion=17\n",
        "version=17\nform=2\nnumber=3\n",
        "order",
    ),
    (
        "side=0\nplace=28\nmcc=262\n",
        "mcc=262\nplace=28\nside=0\n",
        "order",
    ),
];

fn single_faults() -> Finding {
    for (part, spoiled, change) in FAULTS {
        same(spoiled, GOOD.contains(part), true)?;
        let text = GOOD.replace(part, spoiled);
        same(spoiled, printed(&text), format!("{GOOD}changed={change}\n"))?;
    }
    Ok(())
}

fn mixed_faults() -> Finding {
    let all = "key = 00A1B2c3d4e5f60718293a4b5c6d7e8f9001122334455667\n\
        place=028\r\nside =0\nuse= SEND\nalg=TEA6\nversion=17\nnumber=3\n";
    let changes =
        "changed=crlf\nchanged=hex\nchanged=zeros\nchanged=spaces\nchanged=order\nchanged=form\n";
    let wanted = OLD_MENDED.replace("changed=form\n", changes);
    same("all six", printed(all), wanted)?;
    let two = GOOD.replace("place=28\n", "place= 0028\n");
    same(
        "two in one line",
        printed(&two),
        format!("{GOOD}changed=zeros\nchanged=spaces\n"),
    )?;
    let end = GOOD.replace("use=SEND\n", "use=  SEND\r\n");
    same(
        "a line's end and a space",
        printed(&end),
        format!("{GOOD}changed=crlf\nchanged=spaces\n"),
    )?;
    let zero = GOOD
        .replace("mcc=262", "mcc=000")
        .replace("mnc=0\n", "mnc=00\r\n");
    let wanted = GOOD.replace("mcc=262", "mcc=0");
    same(
        "zeros alone",
        printed(&zero),
        format!("{wanted}changed=crlf\nchanged=zeros\n"),
    )
}

/// Parts of a good record and what stands in their place, by which it gets 25 or 26.
type Refused = (&'static str, &'static str);

const NAMES: [Refused; 27] = [
    ("mcc=262\n", ""),
    ("form=2\n", ""),
    ("number=3\n", ""),
    ("mcc=262\n", "mcc=262\nmcc=262\n"),
    ("mcc=262\n", "mcc=262\nmcc=263\n"),
    ("form=2\n", "form=2\nform=2\n"),
    ("mcc=262\n", "mnc=262\n"),
    ("side=0\n", "side=0\ncolour=0\n"),
    ("side=0\n", "colour=0\n"),
    ("side=", "Side="),
    ("side=", " side="),
    ("side=", "\tside="),
    ("side=", "side\t="),
    ("side=", "side\r="),
    ("side=", "si de="),
    ("side=", "="),
    ("side=", "   ="),
    ("side=0", "side 0"),
    ("side=0\n", "side=0\n\n"),
    ("side=0\n", "side=0\n\r\n"),
    ("side=0\n", "side\n=0\n"),
    ("side=0\n", "side=0\n="),
    ("form=2", "\u{feff}form=2"),
    ("667\n", "667"),
    ("667\n", "667\r"),
    ("667\n", "667\n\n"),
    ("667\n", "667\n\0"),
];

fn names_refused() -> Finding {
    for (part, spoiled) in NAMES {
        refused(GOOD, part, spoiled, SHEET_NAMES_WRONG)?;
    }
    for (part, spoiled) in [
        ("side=0\n", "side=0\nmcc=0\nmnc=0\n"),
        ("side=0\n", "side=0\nmcc=0\n"),
        ("number=3\n", "form=2\nnumber=3\n"),
        ("number=3\n", "form=1\nnumber=3\n"),
        ("version=17\n", ""),
    ] {
        refused(OLD, part, spoiled, SHEET_NAMES_WRONG)?;
    }
    for text in ["", "\n", "\r\n", "=\n", "number=3\n", "number=3"] {
        same(text, mend(text.as_bytes()), Err(SHEET_NAMES_WRONG))?;
    }
    same(
        "twice",
        mend(GOOD.repeat(2).as_bytes()),
        Err(SHEET_NAMES_WRONG),
    )
}

fn refused(good: &str, part: &str, spoiled: &str, refusal: Refusal) -> Finding {
    same(spoiled, good.contains(part), true)?;
    let text = good.replacen(part, spoiled, 1);
    same(spoiled, printed(&text), format!("refused={refusal}\n"))
}

const VALUES: [Refused; 52] = [
    ("form=2", "form=3"),
    ("form=2", "form=1"),
    ("form=2", "form=0"),
    ("form=2", "form="),
    ("form=2", "form=22"),
    ("form=2", "form=two"),
    ("number=3", "number=0"),
    ("number=3", "number=00"),
    ("number=3", "number=33"),
    ("number=3", "number=4294967299"),
    ("number=3", "number=18446744073709551619"),
    ("number=3", "number=184467440737095516160003"),
    ("version=17", "version=65536"),
    ("version=17", "version=65553"),
    ("version=17", "version=-17"),
    ("version=17", "version=+17"),
    ("version=17", "version=17."),
    ("version=17", "version=1 7"),
    ("version=17", "version=17 "),
    ("version=17", "version=17\t"),
    ("version=17", "version=\t17"),
    ("version=17", "version= \t17"),
    ("version=17", "version=17\r\r"),
    ("version=17", "version=17\r "),
    ("version=17", "version==17"),
    ("version=17", "version= "),
    ("version=17", "version=\r"),
    ("version=17", "version=0x11"),
    ("alg=TEA6", "alg=TEA06"),
    ("alg=TEA6", "alg=TEA8"),
    ("alg=TEA6", "alg=TEA"),
    ("alg=TEA6", "alg=6"),
    ("alg=TEA6", "alg=tea6"),
    ("alg=TEA6", "alg=TEA6 "),
    ("alg=TEA6", "alg=0TEA6"),
    ("use=SEND", "use=send"),
    ("use=SEND", "use=SENDS"),
    ("use=SEND", "use=1"),
    ("side=0", "side=2"),
    ("side=0", "side=002"),
    ("place=28", "place=80"),
    ("mcc=262", "mcc=1024"),
    ("mnc=0", "mnc=16384"),
    ("mnc=0", "mnc="),
    ("key=00a1", "key=000a1"),
    ("key=00a1", "key=0a1"),
    ("key=00a1", "key=a1"),
    ("key=00a1", "key=0xa1"),
    ("key=00a1", "key=00g1"),
    ("key=00a1", "key=00G1"),
    ("key=00a1", "key=00 a1"),
    ("5667\n", "5667 \n"),
];

fn values_refused() -> Finding {
    for (part, spoiled) in VALUES {
        refused(GOOD, part, spoiled, SHEET_VALUE_WRONG)?;
    }
    for (part, spoiled) in [
        ("number=3", "number=33"),
        ("place=28", "place=80"),
        ("alg=TEA6", "alg=TEA06"),
        ("5667\n", "566\n"),
    ] {
        refused(OLD, part, spoiled, SHEET_VALUE_WRONG)?;
    }
    Ok(())
}

/// With every wrong value, a wrong name still gets 25.
fn names_first() -> Finding {
    for (part, spoiled) in VALUES {
        let text = GOOD.replacen(part, spoiled, 1);
        refused(&text, "use=", "Use=", SHEET_NAMES_WRONG)?;
        same(
            "twice",
            mend(text.repeat(2).as_bytes()),
            Err(SHEET_NAMES_WRONG),
        )?;
        let unended = &text[..text.len() - 1];
        same("unended", mend(unended.as_bytes()), Err(SHEET_NAMES_WRONG))?;
    }
    Ok(())
}

/// 4,096 bytes are mended, and 4,097 are refused with 25, whatever makes them so many.
fn longest_text() -> Finding {
    let room = 4096 - GOOD.len();
    for (part, longer, change) in [("number=", "0", "zeros"), ("key=", " ", "spaces")] {
        let filled = |count: usize| GOOD.replace(part, &(part.to_string() + &longer.repeat(count)));
        let longest = filled(room);
        same("bytes", longest.len(), 4096)?;
        same(part, printed(&longest), format!("{GOOD}changed={change}\n"))?;
        same(
            part,
            mend(filled(room + 1).as_bytes()),
            Err(SHEET_NAMES_WRONG),
        )?;
    }
    Ok(())
}

fn printed_is_good() -> Finding {
    for (part, spoiled, _) in FAULTS {
        let Ok(mended) = mend(GOOD.replace(part, spoiled).as_bytes()) else {
            return Err(format!("{spoiled}: it is refused"));
        };
        let read = parse(&mended.record).map(|record| record.length);
        same(spoiled, read, Ok(mended.record.len()))?;
        same(spoiled, mend_sheet(&mended.record), mended.record)?;
    }
    Ok(())
}

fn room() -> Finding {
    let given = |text: &str, bytes: usize| {
        let mut buffer = vec![b'#'; bytes];
        let WriteAnswer { refusal, length } = mend_into(text.as_bytes(), &mut buffer);
        let shown = String::from_utf8_lossy(&buffer).into_owned();
        (refusal, length, shown)
    };
    let text = GOOD.replace("side=0", "side = 0");
    let wanted = format!("{GOOD}changed=spaces\n");
    let length = wanted.len();
    same(
        "just enough",
        given(&text, length),
        (DONE, length as u64, wanted.clone()),
    )?;
    same(
        "more",
        given(&text, length + 2),
        (DONE, length as u64, wanted + "##"),
    )?;
    let less = "#".repeat(length - 1);
    same(
        "a byte too few",
        given(&text, length - 1),
        (RECORD_TOO_LONG, 0, less),
    )?;
    same("none", given(&text, 0), (RECORD_TOO_LONG, 0, String::new()))?;
    let named = text.replace("side", "Side");
    same(
        "25 first",
        given(&named, 0),
        (SHEET_NAMES_WRONG, 0, String::new()),
    )?;
    let valued = text.replace("TEA6", "TEA06");
    let kept = "#".repeat(300);
    same(
        "26 first",
        given(&valued, 300),
        (SHEET_VALUE_WRONG, 0, kept),
    )
}
