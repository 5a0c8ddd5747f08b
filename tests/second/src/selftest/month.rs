//! Checks of the month sheet.

use super::{same, Check, Finding};
use crate::month::month_sheet;

pub const CHECKS: &[Check] = &[
    ("an empty log is a sheet of zeros", empty_log),
    ("each fault of a line is refused with its number", faults),
    ("a share is in lowest terms", shares),
];

const GOOD: &str = "slot=1 dir=2 bits=256 blocks=1 code=0\n";

fn printed(log: &str) -> String {
    String::from_utf8_lossy(&month_sheet(log.as_bytes())).into_owned()
}

fn empty_log() -> Finding {
    let sheet = printed("");
    same("lines", sheet.lines().count(), 64 + 27 + 1)?;
    same(
        "the first",
        sheet.lines().next(),
        Some("slot=1 dir=1 calls=0 bits=0 blocks=0 share=0/1"),
    )?;
    same(
        "the last",
        sheet.lines().last(),
        Some("lines=0 calls=0 bits=0 blocks=0"),
    )
}

fn faults() -> Finding {
    for line in [
        "\n",
        "slot=1 dir=2 bits=256 blocks=1 code=0",
        "slot=1 dir=2 bits=256 blocks=1 code=0 \n",
        "slot=1 dir=2 bits=256 blocks=1 code=0\r\n",
        "slot=01 dir=2 bits=256 blocks=1 code=0\n",
        "slot=1 dir=2 bits=+256 blocks=1 code=0\n",
        "slot=65536 dir=2 bits=0 blocks=0 code=1\n",
        "slot=1 dir=2 bits=0 blocks=0 code=28\n",
        "slot=1 dir=2 bits=1 blocks=0 code=1\n",
        "slot=1 dir=2 bits=0 blocks=1 code=1\n",
        "slot=0 dir=2 bits=256 blocks=1 code=0\n",
        "slot=33 dir=2 bits=256 blocks=1 code=0\n",
        "slot=1 dir=0 bits=256 blocks=1 code=0\n",
        "slot=1 dir=3 bits=256 blocks=1 code=0\n",
        "slot=1 dir=2 bits=8289 blocks=33 code=0\n",
        "slot=1 dir=2 bits=1 blocks=34 code=0\n",
        "slot=1 dir=2 bits=257 blocks=1 code=0\n",
        "slot=1 dir=2 bits=0 blocks=1 code=0\n",
    ] {
        same(
            line,
            printed(&format!("{GOOD}{line}")),
            "refused=27 line=2\n".to_string(),
        )?;
    }
    same(
        "65,535 lines",
        printed(&GOOD.repeat(65_535)).lines().last(),
        Some("lines=65535 calls=65535 bits=16776960 blocks=65535"),
    )?;
    same(
        "65,536 lines",
        printed(&GOOD.repeat(65_536)),
        "refused=27 line=65536\n".to_string(),
    )
}

fn shares() -> Finding {
    let sheet = printed("slot=1 dir=1 bits=8 blocks=1 code=0\nslot=2 dir=2 bits=12 blocks=33 code=0\nslot=99 dir=9 bits=0 blocks=0 code=27\n");
    let rows: Vec<&str> = sheet.lines().collect();
    same(
        "slot 1",
        rows[0],
        "slot=1 dir=1 calls=1 bits=8 blocks=1 share=2/5",
    )?;
    same(
        "slot 2",
        rows[3],
        "slot=2 dir=2 calls=1 bits=12 blocks=33 share=3/5",
    )?;
    same("code 27", rows[90], "code=27 count=1")
}
