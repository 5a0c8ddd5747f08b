//! Checks of load, move, clear and read.

use super::{same, same_order, Check, Finding, Spoiler};
use crate::card::{traffic, Span};
use crate::refusals::*;
use crate::rijndael::Key;
use crate::slots::{
    clear, empty_table, load, move_slot, read, Fields, ReadAnswer, Slot, BOTH, KEEP_USE, RECEIVE,
    SEND, SLOTS,
};

pub const CHECKS: &[Check] = &[
    ("load order", load_order),
    ("load ranges", load_ranges),
    ("move order", move_order),
    ("move uses", move_uses),
    ("use 3 must be asked for", both_unasked),
    ("move carries", move_carries),
    ("clear and read", clear_and_read),
    ("bad slots", bad_slots),
    ("TEA6 in a slot", dropped_in_a_slot),
];

pub const KEY: Key = [0x3c; 24];

pub const FIELDS: Fields = Fields {
    version: 17,
    algorithm: 7,
    usage: BOTH,
    side: 0,
    place: 28,
    mcc: 262,
    mnc: 1001,
};

/// Slot 1 for both uses, slot 2 for sending only, the rest empty.
pub fn small_table() -> Vec<Slot> {
    let mut table = empty_table();
    table[0] = Slot::filled(&FIELDS, &KEY);
    let send_only = Fields {
        usage: SEND,
        ..FIELDS
    };
    table[1] = Slot::filled(&send_only, &KEY);
    table
}

#[derive(Clone)]
struct LoadCall {
    table: Vec<Slot>,
    number: u64,
    fields: Fields,
}

impl LoadCall {
    fn good() -> LoadCall {
        LoadCall {
            table: small_table(),
            number: 3,
            fields: FIELDS,
        }
    }

    fn outcome(&self) -> Result<Refusal, String> {
        let mut table = self.table.clone();
        let refusal = load(&mut table, self.number, &self.fields, &KEY);
        let mut wanted = self.table.clone();
        if refusal == DONE {
            wanted[self.number as usize - 1] = Slot::filled(&self.fields, &KEY);
        }
        same("table after load", table, wanted)?;
        Ok(refusal)
    }
}

fn load_order() -> Finding {
    same_order(
        &LoadCall::good(),
        &[
            (TABLE_BAD, |call| call.table[31].place = 80),
            (SLOT_NUMBER_UNKNOWN, |call| call.number = 33),
            (ALGORITHM_UNKNOWN, |call| call.fields.algorithm = 4),
            (OUT_OF_SERVICE, |call| call.fields.algorithm = 6),
            (CODE_UNKNOWN, |call| call.fields.usage = 0),
            (SIDE_OR_PLACE_OUT_OF_RANGE, |call| call.fields.place = 80),
            (NETWORK_OUT_OF_RANGE, |call| call.fields.mnc = 16384),
            (TARGET_FILLED, |call| call.number = 1),
        ],
        LoadCall::outcome,
    )
}

fn load_ranges() -> Finding {
    let cases: [Spoiler<LoadCall>; 23] = [
        (DONE, |call| call.fields.mcc = 1023),
        (NETWORK_OUT_OF_RANGE, |call| call.fields.mcc = 1024),
        (NETWORK_OUT_OF_RANGE, |call| call.fields.mcc = 1 << 32),
        (DONE, |call| call.fields.mnc = 16383),
        (NETWORK_OUT_OF_RANGE, |call| call.fields.mnc = u64::MAX),
        (SLOT_NUMBER_UNKNOWN, |call| call.number = 0),
        (DONE, |call| call.number = 32),
        (SLOT_NUMBER_UNKNOWN, |call| call.number = u64::MAX),
        (DONE, |call| call.fields.version = 0),
        (DONE, |call| call.fields.version = 65535),
        (DONE, |call| call.fields.algorithm = 5),
        (OUT_OF_SERVICE, |call| call.fields.algorithm = 6),
        (DONE, |call| call.fields.algorithm = 7),
        (ALGORITHM_UNKNOWN, |call| call.fields.algorithm = 8),
        (ALGORITHM_UNKNOWN, |call| call.fields.algorithm = 256 + 6),
        (DONE, |call| call.fields.usage = SEND),
        (DONE, |call| call.fields.usage = RECEIVE),
        (CODE_UNKNOWN, |call| call.fields.usage = 4),
        (DONE, |call| call.fields.side = 1),
        (SIDE_OR_PLACE_OUT_OF_RANGE, |call| call.fields.side = 2),
        (DONE, |call| call.fields.place = 79),
        (DONE, |call| call.fields.place = 0),
        (SIDE_OR_PLACE_OUT_OF_RANGE, |call| {
            call.fields.place = u64::MAX
        }),
    ];
    for (number, (refusal, change)) in cases.iter().enumerate() {
        let mut call = LoadCall::good();
        change(&mut call);
        same(&format!("case {number}"), call.outcome()?, *refusal)?;
    }
    Ok(())
}

#[derive(Clone)]
struct MoveCall {
    table: Vec<Slot>,
    from: u64,
    to: u64,
    asked: u64,
}

impl MoveCall {
    fn good() -> MoveCall {
        MoveCall {
            table: small_table(),
            from: 2,
            to: 5,
            asked: SEND,
        }
    }

    fn outcome(&self) -> Result<Refusal, String> {
        let mut table = self.table.clone();
        let refusal = move_slot(&mut table, self.from, self.to, self.asked);
        if refusal != DONE {
            same("table of a refused move", &table, &self.table)?;
        }
        Ok(refusal)
    }
}

fn move_order() -> Finding {
    let spoilers: [Spoiler<MoveCall>; 6] = [
        (TABLE_BAD, |call| call.table.truncate(31)),
        (SLOT_NUMBER_UNKNOWN, |call| call.to = 33),
        (SLOT_EMPTY, |call| call.from = 9),
        (TARGET_FILLED, |call| call.to = 1),
        (CODE_UNKNOWN, |call| call.asked = 4),
        (USE_NOT_WITHIN, |call| call.asked = BOTH),
    ];
    same_order(&MoveCall::good(), &spoilers, MoveCall::outcome)?;
    for (from, to, refusal) in [
        (0, 5, SLOT_NUMBER_UNKNOWN),
        (2, 0, SLOT_NUMBER_UNKNOWN),
        (u64::MAX, 1, SLOT_NUMBER_UNKNOWN),
        (9, 9, SLOT_EMPTY),
        (1, 1, TARGET_FILLED),
    ] {
        let call = MoveCall {
            from,
            to,
            ..MoveCall::good()
        };
        same("move", call.outcome()?, refusal)?;
    }
    Ok(())
}

/// Asked 0 on a key for both is refused where the use was tested all along: last.
fn both_unasked() -> Finding {
    let good = MoveCall {
        from: 1,
        asked: BOTH,
        ..MoveCall::good()
    };
    let spoilers: [Spoiler<MoveCall>; 4] = [
        (TABLE_BAD, |call| call.table.truncate(31)),
        (SLOT_NUMBER_UNKNOWN, |call| call.to = 33),
        (TARGET_FILLED, |call| call.to = 1),
        (USE_NOT_WITHIN, |call| call.asked = KEEP_USE),
    ];
    same_order(&good, &spoilers, MoveCall::outcome)
}

/// Each present use with each asked one, and the use that comes of it.
fn move_uses() -> Finding {
    let refused = Err(USE_NOT_WITHIN);
    let rows = [
        (SEND, [Ok(SEND), Ok(SEND), refused, refused]),
        (RECEIVE, [Ok(RECEIVE), refused, Ok(RECEIVE), refused]),
        (BOTH, [refused, Ok(SEND), Ok(RECEIVE), Ok(BOTH)]),
    ];
    for (present, by_asked) in rows {
        for (asked, wanted) in by_asked.into_iter().enumerate() {
            let mut table = small_table();
            table[0].usage = present;
            let found = match move_slot(&mut table, 1, 4, asked as u64) {
                DONE => Ok(table[3].usage),
                refusal => Err(refusal),
            };
            same("use after the move", found, wanted)?;
        }
    }
    Ok(())
}

fn move_carries() -> Finding {
    let mut table = small_table();
    let mut wanted = table.clone();
    wanted[31] = Slot {
        usage: RECEIVE,
        ..table[0]
    };
    wanted[0] = Slot::EMPTY;
    same("move", move_slot(&mut table, 1, 32, RECEIVE), DONE)?;
    same("table after the move", table, wanted)
}

fn clear_and_read() -> Finding {
    let mut table = small_table();
    let wanted = ReadAnswer {
        refusal: DONE,
        number: 1,
        fields: FIELDS,
    };
    same("read", read(&table, 1), wanted)?;
    for (number, refusal) in [
        (0, SLOT_NUMBER_UNKNOWN),
        (33, SLOT_NUMBER_UNKNOWN),
        (3, SLOT_EMPTY),
    ] {
        let before = table.clone();
        same("refused clear", clear(&mut table, number), refusal)?;
        same("table of a refused clear", &table, &before)?;
        let wanted = ReadAnswer {
            refusal,
            ..ReadAnswer::default()
        };
        same("refused read", read(&table, number), wanted)?;
    }
    let mut wanted = table.clone();
    wanted[0] = Slot::EMPTY;
    same("clear", clear(&mut table, 1), DONE)?;
    same("table after clear", table, wanted)
}

/// What makes an empty slot bad, and what makes a filled one bad.
const BAD_EMPTY: [fn(&mut Slot); 6] = [
    |slot| slot.version = 1,
    |slot| slot.algorithm = 6,
    |slot| slot.usage = 1,
    |slot| slot.side = 1,
    |slot| slot.place = 1,
    |slot| slot.key[23] = 1,
];
const BAD_FILLED: [fn(&mut Slot); 6] = [
    |slot| slot.version = 65536,
    |slot| slot.algorithm = 0,
    |slot| slot.algorithm = 8,
    |slot| slot.usage = 0,
    |slot| slot.side = 2,
    |slot| slot.place = 80,
];

/// Every call refuses a table with a bad slot anywhere, or of another length, ahead of all else.
fn bad_slots() -> Finding {
    let empty = BAD_EMPTY.iter().map(|spoil| (Slot::EMPTY, spoil));
    let filled = BAD_FILLED
        .iter()
        .map(|spoil| (Slot::filled(&FIELDS, &KEY), spoil));
    for (number, (slot, spoil)) in empty.chain(filled).enumerate() {
        for index in [0, 2, 31] {
            let mut table = small_table();
            table[index] = slot;
            spoil(&mut table[index]);
            refuse_all(&format!("bad slot {number}"), &table)?;
        }
    }
    for length in [0, 31, 33] {
        refuse_all("length", &vec![Slot::EMPTY; length])?;
    }
    let mut zero_key = empty_table();
    zero_key[SLOTS - 1] = Slot::filled(&FIELDS, &[0; 24]);
    same("a key of zeros", read(&zero_key, 32).refusal, DONE)
}

/// A key of TEA6 that is there is read, moved and cleared as any other is, and so is one beside it.
fn dropped_in_a_slot() -> Finding {
    for dropped in [0, 1] {
        let mut table = small_table();
        table[dropped].algorithm = 6;
        let held = table[dropped];
        let number = dropped as u64 + 1;
        same("read", read(&table, number).fields.algorithm, 6)?;
        same("move", move_slot(&mut table, number, 7, SEND), DONE)?;
        let carried = Slot {
            usage: SEND,
            ..held
        };
        same("the moved slot", table[6], carried)?;
        same("load beside it", load(&mut table, 9, &FIELDS, &KEY), DONE)?;
        same("clear", clear(&mut table, 7), DONE)?;
        same("the cleared slot", table[6], Slot::EMPTY)?;
    }
    Ok(())
}

fn refuse_all(what: &str, table: &[Slot]) -> Finding {
    let mut lent = table.to_vec();
    let span = Span {
        start: 0,
        length: 0,
        skip: 0,
    };
    let refusals = [
        load(&mut lent, 0, &Fields::default(), &KEY),
        move_slot(&mut lent, 0, 0, 9),
        clear(&mut lent, 0),
        read(&lent, 0).refusal,
        traffic(&lent, 0, 0, &[], &mut [], span).refusal,
    ];
    same(what, refusals, [TABLE_BAD; 5])?;
    same(what, &lent[..], table)
}
