//! Checks of the second program itself: the values the card's rules name, the laws a cipher keeps, and
//! the refusals of every call with their order. `second selftest` and `cargo test` run the same checks.

mod card;
mod cipher;
mod conversion;
mod mending;
mod month;
mod pdu;
mod plan;
mod records;
mod slots;

use std::fmt::Debug;

use crate::refusals::{Refusal, DONE};

/// What a check finds wrong, if anything.
pub type Finding = Result<(), String>;

/// A named check.
pub type Check = (&'static str, fn() -> Finding);

pub fn checks() -> Vec<Check> {
    [
        cipher::CHECKS,
        slots::CHECKS,
        card::CHECKS,
        records::CHECKS,
        plan::CHECKS,
        month::CHECKS,
        conversion::CHECKS,
        mending::CHECKS,
        pdu::CHECKS,
    ]
    .concat()
}

/// The checks that fail, with what they found.
pub fn failures() -> Vec<String> {
    let failure = |(name, check): &Check| check().err().map(|found| format!("{name}: {found}"));
    checks().iter().filter_map(failure).collect()
}

fn same<T: PartialEq + Debug>(what: &str, found: T, wanted: T) -> Finding {
    if found == wanted {
        Ok(())
    } else {
        Err(format!("{what}: found {found:?}, wanted {wanted:?}"))
    }
}

/// A refusal and a change to a good call's arguments that earns it.
type Spoiler<Call> = (Refusal, fn(&mut Call));

/// Holds a call to its order of refusals. For each spoiler, the call spoiled by it alone and the call
/// spoiled by it and all later ones must both give its refusal. Where two spoilers touch the same
/// argument the earlier one has the last word, so that its fault is there.
fn same_order<Call: Clone>(
    good: &Call,
    spoilers: &[Spoiler<Call>],
    outcome: impl Fn(&Call) -> Result<Refusal, String>,
) -> Finding {
    same("the good call", outcome(good)?, DONE)?;
    for (first, (refusal, spoil)) in spoilers.iter().enumerate() {
        let mut spoiled = good.clone();
        spoil(&mut spoiled);
        same("spoiled once", outcome(&spoiled)?, *refusal)?;
        let mut spoiled = good.clone();
        for (_, spoil) in spoilers[first..].iter().rev() {
            spoil(&mut spoiled);
        }
        same("spoiled from there on", outcome(&spoiled)?, *refusal)?;
    }
    Ok(())
}
