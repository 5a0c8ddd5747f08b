//! Checkers that are wrong: the second program's, with one test changed, lost or in another place. The comparison must find each.

mod lists;
mod rights;
mod texts;

use second::conversion::{judged, pairs_of, records_of, Answer, Pair, Test, TESTS};
use second::records::Record;

use crate::Conversion;

pub struct Checker {
    pub name: &'static str,
    read: fn(&[u8]) -> Option<Vec<Record>>,
    tests: Vec<Test>,
    pairs: fn(&[u64]) -> Vec<Pair>,
    told: fn(&Conversion, Answer) -> Answer,
}

impl Checker {
    pub fn answer(&self, conversion: &Conversion) -> Answer {
        let texts = [&conversion.before[..], &conversion.after];
        let pairs = (self.pairs)(&conversion.numbers);
        let answer = judged(self.read, &self.tests, texts, &pairs);
        (self.told)(conversion, answer)
    }
}

const TOO_LONG: usize = 0;
const MISNAMED: usize = 1;
const LEFT_OUT: usize = 2;
const GROWN: usize = 3;

fn right(name: &'static str) -> Checker {
    Checker {
        name,
        read: records_of,
        tests: TESTS.to_vec(),
        pairs: pairs_of,
        told: |_, answer| answer,
    }
}

/// With another test in the place of one.
fn with(name: &'static str, place: usize, test: Test) -> Checker {
    let mut checker = right(name);
    checker.tests[place] = test;
    checker
}

/// With its tests in another order, or without one.
fn in_order(name: &'static str, order: &[usize]) -> Checker {
    Checker {
        tests: order.iter().map(|&place| TESTS[place]).collect(),
        ..right(name)
    }
}

pub fn checkers() -> Vec<Checker> {
    let kinds = [
        rights::uses(),
        rights::fields(),
        lists::orders(),
        lists::names(),
        lists::numbers(),
        texts::readings(),
    ];
    kinds.into_iter().flatten().collect()
}
