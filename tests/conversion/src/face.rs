//! The second program's checker, the wrong ones and random conversions, for C. `conversions.h` declares them.

use std::cell::RefCell;
use std::slice::from_raw_parts;

use second::conversion::{converted, pairs_of, Answer, Pair};
use second::conversion_input::parts_of;

use crate::wrong::{checkers, Checker};
use crate::{random_conversion, Conversion};

/// Where a conversion lies, and how much there is of it.
#[repr(C)]
pub struct Lent {
    before: *const u8,
    before_bytes: usize,
    after: *const u8,
    after_bytes: usize,
    pairs: *const u64,
    numbers: usize,
    by_moves: u8,
}

thread_local! {
    static HELD: RefCell<Option<Conversion>> = const { RefCell::new(None) };
    static WRONG: RefCell<Vec<Checker>> = RefCell::new(checkers());
}

/// Stands until the next call.
fn lend(conversion: Conversion) -> Lent {
    HELD.with_borrow_mut(|held| {
        let held = held.insert(conversion);
        Lent {
            before: held.before.as_ptr(),
            before_bytes: held.before.len(),
            after: held.after.as_ptr(),
            after_bytes: held.after.len(),
            pairs: held.numbers.as_ptr(),
            numbers: held.numbers.len(),
            by_moves: held.by_moves.into(),
        }
    })
}

#[no_mangle]
pub extern "C" fn conversion_random(seed: u64, number: u64) -> Lent {
    lend(random_conversion(seed, number))
}

/// The conversion that the program `converted` reads in an input. A number that is not there is 0, and the last pair is an odd
/// number alone where it names no number after.
///
/// # Safety
/// `input` points to so many bytes.
#[no_mangle]
pub unsafe extern "C" fn conversion_of_input(input: *const u8, bytes: usize) -> Lent {
    let input = if bytes == 0 {
        &[]
    } else {
        from_raw_parts(input, bytes)
    };
    let parts = parts_of(input);
    let flat = |pair: &Pair| [pair.before.unwrap_or(0), pair.after.unwrap_or(0)];
    let mut numbers: Vec<u64> = parts.pairs.iter().flat_map(flat).collect();
    if numbers.last() == Some(&0) {
        numbers.pop();
    }
    lend(Conversion {
        before: parts.before.to_vec(),
        after: parts.after.to_vec(),
        numbers,
        by_moves: false,
    })
}

/// # Safety
/// As include/card_converted.h says of `card_converted`.
#[no_mangle]
pub unsafe extern "C" fn second_converted(
    before: *const u8,
    before_bytes: usize,
    after: *const u8,
    after_bytes: usize,
    pairs: *const u64,
    numbers: usize,
    place: *mut usize,
) -> u8 {
    let answer = converted(
        from_raw_parts(before, before_bytes),
        from_raw_parts(after, after_bytes),
        &pairs_of(from_raw_parts(pairs, numbers)),
    );
    told(answer, place)
}

/// How many wrong checkers there are.
#[no_mangle]
pub extern "C" fn wrong_checkers() -> usize {
    WRONG.with_borrow(Vec::len)
}

/// What the wrong checker of this number, from 0 on, answers to the conversion that was lent last.
///
/// # Safety
/// `place` may be written to.
#[no_mangle]
pub unsafe extern "C" fn wrong_converted(number: usize, place: *mut usize) -> u8 {
    let answer = WRONG.with_borrow(|wrong| {
        HELD.with_borrow(|held| held.as_ref().map(|held| wrong[number].answer(held)))
    });
    told(answer.expect("a conversion was lent"), place)
}

/// Leaves the wrong checker's name at the front of a buffer, ended by a zero.
///
/// # Safety
/// `name` points to so many bytes, at least one.
#[no_mangle]
pub unsafe extern "C" fn wrong_name(number: usize, name: *mut u8, bytes: usize) {
    WRONG.with_borrow(|wrong| {
        let text = wrong[number].name.as_bytes();
        let length = text.len().min(bytes - 1);
        text.as_ptr().copy_to_nonoverlapping(name, length);
        *name.add(length) = 0;
    });
}

unsafe fn told(answer: Answer, place: *mut usize) -> u8 {
    *place = answer.place as usize;
    answer.refusal as u8
}
