//! The faults that are mended.

use second::generator::Generator;

use crate::lines::{one_of, text_of, Line};

/// The kinds of change in the order in which they are listed; a mixture has a bit for each.
pub const CHANGES: [&str; 6] = ["crlf", "hex", "zeros", "spaces", "order", "form"];

pub const LONGEST_TEXT: usize = 4096;

/// Whether a mixture has a kind of change.
pub fn has(mixture: u64, kind: &str) -> bool {
    let place = CHANGES.iter().position(|known| *known == kind);
    place.is_some_and(|place| mixture >> place & 1 == 1)
}

/// The lines that tell what was changed.
pub fn changed(mixture: u64) -> String {
    let made = CHANGES.iter().filter(|kind| has(mixture, kind));
    made.map(|kind| format!("changed={kind}\n")).collect()
}

/// Damages the lines by each fault of the mixture but `form`, which is the record's own.
pub fn damage(mixture: u64, lines: &mut [Line], generator: &mut Generator) {
    if has(mixture, "crlf") {
        some(lines, |_| true, generator, |line, _| line.end.push(b'\r'));
    }
    if has(mixture, "hex") {
        some(lines, |line| line.is("key"), generator, raise);
    }
    if has(mixture, "zeros") {
        some(lines, Line::is_number, generator, |line, generator| {
            line.value.splice(0..0, vec![b'0'; few(generator)]);
        });
    }
    if has(mixture, "spaces") {
        some(
            lines,
            |_| true,
            generator,
            |line, generator| {
                let spaces = vec![b' '; few(generator)];
                match generator.below(3) {
                    0 => line.before = spaces,
                    1 => line.after = spaces,
                    _ => (line.before, line.after) = (spaces.clone(), spaces),
                }
            },
        );
    }
    if has(mixture, "order") {
        shuffle(lines, generator);
    }
    if generator.below(16) == 0 {
        stretch(mixture, lines, LONGEST_TEXT, generator);
    }
}

/// One to thirty.
fn few(generator: &mut Generator) -> usize {
    let most = one_of(&[1, 3, 30], generator);
    generator.between(1, most) as usize
}

/// Does something to one or more of the lines that may have it.
fn some(
    lines: &mut [Line],
    may: impl Fn(&Line) -> bool,
    generator: &mut Generator,
    spoil: impl Fn(&mut Line, &mut Generator),
) {
    let mut chosen: Vec<&mut Line> = lines.iter_mut().filter(|line| may(line)).collect();
    let surely = generator.below(chosen.len() as u64) as usize;
    let bound = one_of(&[1, 2, 8, 64], generator);
    for (place, line) in chosen.iter_mut().enumerate() {
        if place == surely || generator.below(bound) == 0 {
            spoil(line, generator);
        }
    }
}

/// Puts one or more letters of a key in upper case.
fn raise(key: &mut Line, generator: &mut Generator) {
    let letters: Vec<usize> = (0..key.value.len())
        .filter(|place| key.value[*place].is_ascii_lowercase())
        .collect();
    let surely = one_of(&letters, generator);
    let bound = one_of(&[1, 2, 64], generator);
    for place in letters {
        if place == surely || generator.below(bound) == 0 {
            key.value[place].make_ascii_uppercase();
        }
    }
}

/// Puts the lines in another order: two of them swapped, one moved, or each put elsewhere.
fn shuffle(lines: &mut [Line], generator: &mut Generator) {
    let last = lines.len() as u64 - 1;
    let low = generator.below(last);
    let (low, high) = (low as usize, generator.between(low + 1, last) as usize);
    match generator.below(3) {
        0 => lines.swap(low, high),
        1 => lines[low..=high].rotate_left(1),
        // Sattolo's: each line goes elsewhere
        _ => (1..lines.len())
            .rev()
            .for_each(|place| lines.swap(place, generator.below(place as u64) as usize)),
    }
}

/// Fills the text to so many bytes, if its mixture has what a line can have any number of.
pub fn stretch(mixture: u64, lines: &mut [Line], bytes: usize, generator: &mut Generator) {
    let missing = bytes.saturating_sub(text_of(lines).len());
    if has(mixture, "zeros") {
        let mut numbers: Vec<&mut Line> =
            lines.iter_mut().filter(|line| line.is_number()).collect();
        let place = generator.below(numbers.len() as u64) as usize;
        numbers[place].value.splice(0..0, vec![b'0'; missing]);
    } else if has(mixture, "spaces") {
        let place = generator.below(lines.len() as u64) as usize;
        lines[place].after.extend(vec![b' '; missing]);
    }
}
