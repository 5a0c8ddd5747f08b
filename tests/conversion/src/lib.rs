//! Random conversions, good and damaged, and checkers that are wrong, each of which is to be found.

mod damage;
mod draft;
mod face;
pub mod wrong;

use second::generator::Generator;

use draft::Draft;

/// What a checker is lent.
pub struct Conversion {
    pub before: Vec<u8>,
    pub after: Vec<u8>,
    pub numbers: Vec<u64>,
    /// A conversion by our own moves and clears, which is never refused.
    pub by_moves: bool,
}

/// One of every four is made by our own moves, one in another way that lets no right grow, and two are damaged, one of them more than once.
pub fn random_conversion(seed: u64, number: u64) -> Conversion {
    let mut generator = Generator::new(seed.wrapping_mul(0x1_0000_0001).wrapping_add(number));
    let by_moves = number % 4 == 0;
    let mut draft = if by_moves {
        Draft::by_moves(&mut generator)
    } else {
        Draft::good(&mut generator)
    };
    let damages = match number % 4 {
        0 | 1 => 0,
        2 => 1,
        _ => generator.between(2, 3),
    };
    for _ in 0..damages {
        damage::damage(&mut draft, &mut generator);
    }
    let (before, after) = draft.texts(&mut generator);
    let mut conversion = Conversion {
        before,
        after,
        numbers: draft.numbers(),
        by_moves,
    };
    if damages > 0 && generator.below(6) == 0 {
        damage::damage_bytes(&mut conversion, &mut generator);
    }
    conversion
}

impl Conversion {
    /// As the program `converted` reads it. Of an odd count the last line lacks a number.
    pub fn input(&self) -> Vec<u8> {
        let mut input = [&self.before[..], b"\n", &self.after, b"\n"].concat();
        for pair in self.numbers.chunks(2) {
            let line = match pair {
                [before, after] => format!("before={before} after={after}\n"),
                _ => format!("before={}\n", pair[0]),
            };
            input.extend(line.bytes());
        }
        input
    }
}
