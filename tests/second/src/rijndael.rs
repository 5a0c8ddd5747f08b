//! Rijndael with a block of 256 bits and a key of 192 bits, encryption only, after the AES proposal
//! of Daemen and Rijmen, version 2. The standard uses it in clauses 5.4, 6.4 and 7.4.
//!
//! Byte k of a block stands in row k mod 4 and column k div 4 of the state.

use std::array::from_fn;
use std::sync::LazyLock;

use crate::field::{double, substitute};

pub const BLOCK_BYTES: usize = 32;
pub const KEY_BYTES: usize = 24;

pub type Block = [u8; BLOCK_BYTES];
pub type Key = [u8; KEY_BYTES];
pub type Word = [u8; ROWS];

const ROWS: usize = 4;
const COLUMNS: usize = 8;
const ROUNDS: usize = 14;
const KEY_WORDS: usize = KEY_BYTES / ROWS;
pub const SCHEDULE_WORDS: usize = COLUMNS * (ROUNDS + 1);

/// How far each row turns left. Blocks of 256 bits have 3 and 4 where shorter ones have 2 and 3.
const ROW_SHIFTS: [usize; ROWS] = [0, 1, 3, 4];

/// The S-box, worked out once and kept, since an inverse for each byte would be slow.
static SUBSTITUTES: LazyLock<[u8; 256]> = LazyLock::new(|| from_fn(|byte| substitute(byte as u8)));

/// The round keys of one key.
pub struct Schedule {
    words: [Word; SCHEDULE_WORDS],
}

impl Schedule {
    pub fn new(key: &Key) -> Schedule {
        let mut words = [[0; ROWS]; SCHEDULE_WORDS];
        for (number, bytes) in key.chunks_exact(ROWS).enumerate() {
            words[number].copy_from_slice(bytes);
        }
        for number in KEY_WORDS..SCHEDULE_WORDS {
            // With six key words there is no further S-box step inside a group of six.
            let previous = match number % KEY_WORDS {
                0 => turned_word(words[number - 1], number / KEY_WORDS),
                _ => words[number - 1],
            };
            words[number] = from_fn(|row| words[number - KEY_WORDS][row] ^ previous[row]);
        }
        Schedule { words }
    }

    pub fn words(&self) -> &[Word; SCHEDULE_WORDS] {
        &self.words
    }

    pub fn encrypt(&self, block: &Block) -> Block {
        let mut state = self.add_round_key(*block, 0);
        for round in 1..ROUNDS {
            state = mix_columns(shift_rows(sub_bytes(state)));
            state = self.add_round_key(state, round);
        }
        self.add_round_key(shift_rows(sub_bytes(state)), ROUNDS)
    }

    fn add_round_key(&self, state: Block, round: usize) -> Block {
        let round_key = &self.words[COLUMNS * round..COLUMNS * (round + 1)];
        from_fn(|k| state[k] ^ round_key[k / ROWS][k % ROWS])
    }
}

/// Rotation, S-box and round constant, for the word before each group of six.
fn turned_word(word: Word, group: usize) -> Word {
    let mut turned = from_fn(|row| SUBSTITUTES[usize::from(word[(row + 1) % ROWS])]);
    turned[0] ^= round_constant(group);
    turned
}

/// Round constant 1 is 1, and each next one is the double of the one before.
pub fn round_constant(number: usize) -> u8 {
    (1..number).fold(1, |constant, _| double(constant))
}

fn sub_bytes(state: Block) -> Block {
    state.map(|byte| SUBSTITUTES[usize::from(byte)])
}

fn shift_rows(state: Block) -> Block {
    from_fn(|k| {
        let (row, column) = (k % ROWS, k / ROWS);
        let source = (column + ROW_SHIFTS[row]) % COLUMNS;
        state[row + ROWS * source]
    })
}

fn mix_columns(state: Block) -> Block {
    from_fn(|k| {
        let column = &state[k / ROWS * ROWS..][..ROWS];
        let below = |steps: usize| column[(k + steps) % ROWS];
        // The rows of the proposal's matrix are 02 03 01 01, turned.
        double(below(0)) ^ double(below(1)) ^ below(1) ^ below(2) ^ below(3)
    })
}
