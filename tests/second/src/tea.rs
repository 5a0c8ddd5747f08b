//! TEA5, TEA6 and TEA7: mixing the initial value (clauses 5.2, 6.2, 7.2), mode key and mode value
//! (5.3, 6.3, 7.3) and the keystream (5.4, 6.4, 7.4).

use std::array::from_fn;

use crate::bits::bit_at;
use crate::field::mixing_product;
use crate::printed::COMBINING;
use crate::rijndael::{Block, Key, Schedule, BLOCK_BYTES, KEY_BYTES};

pub const IV_BYTES: usize = 10;
pub const BLOCK_BITS: usize = 8 * BLOCK_BYTES;

/// The most keystream bits that one initial value gives (clause 4.1).
pub const KEYSTREAM_BITS: usize = 8288;

pub type InitialValue = [u8; IV_BYTES];

/// The initial value's bytes followed by those that the recursion makes of them.
pub const RECURSION_BYTES: usize = 44;

/// The mixed value leaves out the bytes before this one.
const FIRST_MIXED_BYTE: usize = RECURSION_BYTES - KEY_BYTES;

#[derive(Clone, Copy, Debug, PartialEq, Eq)]
pub enum Algorithm {
    Tea5,
    Tea6,
    Tea7,
}

impl Algorithm {
    pub const ALL: [Algorithm; 3] = [Algorithm::Tea5, Algorithm::Tea6, Algorithm::Tea7];

    pub fn from_number(number: u64) -> Option<Algorithm> {
        Self::ALL
            .into_iter()
            .find(|algorithm| algorithm.number() == number)
    }

    pub fn number(self) -> u64 {
        5 + self as u64
    }

    /// The last letter of the name in every block. Clause 6.4 prints 53 for TEA6, but means '6'.
    fn digit(self) -> u8 {
        b'5' + self as u8
    }

    /// f of clauses 5.6, 6.6 and 7.6.
    pub fn combine(self, input: u8) -> u8 {
        COMBINING[self as usize][usize::from(input)]
    }
}

/// b[0] to b[43] of clause 5.2.
pub fn recursion(iv: &InitialValue) -> [u8; RECURSION_BYTES] {
    let mut b = [0; RECURSION_BYTES];
    b[..IV_BYTES].copy_from_slice(iv);
    for i in IV_BYTES..RECURSION_BYTES {
        b[i] = b[i - 10] ^ b[i - 9] ^ mixing_product(b[i - 1]);
    }
    b
}

/// IVX, the mixed initial value.
pub fn mixed_value(iv: &InitialValue) -> [u8; KEY_BYTES] {
    let b = recursion(iv);
    from_fn(|i| b[FIRST_MIXED_BYTE + i])
}

/// CKM, the mode key, and IVM, the mode value.
#[derive(Clone, Copy, Debug, PartialEq, Eq)]
pub struct Mode {
    pub key: Key,
    pub value: [u8; KEY_BYTES],
}

/// Combines key and mixed value half byte by half byte.
pub fn mode(algorithm: Algorithm, key: &Key, mixed: &[u8; KEY_BYTES]) -> Mode {
    let mut mode = Mode {
        key: [0; KEY_BYTES],
        value: [0; KEY_BYTES],
    };
    for i in 0..KEY_BYTES {
        let high = algorithm.combine((key[i] & 0xf0) | (mixed[i] >> 4));
        let low = algorithm.combine((key[i] << 4) | (mixed[i] & 0x0f));
        mode.key[i] = (high & 0xf0) | (low >> 4);
        mode.value[i] = (high << 4) | (low & 0x0f);
    }
    mode
}

/// The keystream of one algorithm, key and initial value. The key schedule is filled once.
pub struct Keystream {
    algorithm: Algorithm,
    mode_value: [u8; KEY_BYTES],
    schedule: Schedule,
}

impl Keystream {
    pub fn new(algorithm: Algorithm, key: &Key, iv: &InitialValue) -> Keystream {
        let mode = mode(algorithm, key, &mixed_value(iv));
        Keystream {
            algorithm,
            mode_value: mode.value,
            schedule: Schedule::new(&mode.key),
        }
    }

    /// Block j: the mode value, the algorithm's name and j, encrypted under the mode key.
    pub fn block(&self, j: u32) -> Block {
        let mut plain = [0; BLOCK_BYTES];
        plain[..24].copy_from_slice(&self.mode_value);
        plain[24..27].copy_from_slice(b"TEA");
        plain[27] = self.algorithm.digit();
        plain[28..].copy_from_slice(&j.to_be_bytes());
        self.schedule.encrypt(&plain)
    }

    /// Keystream bits `skip` to `skip + length - 1`.
    pub fn bits(&self, skip: usize, length: usize) -> Vec<bool> {
        let end = skip + length;
        let mut bits = Vec::with_capacity(length);
        for r in skip / BLOCK_BITS..end.div_ceil(BLOCK_BITS) {
            let block = self.block(r as u32);
            let first = BLOCK_BITS * r;
            let used = skip.max(first)..end.min(first + BLOCK_BITS);
            bits.extend(used.map(|i| bit_at(&block, i - first)));
        }
        bits
    }
}
