//! The calls that use the keystream: bench and traffic. A call tests its arguments in its order and
//! gives the first refusal, or does its work after all tests, so that a refused call changes nothing.

use crate::bits::{bit_at, write_bits, xor_bits};
use crate::refusals::*;
use crate::rijndael::Key;
use crate::slots::{slot_index, table_fields, within, Fields, Slot, DROPPED, RECEIVE, SEND};
use crate::tea::{Algorithm, InitialValue, Keystream, BLOCK_BITS, KEYSTREAM_BITS};

/// The longest buffer a call takes.
pub const BUFFER_BYTES: usize = 8192;

/// Bits of a buffer and the keystream bits for them, as a caller gives them.
#[derive(Clone, Copy, Debug, Default, PartialEq, Eq)]
pub struct Span {
    pub start: u64,
    pub length: u64,
    pub skip: u64,
}

/// A span that lies within a buffer and within the keystream, and isn't empty.
#[derive(Clone, Copy, Debug, PartialEq, Eq)]
pub struct FittedSpan {
    pub start: usize,
    pub length: usize,
    pub skip: usize,
}

impl Span {
    /// Refusals 5, 4, 6. Sums are made wide, so they never wrap.
    pub fn fitted(self, buffer_bytes: usize) -> Result<FittedSpan, Refusal> {
        let sum = |a: u64, b: u64| u128::from(a) + u128::from(b);
        if buffer_bytes > BUFFER_BYTES {
            return Err(BUFFER_TOO_LONG);
        }
        if self.length == 0 || sum(self.skip, self.length) > KEYSTREAM_BITS as u128 {
            return Err(LENGTH_OUT_OF_RANGE);
        }
        if sum(self.start, self.length) > 8 * buffer_bytes as u128 {
            return Err(SPAN_PAST_BUFFER);
        }
        Ok(FittedSpan {
            start: self.start as usize,
            length: self.length as usize,
            skip: self.skip as usize,
        })
    }
}

impl FittedSpan {
    /// How many different blocks hold a used keystream bit.
    pub fn blocks(self) -> u64 {
        let last_bit = self.skip + self.length - 1;
        (last_bit / BLOCK_BITS - self.skip / BLOCK_BITS + 1) as u64
    }
}

/// An algorithm, key and initial value of the right kinds.
#[derive(Clone, Copy, Debug, PartialEq, Eq)]
pub struct Setting {
    pub algorithm: Algorithm,
    pub key: Key,
    pub iv: InitialValue,
}

impl Setting {
    /// Refusals 1, 2, 3.
    pub fn checked(algorithm: u64, key: &[u8], iv: &[u8]) -> Result<Setting, Refusal> {
        Ok(Setting {
            algorithm: Algorithm::from_number(algorithm).ok_or(ALGORITHM_UNKNOWN)?,
            key: key.try_into().map_err(|_| KEY_NOT_24_BYTES)?,
            iv: iv.try_into().map_err(|_| IV_NOT_10_BYTES)?,
        })
    }

    pub fn keystream_bits(&self, span: FittedSpan) -> Vec<bool> {
        Keystream::new(self.algorithm, &self.key, &self.iv).bits(span.skip, span.length)
    }
}

#[derive(Clone, Copy, Debug, Default, PartialEq, Eq)]
pub struct Answer {
    pub refusal: Refusal,
    pub blocks: u64,
}

impl Answer {
    pub(crate) fn new(blocks: Result<u64, Refusal>) -> Answer {
        match blocks {
            Ok(blocks) => Answer {
                refusal: DONE,
                blocks,
            },
            Err(refusal) => Answer { refusal, blocks: 0 },
        }
    }
}

/// Writes keystream bits 0 to `length - 1` over the buffer's first bits.
/// Refusals 1, 2, 3, 5, 4, 6.
pub fn bench(algorithm: u64, key: &[u8], iv: &[u8], buffer: &mut [u8], length: u64) -> Answer {
    bench_from(algorithm, key, iv, buffer, length, 0)
}

/// The same from keystream bit `skip` on, which is given to the buffer's bit 0. Refusals as the bench call's.
pub fn bench_from(
    algorithm: u64,
    key: &[u8],
    iv: &[u8],
    buffer: &mut [u8],
    length: u64,
    skip: u64,
) -> Answer {
    Answer::new(checked_bench(algorithm, key, iv, buffer, length, skip))
}

fn checked_bench(
    algorithm: u64,
    key: &[u8],
    iv: &[u8],
    buffer: &mut [u8],
    length: u64,
    skip: u64,
) -> Result<u64, Refusal> {
    let from_the_front = Span {
        start: 0,
        length,
        skip,
    };
    let setting = Setting::checked(algorithm, key, iv)?;
    let span = from_the_front.fitted(buffer.len())?;
    write_bits(buffer, span.start, &setting.keystream_bits(span));
    Ok(span.blocks())
}

/// Ciphers a span with the key of a slot. Refusals 16, 10, 7, 8, 12, 21, 3, 13, 5, 4, 6.
pub fn traffic(
    table: &[Slot],
    direction: u64,
    number: u64,
    iv: &[u8],
    buffer: &mut [u8],
    span: Span,
) -> Answer {
    Answer::new(checked_traffic(table, direction, number, iv, buffer, span))
}

fn checked_traffic(
    table: &[Slot],
    direction: u64,
    number: u64,
    iv: &[u8],
    buffer: &mut [u8],
    span: Span,
) -> Result<u64, Refusal> {
    let setting = permitted(table, direction, number, iv)?;
    let span = span.fitted(buffer.len())?;
    xor_bits(buffer, span.start, &setting.keystream_bits(span));
    Ok(span.blocks())
}

/// The setting of a slot that may be used this way; refusals 16, 10, 7, 8, 12, 21, 3, 13.
pub(crate) fn permitted(
    table: &[Slot],
    direction: u64,
    number: u64,
    iv: &[u8],
) -> Result<Setting, Refusal> {
    let present = table_fields(table)?;
    if direction != SEND && direction != RECEIVE {
        return Err(CODE_UNKNOWN);
    }
    let index = slot_index(number)?;
    let fields = present[index].ok_or(SLOT_EMPTY)?;
    if !within(direction, fields.usage) {
        return Err(USE_LACKS_DIRECTION);
    }
    if direction == SEND && fields.algorithm == DROPPED {
        return Err(OUT_OF_SERVICE);
    }
    // The slot is good, so of 1, 2 and 3 only 3 is left to be given.
    let setting = Setting::checked(fields.algorithm, &table[index].key, iv)?;
    if !side_fits(direction, &fields, &setting.iv) {
        return Err(SIDE_BIT_WRONG);
    }
    Ok(setting)
}

/// A send needs the initial value's bit number `place` to be the slot's side, a receive the other.
fn side_fits(direction: u64, fields: &Fields, iv: &InitialValue) -> bool {
    let bit = bit_at(iv, fields.place as usize);
    let own_side = bit == (fields.side == 1);
    own_side == (direction == SEND)
}
