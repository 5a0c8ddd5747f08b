//! Keystream without a slot.

use crate::{ffi, Algorithm, Code, Refusal};

/// Writes keystream bits 0 to `length - 1` from bit 0 of the buffer on, and keeps the buffer's later
/// bits: to compare the card with another. Gives the number of keystream blocks, of 256 bits.
///
/// Refused: 1, 2, 3, 5, 4, 6.
///
/// ```
/// let mut keystream = [0; 64];
/// let blocks = card::bench(card::Algorithm::Tea7, &[1; 24], &[2; 10], &mut keystream, 512)?;
/// assert_eq!(blocks, 2);
/// # Ok::<(), card::Refusal>(())
/// ```
pub fn bench(
    algorithm: impl Into<Code<Algorithm>>,
    key: &[u8],
    iv: &[u8],
    buffer: &mut [u8],
    length: usize,
) -> Result<usize, Refusal> {
    ffi::bench(algorithm.into().number(), key, iv, buffer, length)
}
