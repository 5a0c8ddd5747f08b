//! Keystream by the plain engine.

use crate::{ffi, Algorithm, Code, Refusal};

/// Writes keystream bits `skip` to `skip + length - 1` from bit 0 of the buffer on, by the engine that is read
/// beside the standard, and keeps the buffer's later bits. At skip 0 it is [`bench`](crate::bench). Gives the
/// number of keystream blocks, of 256 bits.
///
/// Refused: 1, 2, 3, 5, 4, 6.
///
/// ```
/// let mut keystream = [0; 64];
/// let blocks = card::plain(card::Algorithm::Tea7, &[1; 24], &[2; 10], &mut keystream, 2, 255)?;
/// assert_eq!(blocks, 2);
/// # Ok::<(), card::Refusal>(())
/// ```
pub fn plain(
    algorithm: impl Into<Code<Algorithm>>,
    key: &[u8],
    iv: &[u8],
    buffer: &mut [u8],
    length: usize,
    skip: usize,
) -> Result<usize, Refusal> {
    ffi::plain(algorithm.into().number(), key, iv, buffer, length, skip)
}
