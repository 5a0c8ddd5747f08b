//! Runs of bits.

/// A run of bits in a buffer, and where in the keystream the bits for it begin. Bit 0 of a byte is its
/// most significant bit.
#[derive(Clone, Copy, Debug, PartialEq, Eq, Hash)]
pub struct Span {
    /// The run's first bit in the buffer.
    pub start: usize,
    /// The run's bits.
    pub length: usize,
    /// The keystream bit for the first of them.
    pub skip: usize,
}
