//! Bits of a byte string. Bit 0 of a byte is its most significant bit (clause 5.2).

/// Bit `place` of the string: bit `place mod 8` of byte `place div 8`.
pub fn bit_at(bytes: &[u8], place: usize) -> bool {
    bytes[place / 8] & mask(place) != 0
}

/// Sets bits `start`, `start + 1`, .. to the given bits and keeps every other bit.
pub fn write_bits(bytes: &mut [u8], start: usize, bits: &[bool]) {
    for (offset, &bit) in bits.iter().enumerate() {
        let place = start + offset;
        if bit {
            bytes[place / 8] |= mask(place);
        } else {
            bytes[place / 8] &= !mask(place);
        }
    }
}

/// Xors the given bits into bits `start`, `start + 1`, .. and keeps every other bit.
pub fn xor_bits(bytes: &mut [u8], start: usize, bits: &[bool]) {
    for (offset, &bit) in bits.iter().enumerate() {
        let place = start + offset;
        if bit {
            bytes[place / 8] ^= mask(place);
        }
    }
}

fn mask(place: usize) -> u8 {
    0x80 >> (place % 8)
}
