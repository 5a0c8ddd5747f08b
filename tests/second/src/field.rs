//! GF(2^8) with the Rijndael polynomial x^8+x^4+x^3+x+1: the product of clauses 5.2, 6.2 and 7.2,
//! and the S-box of the Rijndael proposal, both worked out and not looked up.

/// The polynomial without its x^8: what a bit shifted out at the top stands for.
const REDUCTION: u8 = 0x1b;

/// z^7+z^6+z^4+z^2+z+1, the factor of the recursion that mixes the initial value.
const MIXING_FACTOR: u8 = 0xd7;

/// The constant of the S-box's affine map.
const AFFINE_CONSTANT: u8 = 0x63;

/// z times `a`.
pub fn double(a: u8) -> u8 {
    let shifted = a << 1;
    if a & 0x80 == 0 {
        shifted
    } else {
        shifted ^ REDUCTION
    }
}

/// The product, as the sum of the shifts of `a` that the bits of `b` name.
pub fn times(a: u8, b: u8) -> u8 {
    let mut shifted = a;
    let mut sum = 0;
    for power in 0..8 {
        if (b >> power) & 1 == 1 {
            sum ^= shifted;
        }
        shifted = double(shifted);
    }
    sum
}

/// M of the standard: the product with 0xd7.
pub fn mixing_product(byte: u8) -> u8 {
    times(MIXING_FACTOR, byte)
}

/// The multiplicative inverse, and 0 for 0: a^254, since a^255 = 1 for every other a.
pub fn inverse(a: u8) -> u8 {
    (0..254).fold(1, |power, _| times(power, a))
}

/// The Rijndael S-box: the inverse, then the affine map.
pub fn substitute(byte: u8) -> u8 {
    affine(inverse(byte))
}

fn affine(a: u8) -> u8 {
    (0..5).fold(AFFINE_CONSTANT, |sum, turn| sum ^ a.rotate_left(turn))
}
