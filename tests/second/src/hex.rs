//! Bytes as lower-case hex digits.

pub fn to_hex(bytes: &[u8]) -> String {
    bytes.iter().map(|byte| format!("{byte:02x}")).collect()
}

/// The bytes of an even number of lower-case hex digits. Upper case isn't read.
pub fn from_hex(digits: &[u8]) -> Option<Vec<u8>> {
    digits.chunks(2).map(byte_of_pair).collect()
}

fn byte_of_pair(pair: &[u8]) -> Option<u8> {
    match pair {
        [high, low] => Some(hex_value(*high)? << 4 | hex_value(*low)?),
        _ => None,
    }
}

pub fn hex_value(digit: u8) -> Option<u8> {
    match digit {
        b'0'..=b'9' => Some(digit - b'0'),
        b'a'..=b'f' => Some(digit - b'a' + 10),
        _ => None,
    }
}
