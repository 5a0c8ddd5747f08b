//! Lines for comparing Rijndael alone with another program: `KEY BLOCK` in, the encrypted block out,
//! all in lower-case hex.

use crate::generator::Generator;
use crate::hex::{from_hex, to_hex};
use crate::rijndael::{Block, Key, Schedule, BLOCK_BYTES, KEY_BYTES};

/// `count` lines with random keys and blocks.
pub fn random_lines(seed: u64, count: u64) -> String {
    let mut generator = Generator::new(seed);
    let mut line = |_| {
        let key = to_hex(&generator.bytes(KEY_BYTES));
        let block = to_hex(&generator.bytes(BLOCK_BYTES));
        format!("{key} {block}\n")
    };
    (0..count).map(&mut line).collect()
}

/// The encrypted block of each line, or the first line that isn't of the form.
pub fn encrypt_lines(input: &str) -> Result<String, String> {
    input.lines().map(encrypt_line).collect()
}

fn encrypt_line(line: &str) -> Result<String, String> {
    let (key, block) = key_and_block(line).ok_or(format!("no key and block: '{line}'"))?;
    Ok(to_hex(&Schedule::new(&key).encrypt(&block)) + "\n")
}

fn key_and_block(line: &str) -> Option<(Key, Block)> {
    let (key, block) = line.split_once(' ')?;
    let key = from_hex(key.as_bytes())?.try_into().ok()?;
    let block = from_hex(block.as_bytes())?.try_into().ok()?;
    Some((key, block))
}
