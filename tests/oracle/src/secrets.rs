//! What the cipher makes of a key, to look for it in memory.

use second::rijndael::{Block, Key, Schedule};
use second::tea::{mixed_value, mode, Algorithm, InitialValue, Keystream};

const WORDS: usize = 120;
const BLOCKS: usize = 33;

#[repr(C)]
pub struct Secrets {
    mode_key: Key,
    mode_value: Key,
    words: [[u8; 4]; WORDS],
    blocks: [Block; BLOCKS],
}

/// # Safety
/// As for the crate. The algorithm is 5, 6 or 7.
#[no_mangle]
pub unsafe extern "C" fn oracle_secrets(
    algorithm: u64,
    key: *const Key,
    iv: *const InitialValue,
    secrets: *mut Secrets,
) {
    let algorithm = Algorithm::from_number(algorithm).expect("the algorithm is 5, 6 or 7");
    let made = mode(algorithm, &*key, &mixed_value(&*iv));
    let keystream = Keystream::new(algorithm, &*key, &*iv);
    *secrets = Secrets {
        mode_key: made.key,
        mode_value: made.value,
        words: *Schedule::new(&made.key).words(),
        blocks: std::array::from_fn(|j| keystream.block(j as u32)),
    };
}
