//! A key outside a table.

use std::fmt;
use std::ops::Deref;

use crate::{ffi, KEY_BYTES};

/// The bytes of a key, which are overwritten with zeros when they are dropped.
#[derive(Clone)]
pub(crate) struct KeyBytes(pub(crate) [u8; KEY_BYTES]);

impl Drop for KeyBytes {
    fn drop(&mut self) {
        ffi::overwrite(&mut self.0, [0; KEY_BYTES]);
    }
}

/// A key of 24 bytes.
///
/// `&key` stands wherever a call takes `&[u8; 24]`. `Debug` doesn't print it. Its bytes stay at one place
/// in memory while it is moved about, and are overwritten with zeros when it is dropped.
#[derive(Clone)]
pub struct Key(Box<KeyBytes>);

impl Key {
    pub(crate) fn bytes_mut(&mut self) -> &mut [u8; KEY_BYTES] {
        &mut self.0 .0
    }
}

/// Takes over a copy; the array that it is made from stays as it is.
impl From<[u8; KEY_BYTES]> for Key {
    fn from(bytes: [u8; KEY_BYTES]) -> Key {
        Key(Box::new(KeyBytes(bytes)))
    }
}

impl Deref for Key {
    type Target = [u8; KEY_BYTES];

    fn deref(&self) -> &[u8; KEY_BYTES] {
        &self.0 .0
    }
}

impl fmt::Debug for Key {
    fn fmt(&self, f: &mut fmt::Formatter) -> fmt::Result {
        f.write_str("Key(..)")
    }
}
