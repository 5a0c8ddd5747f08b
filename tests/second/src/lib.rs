//! The second program: TEA5, TEA6 and TEA7 (ETSI TS 104 053-2) and the card around them, written from
//! the standard and the card's rules alone, for comparison with the proved card. It is made to be
//! read beside those papers, bit by bit and byte by byte, and not for speed.

pub mod bits;
pub mod blocklines;
pub mod card;
pub mod cases;
pub mod conversion;
pub mod conversion_input;
pub mod field;
pub mod generator;
pub mod hex;
pub mod mending;
pub mod month;
pub mod pdu;
pub mod plan;
pub mod printed;
pub mod records;
pub mod refusals;
pub mod rijndael;
pub mod running;
pub mod selftest;
pub mod slots;
pub mod tea;
pub mod vectors;
