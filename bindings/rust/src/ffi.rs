//! All that is unsafe: the calls of include/card.h, card_plain.h and card_converted.h behind functions that are safe, and overwriting what
//! must not stay in memory.
//!
//! The header asks three things of its callers. Pointers that aren't null and are good for their length:
//! they come from references and slices here, and an empty slice's pointer isn't null. No overlap with
//! what is written to, and no other thread at it: that is what `&mut` says.
//!
//! Each function that lends the card a key wipes the stack below itself after the call.

use std::ptr;
use std::sync::atomic::{compiler_fence, Ordering};

use crate::{wipe, Asked, Fields, Key, Pdu, Record, Refusal, Slot, Span, KEY_BYTES, LISTING_BYTES};

extern "C" {
    fn card_load(
        table: *mut Slot,
        slots: usize,
        number: u64,
        version: u16,
        algorithm: u64,
        usage: u64,
        side: u64,
        place: u64,
        mcc: u64,
        mnc: u64,
        key: *const u8,
    ) -> u8;

    fn card_move(table: *mut Slot, slots: usize, from: u64, to: u64, asked: u64) -> u8;

    fn card_clear(table: *mut Slot, slots: usize, number: u64) -> u8;

    fn card_read(
        table: *const Slot,
        slots: usize,
        number: u64,
        found: *mut u64,
        version: *mut u16,
        algorithm: *mut u8,
        usage: *mut u8,
        side: *mut u8,
        place: *mut u8,
        mcc: *mut u16,
        mnc: *mut u16,
    ) -> u8;

    fn card_traffic(
        table: *const Slot,
        slots: usize,
        direction: u64,
        number: u64,
        iv: *const u8,
        iv_bytes: usize,
        buffer: *mut u8,
        buffer_bytes: usize,
        start_bit: usize,
        length_bits: usize,
        skip_bits: usize,
        blocks: *mut usize,
    ) -> u8;

    fn card_pdu(
        table: *const Slot,
        slots: usize,
        direction: u64,
        number: u64,
        iv: *const u8,
        iv_bytes: usize,
        buffer: *mut u8,
        buffer_bytes: usize,
        kind: u64,
        state: u64,
        length_bits: usize,
        address_bit: usize,
        sdu_bit: usize,
        blocks: *mut usize,
    ) -> u8;

    fn card_bench(
        algorithm: u64,
        key: *const u8,
        key_bytes: usize,
        iv: *const u8,
        iv_bytes: usize,
        buffer: *mut u8,
        buffer_bytes: usize,
        length_bits: usize,
        blocks: *mut usize,
    ) -> u8;

    #[cfg(feature = "plain")]
    fn card_plain(
        algorithm: u64,
        key: *const u8,
        key_bytes: usize,
        iv: *const u8,
        iv_bytes: usize,
        buffer: *mut u8,
        buffer_bytes: usize,
        length_bits: usize,
        skip_bits: usize,
        blocks: *mut usize,
    ) -> u8;

    #[cfg(feature = "conversion")]
    fn card_converted(
        before: *const u8,
        before_bytes: usize,
        after: *const u8,
        after_bytes: usize,
        pairs: *const u64,
        numbers: usize,
        place: *mut usize,
    ) -> u8;

    fn card_record_read(
        text: *const u8,
        text_bytes: usize,
        shown: *mut u64,
        key: *mut u8,
        used: *mut usize,
        line: *mut usize,
        column: *mut usize,
    ) -> u8;

    fn card_record_write(
        number: u64,
        version: u16,
        algorithm: u64,
        usage: u64,
        side: u64,
        place: u64,
        mcc: u64,
        mnc: u64,
        key: *const u8,
        buffer: *mut u8,
        buffer_bytes: usize,
        length: *mut usize,
    ) -> u8;

    fn card_slotlist(
        sheet: *const u8,
        sheet_bytes: usize,
        buffer: *mut u8,
        buffer_bytes: usize,
    ) -> usize;

    fn card_plan(
        kind: u64,
        state: u64,
        flag: u64,
        length_bits: usize,
        address_bit: usize,
        sdu_bit: usize,
        pieces: *mut usize,
    ) -> u8;
}

/// What a call that was done gives, or its refusal.
fn answered<T>(answer: u8, done: T) -> Result<T, Refusal> {
    match Refusal::answered(answer) {
        None => Ok(done),
        Some(refusal) => Err(refusal),
    }
}

pub fn load(
    table: &mut [Slot],
    number: u64,
    asked: &Asked,
    key: &[u8; KEY_BYTES],
) -> Result<(), Refusal> {
    // Safety: each pointer is good for its length, and the library keeps none of them.
    let answer = unsafe {
        card_load(
            table.as_mut_ptr(),
            table.len(),
            number,
            asked.version,
            asked.algorithm,
            asked.usage,
            asked.side,
            asked.place,
            asked.mcc,
            asked.mnc,
            key.as_ptr(),
        )
    };
    wipe::stack_below();
    answered(answer, ())
}

pub fn move_slot(table: &mut [Slot], from: u64, to: u64, asked: u64) -> Result<(), Refusal> {
    // Safety: the pointer is good for the table's slots, and the library doesn't keep it.
    let answer = unsafe { card_move(table.as_mut_ptr(), table.len(), from, to, asked) };
    wipe::stack_below();
    answered(answer, ())
}

pub fn clear(table: &mut [Slot], number: u64) -> Result<(), Refusal> {
    // Safety: the pointer is good for the table's slots, and the library doesn't keep it.
    let answer = unsafe { card_clear(table.as_mut_ptr(), table.len(), number) };
    wipe::stack_below();
    answered(answer, ())
}

pub fn read(table: &[Slot], number: u64) -> Result<Fields, Refusal> {
    let mut found = 0;
    let [mut version, mut mcc, mut mnc] = [0; 3];
    let [mut algorithm, mut usage, mut side, mut place] = [0; 4];
    // Safety: each pointer is good for what it points to, and the library keeps none of them.
    let answer = unsafe {
        card_read(
            table.as_ptr(),
            table.len(),
            number,
            &mut found,
            &mut version,
            &mut algorithm,
            &mut usage,
            &mut side,
            &mut place,
            &mut mcc,
            &mut mnc,
        )
    };
    wipe::stack_below();
    answered(answer, ())?;
    Fields::reported([
        version.into(),
        algorithm.into(),
        usage.into(),
        side.into(),
        place.into(),
        mcc.into(),
        mnc.into(),
    ])
}

pub fn traffic(
    table: &[Slot],
    direction: u64,
    number: u64,
    iv: &[u8],
    buffer: &mut [u8],
    span: Span,
) -> Result<usize, Refusal> {
    let mut blocks = 0;
    // Safety: each pointer is good for its length, and the library keeps none of them.
    let answer = unsafe {
        card_traffic(
            table.as_ptr(),
            table.len(),
            direction,
            number,
            iv.as_ptr(),
            iv.len(),
            buffer.as_mut_ptr(),
            buffer.len(),
            span.start,
            span.length,
            span.skip,
            &mut blocks,
        )
    };
    wipe::stack_below();
    answered(answer, blocks)
}

pub fn pdu(
    table: &[Slot],
    direction: u64,
    number: u64,
    iv: &[u8],
    buffer: &mut [u8],
    pdu: &Pdu,
) -> Result<usize, Refusal> {
    let mut blocks = 0;
    // Safety: each pointer is good for its length, and the library keeps none of them.
    let answer = unsafe {
        card_pdu(
            table.as_ptr(),
            table.len(),
            direction,
            number,
            iv.as_ptr(),
            iv.len(),
            buffer.as_mut_ptr(),
            buffer.len(),
            pdu.kind.into(),
            pdu.state.into(),
            pdu.length_bits,
            pdu.address_bit,
            pdu.sdu_bit,
            &mut blocks,
        )
    };
    wipe::stack_below();
    answered(answer, blocks)
}

pub fn bench(
    algorithm: u64,
    key: &[u8],
    iv: &[u8],
    buffer: &mut [u8],
    length: usize,
) -> Result<usize, Refusal> {
    let mut blocks = 0;
    // Safety: each pointer is good for its length, and the library keeps none of them.
    let answer = unsafe {
        card_bench(
            algorithm,
            key.as_ptr(),
            key.len(),
            iv.as_ptr(),
            iv.len(),
            buffer.as_mut_ptr(),
            buffer.len(),
            length,
            &mut blocks,
        )
    };
    wipe::stack_below();
    answered(answer, blocks)
}

#[cfg(feature = "plain")]
pub fn plain(
    algorithm: u64,
    key: &[u8],
    iv: &[u8],
    buffer: &mut [u8],
    length: usize,
    skip: usize,
) -> Result<usize, Refusal> {
    let mut blocks = 0;
    // Safety: each pointer is good for its length, and the library keeps none of them.
    let answer = unsafe {
        card_plain(
            algorithm,
            key.as_ptr(),
            key.len(),
            iv.as_ptr(),
            iv.len(),
            buffer.as_mut_ptr(),
            buffer.len(),
            length,
            skip,
            &mut blocks,
        )
    };
    answered(answer, blocks)
}

#[cfg(feature = "conversion")]
pub fn converted(before: &[u8], after: &[u8], pairs: &[crate::Pair]) -> Result<(), Refusal> {
    let mut place = 0;
    // Safety: each pointer is good for its length, a pair is two numbers without a gap, and the library keeps none of
    // the pointers.
    let answer = unsafe {
        card_converted(
            before.as_ptr(),
            before.len(),
            after.as_ptr(),
            after.len(),
            pairs.as_ptr().cast(),
            2 * pairs.len(),
            &mut place,
        )
    };
    wipe::stack_below();
    let place = place as u8;
    match answered(answer, ()) {
        Err(Refusal::PairList { .. }) => Err(Refusal::PairList {
            pair: (place > 0).then_some(place),
        }),
        Err(Refusal::PairDiffers { .. }) => Err(Refusal::PairDiffers { pair: place }),
        answered => answered,
    }
}

pub fn record_read(text: &[u8]) -> Result<Record, Refusal> {
    let mut shown = [0; 8];
    let mut key = Key::from([0; KEY_BYTES]);
    let mut used = 0;
    let mut line = 0;
    let mut column = 0;
    // Safety: each pointer is good for its length, and the library keeps none of them.
    let answer = unsafe {
        card_record_read(
            text.as_ptr(),
            text.len(),
            shown.as_mut_ptr(),
            key.bytes_mut().as_mut_ptr(),
            &mut used,
            &mut line,
            &mut column,
        )
    };
    wipe::stack_below();
    let [number, fields @ ..] = shown;
    match answered(answer, ()) {
        Err(Refusal::RecordText { .. }) => Err(Refusal::RecordText {
            form: if text.first() == Some(&b'f') { 2 } else { 1 },
            line: line as u8,
            column: column as u8,
        }),
        Err(refusal) => Err(refusal),
        Ok(()) => Ok(Record {
            number,
            fields: Fields::reported(fields)?,
            key,
            length: used,
        }),
    }
}

pub fn record_write(
    number: u64,
    asked: &Asked,
    key: &[u8; KEY_BYTES],
    buffer: &mut [u8],
) -> Result<usize, Refusal> {
    let mut length = 0;
    // Safety: each pointer is good for its length, and the library keeps none of them.
    let answer = unsafe {
        card_record_write(
            number,
            asked.version,
            asked.algorithm,
            asked.usage,
            asked.side,
            asked.place,
            asked.mcc,
            asked.mnc,
            key.as_ptr(),
            buffer.as_mut_ptr(),
            buffer.len(),
            &mut length,
        )
    };
    wipe::stack_below();
    answered(answer, length)
}

/// The listing's length, and the listing at the front of the bytes.
pub fn slotlist(sheet: &[u8]) -> (usize, [u8; LISTING_BYTES]) {
    let mut buffer = [0; LISTING_BYTES];
    // Safety: each pointer is good for its length, and the library keeps none of them.
    let length = unsafe {
        card_slotlist(
            sheet.as_ptr(),
            sheet.len(),
            buffer.as_mut_ptr(),
            buffer.len(),
        )
    };
    wipe::stack_below();
    (length, buffer)
}

/// Start, length and skip of the first piece and of the second.
pub fn plan(pdu: &Pdu, flag: bool) -> Result<[usize; 6], Refusal> {
    let mut pieces = [0; 6];
    // Safety: the pointer is good for six numbers, and the library doesn't keep it.
    let answer = unsafe {
        card_plan(
            pdu.kind.into(),
            pdu.state.into(),
            flag.into(),
            pdu.length_bits,
            pdu.address_bit,
            pdu.sdu_bit,
            pieces.as_mut_ptr(),
        )
    };
    answered(answer, pieces)
}

/// Overwrites a value in a way that the compiler can't leave out. The old value isn't dropped.
pub fn overwrite<T>(place: &mut T, with: T) {
    // Safety: the reference is good for a write.
    unsafe { ptr::write_volatile(place, with) };
    compiler_fence(Ordering::SeqCst);
}

#[cfg(test)]
mod tests {
    use std::mem::{offset_of, ManuallyDrop};

    use super::*;
    use crate::key::KeyBytes;
    use crate::table::Slots;
    use crate::{PduKind, PduState, SLOTS};

    const FILLED: Slot = Slot {
        version: 17,
        algorithm: 6,
        usage: 1,
        side: 1,
        place: 28,
        mcc: 262,
        mnc: 1001,
        key: [0xab; KEY_BYTES],
    };

    #[test]
    fn a_slot_lies_in_memory_as_in_c() {
        assert_eq!(size_of::<Slot>(), 34);
        assert_eq!(align_of::<Slot>(), 2);
        assert_eq!(offset_of!(Slot, version), 0);
        assert_eq!(offset_of!(Slot, algorithm), 2);
        assert_eq!(offset_of!(Slot, usage), 3);
        assert_eq!(offset_of!(Slot, side), 4);
        assert_eq!(offset_of!(Slot, place), 5);
        assert_eq!(offset_of!(Slot, mcc), 6);
        assert_eq!(offset_of!(Slot, mnc), 8);
        assert_eq!(offset_of!(Slot, key), 10);
    }

    /// The bytes at a value's place after it was dropped.
    fn dropped<T, const N: usize>(value: T) -> [u8; N] {
        assert_eq!(size_of::<T>(), N);
        let mut value = ManuallyDrop::new(value);
        // Safety: dropped once, and the place is still the value's, N bytes without a gap.
        unsafe {
            ManuallyDrop::drop(&mut value);
            ptr::read((&raw const value).cast())
        }
    }

    #[test]
    fn dropped_slots_are_zeros() {
        assert_eq!(dropped(Slots([FILLED; SLOTS])), [0; 1088]);
    }

    #[test]
    fn a_dropped_key_is_zeros() {
        assert_eq!(dropped(KeyBytes([0xab; KEY_BYTES])), [0; KEY_BYTES]);
    }

    /// The card refuses a lent list of another length, in every call, and changes nothing.
    #[test]
    fn thirty_one_slots_are_no_table() {
        let asked = Asked {
            version: 0,
            algorithm: 5,
            usage: 1,
            side: 0,
            place: 0,
            mcc: 0,
            mnc: 0,
        };
        let span = Span {
            start: 0,
            length: 8,
            skip: 0,
        };
        let whole = Pdu {
            kind: PduKind::DmacData,
            state: PduState::Sdu,
            length_bits: 8,
            address_bit: 0,
            sdu_bit: 0,
        };
        for slots in [0, 31, 33] {
            let mut table = vec![FILLED; slots];
            let mut buffer = [7];
            let refused = Err(Refusal::Table);
            assert_eq!(load(&mut table, 1, &asked, &[1; KEY_BYTES]), refused);
            assert_eq!(move_slot(&mut table, 1, 2, 0), refused);
            assert_eq!(clear(&mut table, 1), refused);
            assert_eq!(read(&table, 1), Err(Refusal::Table));
            let ciphered = traffic(&table, 1, 1, &[0; 10], &mut buffer, span);
            assert_eq!(ciphered, Err(Refusal::Table));
            let ciphered = pdu(&table, 1, 1, &[0; 10], &mut buffer, &whole);
            assert_eq!(ciphered, Err(Refusal::Table));
            assert_eq!(buffer, [7]);
            assert!(table
                .iter()
                .all(|slot| slot.key == FILLED.key && slot.usage == 1));
        }
    }
}
