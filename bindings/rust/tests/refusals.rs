//! Every refusal is reached, is the second program's, prints its number, and leaves everything as it was.

mod common;

use std::collections::BTreeSet;
use std::fmt::Debug;

use card::{
    bench, plan, record_read, record_write, Algorithm, Asked, Direction, Pdu, PduKind, PduState,
    Refusal, Slot, Span, Table, Use, KEEP, SLOTS,
};
use common::{
    bytes, second_fields, second_pdu, second_span, second_table, shown, table, IV, KEY, WHOLE_BYTE,
};

const GOOD: Asked = asked(5, 3, 0, 28);

const fn asked(algorithm: u64, usage: u64, side: u64, place: u64) -> Asked {
    Asked {
        version: 1,
        algorithm,
        usage,
        side,
        place,
        mcc: 0,
        mnc: 0,
    }
}

/// In range but for a network code.
const OTHER_NETWORK: Asked = Asked { mcc: 1024, ..GOOD };

fn span(start: usize, length: usize, skip: usize) -> Span {
    Span {
        start,
        length,
        skip,
    }
}

/// The refusals that were reached.
#[derive(Default)]
struct Reached(BTreeSet<u8>);

impl Reached {
    /// A refusal with this number, which is the second program's too.
    fn refused<T: Debug>(&mut self, number: u8, card: Result<T, Refusal>, second: u64) {
        let refusal = card.expect_err("a refusal");
        assert_eq!(refusal.number(), number, "{refusal}");
        assert_eq!(second, u64::from(number), "the second program for {number}");
        let start = format!("refused with {number}: ");
        assert!(refusal.to_string().starts_with(&start), "{refusal}");
        assert!(refusal.to_string().contains("look"), "{refusal}");
        self.0.insert(number);
    }
}

/// Every bench call here is made to the card and to the second program with the same buffer.
fn benched(reached: &mut Reached) {
    let mut case = |number, algorithm: u64, key: &[u8], iv: &[u8], buffer: usize, length: usize| {
        let mut lent = bytes(buffer);
        let mut expected = bytes(buffer);
        let card = bench(algorithm, key, iv, &mut lent, length);
        let second = second::card::bench(algorithm, key, iv, &mut expected, length as u64);
        reached.refused(number, card, second.refusal);
        assert_eq!(lent, bytes(buffer));
        assert_eq!(expected, bytes(buffer));
    };
    case(1, 4, &KEY, &IV, 8, 64);
    case(1, u64::MAX, &[], &[], 0, 0);
    case(2, 5, &KEY[..23], &IV, 8, 64);
    case(2, 5, &[], &IV, 8, 64);
    case(3, 6, &KEY, &IV[..9], 8, 64);
    case(3, 6, &KEY, &[], 8, 64);
    case(4, 7, &KEY, &IV, 8, 0);
    case(4, 7, &KEY, &IV, 0, 8289);
    case(5, 7, &KEY, &IV, 8193, 8);
    case(6, 7, &KEY, &IV, 8, 65);
    case(6, 7, &KEY, &IV, 0, 1);
}

/// Calls of traffic on a table with a send key in slot 3.
fn trafficked(reached: &mut Reached) {
    let card = table(Algorithm::Tea5, Use::Send);
    let second = second_table(Algorithm::Tea5, Use::Send);
    let mut other_side = IV;
    other_side[3] ^= 0x08;
    let mut case = |refusal, direction: u64, slot, iv: &[u8], buffer: usize, span: Span| {
        let mut lent = bytes(buffer);
        let mut expected = bytes(buffer);
        let answer = second::card::traffic(
            &second,
            direction,
            slot,
            iv,
            &mut expected,
            second_span(span),
        );
        let traffic = card.traffic(direction, slot, iv, &mut lent, span);
        reached.refused(refusal, traffic, answer.refusal);
        assert_eq!(lent, bytes(buffer));
    };
    case(10, 0, 3, &IV, 4, WHOLE_BYTE);
    case(10, 3, 33, &IV, 4, WHOLE_BYTE);
    case(7, 1, 0, &IV, 4, WHOLE_BYTE);
    case(7, 1, u64::MAX, &IV, 4, WHOLE_BYTE);
    case(8, 2, 4, &IV, 4, WHOLE_BYTE);
    case(12, 2, 3, &other_side, 4, WHOLE_BYTE);
    case(12, 2, 3, &IV[..9], 4, WHOLE_BYTE);
    case(3, 1, 3, &IV[..9], 4, WHOLE_BYTE);
    case(3, 1, 3, &[0; 11], 4, WHOLE_BYTE);
    case(13, 1, 3, &other_side, 8193, WHOLE_BYTE);
    case(5, 1, 3, &IV, 8193, WHOLE_BYTE);
    case(4, 1, 3, &IV, 4, span(0, 0, 0));
    case(4, 1, 3, &IV, 4, span(usize::MAX, usize::MAX, usize::MAX));
    case(4, 1, 3, &IV, 4, span(0, 8, 8281));
    case(6, 1, 3, &IV, 4, span(25, 8, 0));
    case(6, 1, 3, &IV, 4, span(usize::MAX, 8, 0));
    case(6, 1, 3, &IV, 0, span(0, 1, 0));
    assert_eq!(shown(&card), shown(&table(Algorithm::Tea5, Use::Send)));
}

/// Sends with a key of TEA6 in slot 3, for each use, by either call: 21 comes after 12 and before 3.
fn sent_out_of_service(reached: &mut Reached) {
    for (usage, refusal) in [(Use::Send, 21), (Use::Receive, 12), (Use::Both, 21)] {
        let card = table(Algorithm::Tea6, usage);
        let second = second_table(Algorithm::Tea6, usage);
        let mut lent = bytes(16);
        let span = second_span(WHOLE_BYTE);
        let answer = second::card::traffic(&second, 1, 3, &IV, &mut bytes(16), span).refusal;
        let sent = card.traffic(1, 3, &IV, &mut lent, WHOLE_BYTE);
        reached.refused(refusal, sent, answer);
        let short = &IV[..9];
        let whole = second_pdu(&GOOD_PDU);
        let answer = second::pdu::pdu(&second, 1, 3, short, &mut bytes(16), &whole).refusal;
        reached.refused(refusal, card.pdu(1, 3, short, &mut lent, &GOOD_PDU), answer);
        assert_eq!(lent, bytes(16));
    }
}

/// Loads and moves on a table with a send key in slot 3, and what the table shows after each.
fn loaded_and_moved(reached: &mut Reached) {
    let mut card = table(Algorithm::Tea5, Use::Send);
    let mut second = second_table(Algorithm::Tea5, Use::Send);
    let before = shown(&card);

    let mut load = |number, slot, asked: Asked| {
        let answer = second::slots::load(&mut second, slot, &second_fields(asked), &[9; 24]);
        reached.refused(number, card.load(slot, asked, &[9; 24]), answer);
    };
    load(7, 33, asked(4, 3, 0, 28));
    load(1, 3, asked(261, 4, 0, 28));
    load(21, 4, asked(6, 3, 0, 28));
    load(21, 3, asked(6, 0, 2, 80));
    load(10, 4, asked(5, 0, 2, 28));
    load(11, 4, asked(5, 3, 2, 28));
    load(11, 3, asked(5, 3, 0, 80));
    load(11, 4, asked(5, 3, 0, 256));
    load(11, 4, Asked { place: 80, ..OTHER_NETWORK });
    load(20, 3, OTHER_NETWORK);
    load(20, 4, Asked { mnc: 16384, ..GOOD });
    load(9, 3, GOOD);

    let mut moved = |number, from, to, asked: u64| {
        let answer = second::slots::move_slot(&mut second, from, to, asked);
        reached.refused(number, card.move_slot(from, to, asked), answer);
    };
    moved(7, 33, 4, 0);
    moved(7, 3, 0, 9);
    moved(8, 4, 5, 9);
    moved(9, 3, 3, 9);
    moved(10, 3, 4, 4);
    moved(14, 3, 4, 2);
    moved(14, 3, 4, 3);

    reached.refused(7, card.clear(0), second::slots::clear(&mut second, 0));
    reached.refused(8, card.clear(4), second::slots::clear(&mut second, 4));
    reached.refused(7, card.read(33), second::slots::read(&second, 33).refusal);
    reached.refused(8, card.read(32), second::slots::read(&second, 32).refusal);
    assert_eq!(shown(&card), before);
    same_key(&card);
}

/// The key in slot 3 is still the one that was loaded.
fn same_key(card: &Table) {
    let mut sent = bytes(64);
    let mut expected = bytes(64);
    let span = span(0, 512, 0);
    card.traffic(Direction::Send, 3, &IV, &mut sent, span)
        .unwrap();
    let second = second_table(Algorithm::Tea5, Use::Send);
    second::card::traffic(&second, 1, 3, &IV, &mut expected, second_span(span));
    assert_eq!(sent, expected);
}

fn tables_from_c(reached: &mut Reached) {
    let slot = |change: fn(&mut Slot)| {
        let mut slots = vec![Slot::EMPTY; SLOTS];
        change(&mut slots[31]);
        slots
    };
    let filled = |slot: &mut Slot| {
        (slot.algorithm, slot.usage, slot.place) = (6, 3, 79);
        slot.key = KEY;
    };
    let good = Table::try_from(&slot(filled)[..]).unwrap();
    assert_eq!(good.read(32).unwrap().place, 79);

    let bad: [fn(&mut Slot); 6] = [
        |slot| slot.mnc = 1,
        |slot| (slot.algorithm, slot.usage, slot.mcc) = (6, 3, 1024),
        |slot| slot.key[23] = 1,
        |slot| slot.version = 1,
        |slot| (slot.algorithm, slot.usage, slot.place) = (6, 3, 80),
        |slot| (slot.algorithm, slot.usage) = (6, 4),
    ];
    for change in bad {
        let slots = slot(change);
        let second: Vec<_> = slots.iter().map(second_slot).collect();
        let expected = second::slots::read(&second, 1).refusal;
        reached.refused(16, Table::try_from(&slots[..]), expected);
    }
    for count in [0, 1, 31, 33] {
        let slots = vec![Slot::EMPTY; count];
        let second: Vec<_> = slots.iter().map(second_slot).collect();
        let expected = second::slots::read(&second, 1).refusal;
        reached.refused(16, Table::try_from(&slots[..]), expected);
    }
}

fn second_slot(slot: &Slot) -> second::slots::Slot {
    second::slots::Slot {
        version: slot.version.into(),
        algorithm: slot.algorithm.into(),
        usage: slot.usage.into(),
        side: slot.side.into(),
        place: slot.place.into(),
        mcc: slot.mcc.into(),
        mnc: slot.mnc.into(),
        key: slot.key,
    }
}

fn records(reached: &mut Reached) {
    // The second program gives the line; the number of a bad text is 15.
    assert!(second::records::parse(b"number=33\n").is_err());
    reached.refused(
        15,
        record_read(b"number=33\n"),
        second::refusals::RECORD_BAD,
    );

    let mut write = |number, slot, asked: Asked, room: usize| {
        let mut lent = bytes(room);
        let answer =
            second::records::write(slot, &second_fields(asked), &KEY, &mut bytes(room)).refusal;
        reached.refused(number, record_write(slot, asked, &KEY, &mut lent), answer);
        assert_eq!(lent, bytes(room));
    };
    write(7, 0, asked(4, 3, 0, 28), 0);
    write(1, 1, asked(8, 3, 0, 28), 0);
    write(10, 1, asked(5, 4, 0, 80), 0);
    write(11, 1, asked(5, 3, 0, 80), 0);
    write(20, 1, OTHER_NETWORK, 0);
    write(17, 1, GOOD, 123);
    write(17, 1, GOOD, 0);
}

const GOOD_PDU: Pdu = Pdu {
    kind: PduKind::DmacData,
    state: PduState::AddressAndSdu,
    length_bits: 124,
    address_bit: 10,
    sdu_bit: 50,
};

fn pdu(length_bits: usize, address_bit: usize, sdu_bit: usize) -> Pdu {
    Pdu {
        length_bits,
        address_bit,
        sdu_bit,
        ..GOOD_PDU
    }
}

fn plans(reached: &mut Reached) {
    let mut case = |number, pdu: Pdu| {
        let second = second::plan::plan(&second::plan::Pdu {
            kind: pdu.kind.into(),
            state: pdu.state.into(),
            flag: 0,
            length: pdu.length_bits as u64,
            address: pdu.address_bit as u64,
            sdu: pdu.sdu_bit as u64,
        });
        reached.refused(number, plan(&pdu, false), second.refusal);
    };
    case(18, pdu(8289, 10, 50));
    case(19, pdu(124, 10, 33));
    case(19, pdu(124, 10, 125));
    case(19, pdu(8288, 0, 50));
    case(19, pdu(124, usize::MAX, 50));
}

/// A PDU in a buffer of so many bytes, with the key for sending.
fn pdus(reached: &mut Reached) {
    let card = table(Algorithm::Tea5, Use::Send);
    let second_card = second_table(Algorithm::Tea5, Use::Send);
    let mut case = |number, direction: u64, slot, iv: &[u8], count, pdu: Pdu| {
        let before = bytes(count);
        let (mut buffer, mut second_buffer) = (before.clone(), before.clone());
        let second = second::pdu::pdu(
            &second_card,
            direction,
            slot,
            iv,
            &mut second_buffer,
            &second_pdu(&pdu),
        );
        let answer = card.pdu(direction, slot, iv, &mut buffer, &pdu);
        reached.refused(number, answer, second.refusal);
        assert_eq!(buffer, before);
    };
    case(10, 3, 3, &IV, 16, GOOD_PDU);
    case(7, 1, 33, &IV, 16, GOOD_PDU);
    case(8, 1, 4, &IV, 16, GOOD_PDU);
    case(12, 2, 3, &IV, 16, GOOD_PDU);
    case(3, 1, 3, &IV[..9], 16, GOOD_PDU);
    case(13, 1, 3, &[0xff; 10], 16, GOOD_PDU);
    case(5, 1, 3, &IV, 8193, GOOD_PDU);
    case(6, 1, 3, &IV, 15, GOOD_PDU);
    case(6, 1, 3, &IV, 16, pdu(8289, 10, 50));
    case(18, 1, 3, &IV, 1037, pdu(8289, 10, 50));
    case(19, 1, 3, &IV, 16, pdu(124, 10, 33));
}

#[test]
fn every_refusal_is_reached_and_changes_nothing() {
    let mut reached = Reached::default();
    benched(&mut reached);
    trafficked(&mut reached);
    sent_out_of_service(&mut reached);
    loaded_and_moved(&mut reached);
    tables_from_c(&mut reached);
    records(&mut reached);
    plans(&mut reached);
    pdus(&mut reached);
    assert_eq!(reached.0, (1..=21).collect());
}

#[test]
fn numbers_are_codes_or_the_cards_refusal() {
    for number in 0..300 {
        match Algorithm::try_from(number) {
            Ok(algorithm) => assert_eq!(u64::from(algorithm), number),
            Err(refusal) => {
                assert_eq!(refusal, Refusal::Algorithm);
                assert_eq!(bench(number, &KEY, &IV, &mut [0], 8), Err(refusal));
            }
        }
        match Use::try_from(number) {
            Ok(usage) => assert_eq!(u64::from(usage), number),
            Err(refusal) => {
                assert_eq!(refusal, Refusal::Code);
                let asked = asked(5, number, 0, 28);
                assert_eq!(Table::new().load(1, asked, &KEY), Err(refusal));
            }
        }
        match Direction::try_from(number) {
            Ok(direction) => assert_eq!(u64::from(direction), number),
            Err(refusal) => {
                assert_eq!(refusal, Refusal::Code);
                let card = table(Algorithm::Tea5, Use::Both);
                let traffic = card.traffic(number, 3, &IV, &mut [0], WHOLE_BYTE);
                assert_eq!(traffic, Err(refusal));
            }
        }
        match PduKind::try_from(number) {
            Ok(kind) => assert_eq!(u64::from(kind), number),
            Err(refusal) => assert_eq!(refusal, Refusal::PduCode),
        }
        match PduState::try_from(number) {
            Ok(state) => assert_eq!(u64::from(state), number),
            Err(refusal) => assert_eq!(refusal, Refusal::PduCode),
        }
    }
    assert_eq!(KEEP.number(), 0);
}

/// A plain integer in a code's place is any number of 64 bits.
#[test]
fn a_typed_number_stands_in_a_codes_place() {
    let mut card = table(Algorithm::Tea5, Use::Both);
    card.move_slot(3, 4, 3).unwrap();
    card.move_slot(4, 3, 1).unwrap();
    card.move_slot(3, 4, 0).unwrap();
    card.move_slot(4, 3, 0).unwrap();
    assert_eq!(card.read(3).unwrap().usage, Use::Send);
    assert_eq!(card.traffic(1, 3, &IV, &mut [0], WHOLE_BYTE), Ok(1));
    assert_eq!(bench(5, &KEY, &IV, &mut [0], 8), Ok(1));
}

/// The refusal is an error like any other, and its line and column can be matched.
#[test]
fn a_refusal_is_an_error() {
    fn loaded(text: &[u8]) -> Result<Table, Box<dyn std::error::Error>> {
        let record = record_read(text)?;
        let mut table = Table::new();
        table.load(record.number, record.fields, &record.key)?;
        Ok(table)
    }
    let error = loaded(b"number=3\nversion=17\nalg=TEA6\nuse=sent\n").unwrap_err();
    assert_eq!(
        error.to_string(),
        "refused with 15: line 4 of the record is wrong or cut short at column 5; \
         look there: the line should be use= and SEND, RECV or BOTH"
    );
}
