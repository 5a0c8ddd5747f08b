//! The numbers are those of include/card.h.

use std::collections::BTreeMap;

use card::{Algorithm, Direction, PduKind, PduState, Refusal, Use, KEEP};

const HEADER: &str = include_str!("../../../include/card.h");

/// The header's constants, `CARD_NAME = NUMBER`, without their prefix.
fn constants() -> BTreeMap<&'static str, u64> {
    let named = HEADER.split("CARD_").skip(1);
    let constant = |text: &'static str| {
        let (name, rest) = text.split_once(" = ")?;
        let letters = |byte: u8| byte.is_ascii_uppercase() || byte.is_ascii_digit() || byte == b'_';
        let end = rest.find(|letter: char| !letter.is_ascii_digit())?;
        name.bytes()
            .all(letters)
            .then_some((name, rest[..end].parse().ok()?))
    };
    named.filter_map(constant).collect()
}

const REFUSALS: [(&str, Refusal); 21] = [
    ("ALGORITHM", Refusal::Algorithm),
    ("BENCH_KEY", Refusal::BenchKey),
    ("IV_SIZE", Refusal::IvSize),
    ("LENGTH", Refusal::Length),
    ("BUFFER", Refusal::Buffer),
    ("SPAN", Refusal::Span),
    ("SLOT_NUMBER", Refusal::SlotNumber),
    ("SLOT_EMPTY", Refusal::SlotEmpty),
    ("TARGET_FILLED", Refusal::TargetFilled),
    ("CODE", Refusal::Code),
    ("SIDE_OR_PLACE", Refusal::SideOrPlace),
    ("DIRECTION", Refusal::Direction),
    ("IV_SIDE", Refusal::IvSide),
    ("USE_WIDER", Refusal::UseWider),
    ("RECORD_TEXT", Refusal::RecordText { form: 1, line: 1, column: 1 }),
    ("TABLE", Refusal::Table),
    ("RECORD_ROOM", Refusal::RecordRoom),
    ("PDU_CODE", Refusal::PduCode),
    ("PDU_PARTS", Refusal::PduParts),
    ("NETWORK", Refusal::Network),
    ("OUT_OF_SERVICE", Refusal::OutOfService),
];

#[test]
fn every_number_of_the_header_is_here() {
    let mut expected: BTreeMap<&str, u64> = BTreeMap::from([
        ("DONE", 0),
        ("SLOTS", card::SLOTS as u64),
        ("KEY_BYTES", card::KEY_BYTES as u64),
        ("IV_BYTES", card::IV_BYTES as u64),
        ("BUFFER_BYTES", card::BUFFER_BYTES as u64),
        ("KEYSTREAM_BITS", card::KEYSTREAM_BITS as u64),
        ("RECORD_BYTES", card::RECORD_BYTES as u64),
        ("LISTING_BYTES", card::LISTING_BYTES as u64),
        ("TEA5", Algorithm::Tea5.into()),
        ("TEA6", Algorithm::Tea6.into()),
        ("TEA7", Algorithm::Tea7.into()),
        ("KEEP", KEEP.number()),
        ("FOR_SENDING", Use::Send.into()),
        ("FOR_RECEIVING", Use::Receive.into()),
        ("FOR_BOTH", Use::Both.into()),
        ("SEND", Direction::Send.into()),
        ("RECEIVE", Direction::Receive.into()),
        ("DMAC_DATA", PduKind::DmacData.into()),
        ("DMAC_SYNC_SCH_H", PduKind::DmacSyncSchH.into()),
        ("DMAC_SYNC_SCH_S", PduKind::DmacSyncSchS.into()),
        ("ALL_CLEAR", PduState::AllClear.into()),
        ("AFTER_HEAD", PduState::AfterHead.into()),
        ("SDU", PduState::Sdu.into()),
        ("ADDRESS_AND_SDU", PduState::AddressAndSdu.into()),
    ]);
    expected.extend(REFUSALS.map(|(name, refusal)| (name, u64::from(refusal.number()))));
    assert_eq!(constants(), expected);
}

#[test]
fn as_much_is_wiped_as_from_c() {
    let wipe = include_str!("../../../include/card_wipe.h");
    let line = format!("#define CARD_WIPE_BYTES {}\n", card::WIPED_BYTES);
    assert!(wipe.contains(&line));
}
