//! The wrapper over the static library: values that the rules fix.
#![allow(missing_docs)]

mod common;

use common::{session, setup_packet};
use wedgepetal::{
    Block, MacroBlock, MatrixType, Refusal, Session, Table, identification, lists, setup,
};

fn luma(x: u64, y: u64) -> Block {
    Block { plane: 0, x, y }
}

#[test]
fn block_3_3_is_10() {
    let session = session(2, 2, 0);
    assert_eq!(session.block_number(luma(3, 3)), Ok(10));
    assert_eq!(session.block_at(10), Ok(luma(3, 3)));
}

#[test]
fn luma_of_240_by_48_samples() {
    let session = session(15, 3, 0);
    assert_eq!(session.block_number(luma(0, 4)), Ok(120));
    assert_eq!(session.block_number(luma(3, 5)), Ok(124));
}

#[test]
fn sizes_beyond_32_bits() {
    let sizes = session(4096, 4097, 0).sizes().unwrap();
    assert_eq!(sizes.planes[0].length, 4_296_015_872);
    assert_eq!(sizes.blocks, 100_687_872);
    let sizes = session(65535, 65535, 3).sizes().unwrap();
    assert_eq!(sizes.blocks, 51_538_034_700);
    assert_eq!(sizes.buffer, 64 * 51_538_034_700);
}

#[test]
fn macro_blocks_and_samples() {
    let session = session(3, 2, 2);
    let upper_right = MacroBlock { x: 1, y: 1 };
    assert_eq!(session.macro_block_at(2), Ok(upper_right));
    assert_eq!(session.macro_block_number(upper_right), Ok(2));
    let chroma = Block {
        plane: 1,
        x: 1,
        y: 3,
    };
    assert_eq!(session.macro_block_of(chroma), Ok(upper_right));
    let cb = 48 * 32;
    assert_eq!(
        session.sample_offset(chroma, 2, 1),
        Ok(cb + 25 * 24 + 8 + 2)
    );
}

#[test]
fn red_green_and_blue() {
    let mut session = session(1, 1, 3);
    session.cs = 2;
    // The top row is the last of the planes: red, and black below it.
    let plane = |low: u8, top: u8| [vec![low; 240], vec![top; 16]].concat();
    let planes = [plane(16, 81), plane(128, 90), plane(128, 240)].concat();
    let mut out = vec![9; 770];
    assert_eq!(session.rgb(&planes, &mut out), Ok(768));
    assert!(out[..48].chunks(3).all(|pixel| pixel == [254, 0, 0]));
    assert!(out[48..768].iter().all(|byte| *byte == 0));
    assert_eq!(out[768..], [9, 9]);
    let mut short = vec![9; 767];
    assert_eq!(session.rgb(&planes, &mut short), Err(Refusal::SHORT_OUTPUT));
    session.cs = 0;
    assert_eq!(
        session.rgb(&planes, &mut short),
        Err(Refusal::UNKNOWN_COLOUR)
    );
    assert_eq!(
        session.rgb(&planes[1..], &mut short),
        Err(Refusal::WRONG_LENGTH)
    );
    session.fmbh = 0;
    assert_eq!(session.rgb(&planes, &mut short), Err(Refusal::NOT_GENUINE));
    assert_eq!(short, [9; 767]);
}

#[test]
fn tables() {
    let packet = setup_packet(|_| 7);
    let table = setup(&packet).unwrap();
    assert_eq!(table.bytes().len(), lists::TABLE_BYTES);
    assert_eq!(Table::from_bytes(table.bytes()), Ok(table.clone()));
    assert_eq!(table.loop_limit(63), Ok(1));
    assert_eq!(table.loop_limit(64), Err(Refusal::ABSENT));
    let mut least = [8; 64];
    least[0] = 16;
    assert_eq!(table.matrix(MatrixType::Intra, 2, 63), Ok(least));
    let inter = table.matrix(MatrixType::Inter, 0, 0).unwrap();
    assert_eq!(inter[..2], [32, 16]);
    let plane = table.matrix(MatrixType::Inter, 3, 0);
    assert_eq!(plane, Err(Refusal::ABSENT));
}

#[test]
fn what_is_no_setup_header_or_table() {
    let packet = setup_packet(|_| 7);
    // In the token of the last tree; the packet's 1,274 bits fill 160 bytes.
    let cut = setup(&packet[..packet.len() - 1]);
    assert_eq!(cut, Err(Refusal::PACKET_ENDS.at(1269)));
    assert_eq!(setup(b"\x80theora"), Err(Refusal::OTHER_HEADER));
    assert_eq!(setup(b"\x82theorA"), Err(Refusal::OTHER_HEADER.at(48)));
    let mut bytes = setup(&packet).unwrap().bytes().to_vec();
    bytes[lists::TABLE_BYTES - 1] = 1;
    assert_eq!(Table::from_bytes(&bytes), Err(Refusal::NOT_GENUINE));
    bytes.pop();
    assert_eq!(Table::from_bytes(&bytes), Err(Refusal::WRONG_LENGTH));
    let mut place = [7];
    assert_eq!(lists::setup(&packet, &mut bytes, &mut place), 1);
    assert_eq!((bytes[0], place), (0x82, [0]));
    bytes.push(7);
    assert_eq!(lists::setup(&packet[..50], &mut bytes, &mut []), 1);
    assert_eq!(bytes[0], 0x82);
    // In a number of the base matrix.
    assert_eq!(lists::setup(&packet[..50], &mut bytes, &mut place), 4);
    assert_eq!((bytes, place), (vec![0; lists::TABLE_BYTES], [396]));
}

#[test]
fn refusals() {
    assert_eq!(identification(b""), Err(Refusal::PACKET_ENDS));
    assert_eq!(session(1, 1, 1).sizes(), Err(Refusal::NOT_GENUINE));
    assert_eq!(session(1, 1, 0).block_at(6), Err(Refusal::ABSENT));
    assert_eq!(lists::sizes(&[0; 18], &mut []), 1);
    assert_eq!(lists::sizes(&[0; 19], &mut []), 8);
    assert_eq!(lists::sizes(&session(1, 1, 0).to_list(), &mut []), 1);
    let (mut list, mut place) = ([7; 19], [7; 2]);
    assert_eq!(
        lists::identification(&[], &mut list[1..], &mut place[1..]),
        1
    );
    assert_eq!(lists::identification(&[], &mut list, &mut place), 1);
    assert_eq!((list, place), ([7; 19], [7; 2]));
    assert_eq!(
        lists::identification(&[0x80; 2], &mut list, &mut place[1..]),
        2
    );
    assert_eq!((list, place), ([7; 19], [7, 8]));
}

#[test]
fn sessions_are_lists() {
    let mut with_references = session(3, 2, 3);
    with_references.references = true;
    with_references.key_frames = u64::MAX;
    with_references.others = 63;
    let list = with_references.to_list();
    assert_eq!(list[16..], [1, u64::MAX, 63]);
    assert_eq!(Session::from_list(&list), with_references);
    // KFGSHIFT is 6.
    assert!(with_references.sizes().is_ok());
    with_references.others = 64;
    assert_eq!(with_references.sizes(), Err(Refusal::NOT_GENUINE));
    assert_eq!(with_references.block_at(0), Err(Refusal::NOT_GENUINE));
    assert_eq!(with_references.work_lengths(), Err(Refusal::NOT_GENUINE));
}

#[test]
fn every_number_has_a_meaning() {
    let unknown = Refusal::by(15).meaning();
    for number in (1..=14).chain([17, 18, 255]) {
        assert_ne!(Refusal::by(number).meaning(), unknown);
    }
    let with_place = (0..=255).filter(|number| Refusal::by(*number).has_place());
    assert!(with_place.eq((2..=7).chain(9..=13)));
}
