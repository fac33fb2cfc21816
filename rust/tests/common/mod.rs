//! Sessions and packets that the tests share.
#![allow(dead_code)]

use wedgepetal::{Session, Table, setup};

/// A session of so many macro blocks.
pub fn session(fmbw: u64, fmbh: u64, pf: u64) -> Session {
    Session {
        vrev: 1,
        fmbw,
        fmbh,
        picw: 16 * fmbw,
        pich: 16 * fmbh,
        picx: 0,
        picy: 0,
        frn: 25,
        frd: 1,
        parn: 0,
        pard: 0,
        cs: 0,
        nombr: 0,
        qual: 0,
        kfgshift: 6,
        pf,
        references: false,
        key_frames: 0,
        others: 0,
    }
}

/// An identification header of one macro block, of which this much is shown.
pub fn header(picture: [u8; 4]) -> Vec<u8> {
    let [width, height, left, bottom] = picture;
    let mut header = b"\x80theora\x03\x02\x01\x00\x01\x00\x01".to_vec();
    header.extend([0, 0, width, 0, 0, height, left, bottom]);
    header.extend([0, 0, 0, 25, 0, 0, 0, 1]); // 25 frames a second
    header.extend([0, 0, 0, 0, 0, 0, 0]); // aspect and colours unknown
    header.extend([0, 0, 0, 0, 0xC0]); // KFGSHIFT 6, 4:2:0
    header
}

/// A setup header as `table` has it.
pub fn setup_header() -> Vec<u8> {
    setup_packet(|i| if i < 16 { i as u8 } else { 0 })
}

/// A packet of these bits, written as 0 and 1; other characters are passed over.
pub fn packet(bits: &str) -> Vec<u8> {
    let bits: Vec<u8> = bits
        .bytes()
        .filter(|c| matches!(c, b'0' | b'1'))
        .map(|c| c - b'0')
        .collect();
    bits.chunks(8)
        .map(|byte| (0..8).fold(0, |sum, i| sum << 1 | byte.get(i).unwrap_or(&0)))
        .collect()
}

/// A setup header: limits 1, scales 1, one matrix of the value 0, one range.
/// Each tree is a lone leaf with the token that is given for its number.
pub fn setup_packet(token: impl Fn(usize) -> u8) -> Vec<u8> {
    let common: String = b"\x82theora".map(|byte| format!("{byte:08b}")).concat();
    let ones = "1".repeat(64);
    let trees: String = (0..80).map(|i| format!("1{:05b}", token(i))).collect();
    let parts = [
        &common,
        "001",
        &ones,
        "0000",
        &ones,
        "0000",
        &ones,
        "000000000",
        &"0".repeat(512),
        "111110",
        "00000000",
        &trees,
    ];
    packet(&parts.concat())
}

/// The bytes of a frame of one macro block: four luma blocks, Cb, Cr.
pub const BYTES: usize = 384;

/// Every tree is a lone leaf, so that a table choice is a token for each
/// block: at position 0 the token of the choice's number, then the end.
pub fn table() -> Table {
    setup(&setup_packet(|i| if i < 16 { i as u8 } else { 0 })).unwrap()
}

/// An intra frame of qi 3, whose blocks have the tokens of these choices.
pub fn intra(luma: u8, chroma: u8) -> Vec<u8> {
    packet(&format!(
        "0 0 000011 0 000 {luma:04b} {chroma:04b} 0000 0000"
    ))
}

/// An inter frame of qi 4, 5 and 6, all blocks coded in this mode and with qi 5.
pub fn inter(mode: u8, luma: u8, chroma: u8) -> Vec<u8> {
    let header = "0 1 000100 1 000101 1 000110";
    let (partly, fully, block_qi) = ("0 10 1", "1 10 1", "1 1110 00 0 1110 00");
    let modes = format!("111 {mode:03b} 1");
    packet(&format!(
        "{header} {partly} {fully} {modes} {block_qi} {luma:04b} {chroma:04b} 0000 0000"
    ))
}

/// An inter frame of qi 4 without a coded block.
pub fn inter_without_blocks() -> Vec<u8> {
    packet("0 1 000100 0 0 10 1 0 10 1 111 1 0000 0000 0000 0000")
}
