//! The three headers of the sample.

use recording::bit_writer::BitWriter;
use wedgepetal::Session;

/// The bits of a limit of the loop filter, and the limit of every qi.
const LIMIT_BITS: u64 = 3;
const LIMIT: u64 = 5;

/// The bits of a scale, and the scale of every qi.
const SCALE_BITS: u32 = 7;
const SCALE: u64 = 100;

/// Every value of the base matrices: with scale 100 it makes a quantizer of
/// 32, so that a DC of 1 is a step of 1 in each of a block's samples.
const BASE_VALUE: u64 = 8;

/// The sample's identification fields.
pub fn session() -> Session {
    Session {
        vrev: 1,
        fmbw: 20,
        fmbh: 15,
        picw: 320,
        pich: 232,
        picx: 0,
        picy: 4,
        frn: 25,
        frd: 1,
        parn: 1,
        pard: 1,
        cs: 1,
        nombr: 0,
        qual: 48,
        kfgshift: 6,
        pf: 0,
        references: false,
        key_frames: 0,
        others: 0,
    }
}

/// The identification header.
pub fn identification_header() -> Vec<u8> {
    let s = session();
    let mut bytes = b"\x80theora\x03\x02".to_vec();
    for (value, width) in [
        (s.vrev, 1),
        (s.fmbw, 2),
        (s.fmbh, 2),
        (s.picw, 3),
        (s.pich, 3),
        (s.picx, 1),
        (s.picy, 1),
        (s.frn, 4),
        (s.frd, 4),
        (s.parn, 3),
        (s.pard, 3),
        (s.cs, 1),
        (s.nombr, 3),
        (s.qual << 10 | s.kfgshift << 5 | s.pf << 3, 2),
    ] {
        bytes.extend(&value.to_be_bytes()[8 - width..]);
    }
    bytes
}

/// A comment header with a name and no comments. Its lengths have the least
/// significant byte first.
pub fn comment_header() -> Vec<u8> {
    let name = b"wedgepetal sample";
    let length = (name.len() as u32).to_le_bytes();
    [&b"\x81theora"[..], &length, name, &[0; 4]].concat()
}

/// A setup header with one limit, one scale and one quantizer for everything,
/// and 80 equal trees in which every token has its number in 5 bits as its code.
pub fn setup_header() -> Vec<u8> {
    let mut bits = BitWriter::default();
    bits.put_bytes(b"\x82theora");
    bits.put(LIMIT_BITS, 3);
    for _ in 0..64 {
        bits.put(LIMIT, LIMIT_BITS as u32);
    }
    for _ in ["AC", "DC"] {
        bits.put(u64::from(SCALE_BITS - 1), 4);
        for _ in 0..64 {
            bits.put(SCALE, SCALE_BITS);
        }
    }
    // Two equal matrices: FFmpeg does not take a header with only one.
    bits.put(1, 9);
    for _ in 0..2 * 64 {
        bits.put(BASE_VALUE, 8);
    }
    // The first set has one range of 63, from matrix 0 to matrix 1; the five
    // others are like the one before.
    bits.put(0, 1);
    bits.put(62, 6);
    bits.put(1, 1);
    bits.put(0, 8);
    for _ in 0..80 {
        put_tree(&mut bits, 5, 0);
    }
    bits.into_bytes()
}

/// A full tree of this depth, whose leaves are numbered from this token on.
fn put_tree(bits: &mut BitWriter, depth: u32, token: u64) {
    if depth == 0 {
        bits.put(1, 1);
        bits.put(token, 5);
    } else {
        bits.put(0, 1);
        put_tree(bits, depth - 1, token);
        put_tree(bits, depth - 1, token + (1 << (depth - 1)));
    }
}

#[cfg(test)]
mod tests {
    use super::*;
    use wedgepetal::MatrixType;

    #[test]
    fn the_identification_header_reads_back() {
        let packet = identification_header();
        assert_eq!(packet.len(), 42);
        assert_eq!(wedgepetal::identification(&packet), Ok(session()));
    }

    #[test]
    fn the_setup_header_reads_back() {
        let table = wedgepetal::setup(&setup_header()).unwrap();
        assert_eq!(table.loop_limit(63), Ok(LIMIT));
        for kind in [MatrixType::Intra, MatrixType::Inter] {
            assert_eq!(table.matrix(kind, 2, 17), Ok([32; 64]));
        }
    }
}
