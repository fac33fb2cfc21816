//! Whole frame packets, written by hand.

use super::super::layout::tests::layout;
use super::super::trees::Code;
use super::codebook::Codebook;
use super::record::{Prediction, Vector};
use super::*;
use recording::bit_writer::BitWriter;

/// 80 tables in which a token's code is its number in five bits.
fn flat() -> Codebooks {
    let code = |token| Code {
        bits: token,
        length: 5,
        token,
    };
    let codes = (0..32).map(code).collect();
    (0..80).map(|_| Codebook::new(&codes)).collect()
}

/// 80 lone leaves of this token.
fn lone(token: u64) -> Codebooks {
    let code = Code {
        bits: 0,
        length: 0,
        token,
    };
    (0..80).map(|_| Codebook::new(&vec![code])).collect()
}

/// Fields, as values and widths.
fn packet(fields: &[(u64, u32)]) -> BitWriter {
    let mut bits = BitWriter::default();
    fields.iter().for_each(|field| bits.put(field.0, field.1));
    bits
}

/// The header of an intra frame with qi 9 and the choices of position 0.
const INTRA: [(u64, u32); 3] = [(9, 8), (0, 4), (0, 8)];

/// An inter frame of one macro block in 4:2:0 with qi 9, all coded in this
/// mode, up to the choices of position 0: a raw mode and variable vectors.
fn inter(mode: u64, vectors: &[(u64, u32)]) -> Vec<(u64, u32)> {
    // 1 1, then qi 9 alone; three super blocks not partly, but fully coded
    let mut fields = vec![(0x40 + 9, 8), (0, 1), (0b0_101, 4), (0b1_101, 4)];
    fields.extend([(7, 3), (mode, 3), (0, 1)]);
    fields.extend(vectors);
    fields.push((0, 8));
    fields
}

/// Reads a packet of one macro block.
fn read_one(
    codebooks: &Codebooks,
    references: bool,
    packet: &[u8],
) -> Result<FramePacket, FrameFault> {
    read(&layout(1, 1, 0), codebooks, references, packet)
}

fn intra(tokens: &[(u64, u32)]) -> Result<FramePacket, FrameFault> {
    let fields = [&INTRA, tokens].concat();
    let bits = packet(&fields);
    let read = read_one(&flat(), false, bits.bytes())?;
    assert_eq!(read.bits, bits.length());
    Ok(read)
}

#[test]
fn an_empty_packet_repeats_or_is_9() {
    let repeat = read_one(&flat(), true, &[]).unwrap();
    assert_eq!(repeat.kind, Kind::Repeat);
    assert_eq!((repeat.qis.len(), repeat.tokens, repeat.bits), (0, 0, 0));
    assert_eq!(repeat.flags, [false; 6]);
    let fault = read_one(&flat(), false, &[]).unwrap_err();
    assert_eq!(fault, FrameFault::new(9, 0, Field::Packet));
}

#[test]
fn one_token_ends_all_blocks() {
    // Token 6 with 0; then the choices of position 1.
    let read = intra(&[(6, 5), (0, 12), (0, 8)]).unwrap();
    assert_eq!(read.kind, Kind::Intra);
    assert_eq!(read.qis, [9]);
    assert_eq!(read.tokens, 1);
    assert_eq!(read.last_visits, [0; 6]);
    assert_eq!(read.coefficients, [[0; 64]; 6]);
    assert_eq!(read.coded, [0, 1, 3, 2, 4, 5]);
    assert_eq!(read.modes, [Mode::Intra]);
    let record = Record {
        coded: true,
        ..Record::UNCODED
    };
    assert_eq!(read.records, [record; 6]);
}

#[test]
fn blocks_are_visited_in_coded_order_at_each_position() {
    let read = intra(&[
        (9, 5), // 0: 1
        (23, 5),
        (1, 1), // 1: 0 −1, then at 2
        (7, 5),
        (3, 3),  // 2: four zeros, then at 4
        (0, 5),  // 3: ends
        (12, 5), // 4: −2
        (1, 5),  // 5 ends, and the next one that is visited
        (0, 8),  // choices at 1: block 0 is ended by the run
        (11, 5), // 4: 2
        (8, 5),
        (61, 6), // at 2, block 1: 62 zeros, to 64
        (6, 5),
        (0, 12), // block 4 at 2: ends all, block 2 at 4 too
    ]);
    let read = read.unwrap();
    assert_eq!(read.tokens, 9);
    let sparse = |places: &[(usize, i16)]| {
        let mut block = [0; 64];
        places.iter().for_each(|place| block[place.0] = place.1);
        block
    };
    assert_eq!(
        read.coefficients,
        [
            sparse(&[(0, 1)]),
            sparse(&[(1, -1)]),
            [0; 64],
            [0; 64],
            sparse(&[(0, -2), (1, 2)]),
            [0; 64],
        ]
    );
    assert_eq!(read.last_visits, [1, 2, 4, 0, 2, 0]);
}

#[test]
fn a_run_left_at_the_end_is_no_fault() {
    let read = intra(&[(6, 5), (4095, 12), (0, 8)]).unwrap();
    assert_eq!((read.tokens, read.last_visits), (1, vec![0; 6]));
    // Five blocks are ended at 0, the sixth goes on to 63 and is ended there.
    let read = intra(&[(2, 5), (1, 5), (8, 5), (62, 6), (0, 8), (5, 5), (15, 4)]).unwrap();
    assert_eq!((read.tokens, read.last_visits[5]), (4, 63));
}

#[test]
fn groups_have_their_tables() {
    // Table 16·group + choice is a lone leaf; only luma 3 and chroma 5 are good.
    let mut codebooks = lone(31);
    for (group, token) in [(0, 9), (1, 9), (2, 9), (3, 9), (4, 9)] {
        codebooks[16 * group + 3] = lone(token).swap_remove(0);
        codebooks[16 * group + 5] = lone(0).swap_remove(0);
    }
    codebooks[16 + 7] = lone(12).swap_remove(0);
    codebooks[32 + 7] = lone(0).swap_remove(0);
    // Luma 3 at 0, then 7: values at 0 to 5, ended at 6. Chroma ends at 0.
    let bits = packet(&[(9, 8), (0, 4), (3, 4), (5, 4), (7, 4), (2, 4)]);
    let read = read_one(&codebooks, false, bits.bytes()).unwrap();
    assert_eq!(read.bits, bits.length());
    assert_eq!(read.tokens, 4 * 7 + 2);
    assert_eq!(read.last_visits, [6, 6, 6, 6, 0, 0]);
    assert_eq!(read.coefficients[0][..7], [1, -2, -2, -2, -2, -2, 0]);
}

#[test]
fn a_lone_leaf_can_give_64_tokens_for_every_block() {
    let bits = packet(&[(9, 8), (0, 4), (0, 16)]);
    let read = read_one(&lone(9), false, bits.bytes()).unwrap();
    assert_eq!(read.tokens, 64 * 6);
    assert_eq!(read.last_visits, [63; 6]);
    assert_eq!(read.coefficients, [[1; 64]; 6]);
    assert_eq!(read.bits, 28);
}

#[test]
fn past_position_64_is_13_at_the_huffman_code() {
    let first = 12 + 8;
    let past = |place| FrameFault::new(13, place, Field::Token);
    // 64 zeros reach 64 exactly; then the second block has none left.
    assert_eq!(intra(&[(8, 5), (63, 6)]).unwrap_err().fault.number, 4);
    // A value, then 64 zeros from position 1.
    let fields = [(9, 5), (0, 5), (2, 5), (0, 5), (0, 8), (8, 5), (63, 6)];
    assert_eq!(intra(&fields).unwrap_err(), past(first + 28));
    // The same, cut before its last bit: 4 before it is judged.
    let bits = packet(&[&INTRA[..], &fields].concat());
    let cut = read_one(&flat(), false, &bits.bytes()[..7]).unwrap_err();
    assert_eq!(cut, FrameFault::new(4, first + 28, Field::Token));
    // 17 zeros and a 1 from position 47 pass the end by one, from 46 not.
    for (zeros, good) in [(45, true), (46, false)] {
        let fields = [
            (8, 5),
            (zeros, 6),
            (2, 5),
            (1, 5),
            (0, 8),
            (29, 5),
            (0, 1),
            (7, 3),
        ];
        assert_eq!(intra(&fields).is_ok(), good);
    }
}

#[test]
fn inter_frames_without_coded_blocks_read_all_choices() {
    // Not partly, not fully; scheme 0 with eight ranks, the vector bit, choices.
    let bits = packet(&[
        (0x40 + 9, 8),
        (0, 1),
        (0b0_101, 4),
        (0b0_101, 4),
        (0, 3),
        (0, 24),
        (1, 1),
        (0, 16),
    ]);
    let read = read_one(&flat(), true, bits.bytes()).unwrap();
    assert_eq!((read.kind, read.tokens), (Kind::Inter, 0));
    assert_eq!(read.bits, bits.length());
    assert_eq!(read.modes, [Mode::NoMv]);
    assert_eq!(read.records, [Record::UNCODED; 6]);
    let cut = &bits.bytes()[..bits.bytes().len() - 1];
    let fault = read_one(&flat(), true, cut).unwrap_err();
    assert_eq!(fault.field, Field::Choice(1, 0));
    assert_eq!(fault.fault.number, 4);
}

#[test]
fn predictions_of_an_inter_frame() {
    // MV (1, −2); token 6 ends all.
    let mut fields = inter(2, &[(0b001, 3), (0b0111, 4)]);
    fields.extend([(6, 5), (0, 12), (0, 8)]);
    let read = read_one(&flat(), true, packet(&fields).bytes()).unwrap();
    let vector = Vector { x: 1, y: -2 };
    let record = Record {
        coded: true,
        qi_index: 0,
        prediction: Prediction::Previous(vector),
    };
    assert_eq!(read.records, [record; 6]);
    assert_eq!(read.modes, [Mode::Mv]);
    // The same without references.
    let fault = read_one(&flat(), false, packet(&fields).bytes()).unwrap_err();
    assert_eq!(fault, FrameFault::new(9, 1, Field::Type));
}

#[test]
fn later_bytes_are_ignored() {
    let bits = packet(&[&INTRA[..], &[(6, 5), (0, 12), (0, 8)]].concat());
    let mut long = bits.bytes().to_vec();
    let read = read_one(&flat(), false, &long);
    long.extend([0xFF; 9]);
    assert_eq!(read_one(&flat(), false, &long), read);
}
