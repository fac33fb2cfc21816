//! Recordings in which every set of coded luma blocks has four vectors, with
//! LAST and with LAST2 in the next macro block, at each place in a super block
//! (`tests/streams/make`). Nothing but vectors makes their inter frames: no
//! block of them has coefficients.

use crate::four_cases::{FORMATS, SHOWING, sets};
use crate::generate::encoder::{put_component, put_run};
use crate::packets::{COMMENT_HEADER, header_of};
use crate::random::Random;
use crate::reference::frame::modes::Mode;
use crate::reference::frame::reader::{Bits, Field};
use crate::reference::frame::record::Vector;
use crate::reference::frame::runs::{LONG, RunCodes, SHORT};
use crate::reference::layout::Layout;
use crate::reference::session::Fields;
use crate::written::Written;
use recording::bit_writer::BitWriter;
use recording::ogg;

/// The serial number of the streams.
const SERIAL: u32 = 1;

/// KFGSHIFT.
const SHIFT: u64 = 6;

/// How many coefficients each block of the intra frame has.
const TEXTURE: usize = 9;

/// Writes a recording to each file, in the formats 4:2:0, 4:2:2 and 4:4:4 in
/// turn.
pub fn write(files: &[String], seed: u64) -> Result<(), String> {
    let settings = FORMATS.iter().cycle().zip(seed..);
    for (file, (format, seed)) in files.iter().zip(settings) {
        let packets = packets(&mut Random::new(seed), *format);
        let packets: Vec<_> = packets.into_iter().zip((0..).map(granule)).collect();
        let recording = ogg::write(SERIAL, &packets).map_err(|fault| fault.to_string())?;
        std::fs::write(file, recording).map_err(|error| format!("{file}: {error}"))?;
    }
    println!("streams of four vectors: {}", files.len());
    Ok(())
}

/// The granule position of a packet: the number of the last key frame, from 1,
/// and how many frames came after it. Packet 3 is the only key frame.
fn granule(packet: u64) -> u64 {
    match packet {
        0..3 => 0,
        _ => 1 << SHIFT | (packet - 3),
    }
}

/// The identification fields: 32 full super blocks of luma, in which a macro
/// block's place is its number in coded order modulo 4.
pub fn fields(format: u64) -> Fields {
    Fields {
        vrev: 1,
        picw: 256,
        pich: 128,
        kfgshift: SHIFT,
        ..Fields::of_frame(16, 8, format)
    }
}

/// The packets of a stream: with each inter frame the cases move on by one
/// macro block, and vectors have the other code.
pub fn packets(random: &mut Random, format: u64) -> Vec<Vec<u8>> {
    let fields = fields(format);
    let layout = Layout::new(&fields);
    let mut packets = vec![
        header_of(&fields),
        COMMENT_HEADER.to_vec(),
        setup_header(),
        intra(random, &layout),
    ];
    for skipped in 0..4 {
        let plan = plan(random, skipped, layout.macro_blocks.len());
        packets.push(inter(&layout, &plan, skipped % 2 == 1));
    }
    packets
}

/// A setup header: the loop limit 10, quantizers of 192, one range, and in all
/// trees a token's number as its code. There are two base matrices because
/// FFmpeg reads an index in one bit at least.
fn setup_header() -> Vec<u8> {
    let mut bits = BitWriter::default();
    bits.put_bytes(b"\x82theora");
    // The width of limits; less one, those of scales; one less than the matrices.
    for (width, value) in [((4, 3), (10, 4)), ((6, 4), (100, 7)), ((6, 4), (100, 7))] {
        bits.put(width.0, width.1);
        (0..64).for_each(|_| bits.put(value.0, value.1));
    }
    bits.put(1, 9);
    (0..128).for_each(|_| bits.put(48, 8));
    // From matrix 0 over 63 to matrix 1; five copies.
    for (value, width) in [(0, 1), (62, 6), (1, 1), (0, 2), (0, 6)] {
        bits.put(value, width);
    }
    (0..80).for_each(|_| put_tree(&mut bits, 0, 0));
    bits.into_bytes()
}

/// Writes the part of a tree behind a code of so many bits: 32 leaves in all.
fn put_tree(bits: &mut BitWriter, code: u64, length: u32) {
    bits.put(u64::from(length == 5), 1);
    if length == 5 {
        bits.put(code, 5);
        return;
    }
    put_tree(bits, 2 * code, length + 1);
    put_tree(bits, 2 * code + 1, length + 1);
}

/// An intra frame of random texture.
fn intra(random: &mut Random, layout: &Layout) -> Vec<u8> {
    let mut written = begin(false);
    written.put(Field::Reserved, 0, 3);
    let blocks = layout.blocks.len();
    for position in 0..TEXTURE {
        put_choices(&mut written, position);
        // 1, -1, 2 or -2
        (0..blocks).for_each(|_| written.put(Field::Token, random.pick(&[9, 10, 11, 12]), 5));
    }
    put_ends(&mut written, blocks);
    written.bytes().to_vec()
}

/// A header with qi 30 alone.
fn begin(inter: bool) -> Written<Field> {
    let mut written = Written::new();
    written.put(Field::FirstBit, 0, 1);
    written.put(Field::Type, u64::from(inter), 1);
    written.put(Field::Qi(0), 30, 6);
    written.put(Field::MoreQi(1), 0, 1);
    written
}

/// Writes the table choices of a position, if it has some. All tables are equal.
fn put_choices(written: &mut Written<Field>, position: usize) {
    if position < 2 {
        (0..2).for_each(|plane| written.put(Field::Choice(position, plane), 0, 4));
    }
}

/// Writes a token that ends so many blocks.
fn put_ends(written: &mut Written<Field>, blocks: usize) {
    written.put(Field::Token, 6 << 12 | blocks as u64, 5 + 12);
}

/// What is sent of a macro block. All its chroma blocks are coded.
#[derive(Clone)]
struct Sent {
    mode: Mode,
    /// Which of A, B, C, D are coded.
    coded: [bool; 4],
    vectors: Vec<Vector>,
}

impl Sent {
    /// With all blocks coded.
    fn whole(mode: Mode, vectors: &[Vector]) -> Sent {
        Sent {
            mode,
            coded: [true; 4],
            vectors: vectors.to_vec(),
        }
    }

    /// With four vectors, of which these are sent.
    fn four(coded: [bool; 4], vectors: &[Vector]) -> Sent {
        let of_block = vectors.iter().zip(coded);
        Sent {
            mode: Mode::Four,
            coded,
            vectors: of_block.filter(|(_, coded)| *coded).map(|b| *b.0).collect(),
        }
    }
}

/// All sets of coded blocks: MV, FOUR, LAST, and MV, FOUR, LAST2, LAST2. The
/// first LAST2 shows MV's vector, the second again FOUR's.
fn plan(random: &mut Random, skipped: usize, macro_blocks: usize) -> Vec<Sent> {
    let still = Sent::whole(Mode::NoMv, &[]);
    let mut plan = vec![still.clone(); skipped];
    for coded in sets() {
        for (times, next) in (1..).zip(SHOWING) {
            let vectors = different_vectors(random);
            plan.push(Sent::whole(Mode::Mv, &vectors[4..]));
            plan.push(Sent::four(coded, &vectors[..4]));
            (0..times).for_each(|_| plan.push(Sent::whole(next, &[])));
        }
    }
    plan.resize(macro_blocks, still);
    plan
}

/// Five vectors that differ, none zero.
fn different_vectors(random: &mut Random) -> Vec<Vector> {
    let mut vectors = Vec::new();
    while vectors.len() < 5 {
        let mut component = || random.below(63) as i64 - 31;
        let (x, y) = (component(), component());
        let vector = Vector { x, y };
        if vector != Vector::ZERO && !vectors.contains(&vector) {
            vectors.push(vector);
        }
    }
    vectors
}

/// An inter frame without coefficients.
fn inter(layout: &Layout, plan: &[Sent], fixed: bool) -> Vec<u8> {
    let mut written = begin(true);
    let mut coded = vec![true; layout.blocks.len()];
    for (macro_block, sent) in layout.macro_blocks.iter().zip(plan) {
        for (block, flag) in macro_block.luma.iter().zip(sent.coded) {
            coded[*block] = flag;
        }
    }
    put_flags(&mut written, layout, &coded);
    written.put(Field::Scheme, 7, 3);
    for sent in plan {
        written.put(Field::RawMode, sent.mode as u64, 3);
    }
    written.put(Field::VectorBit, u64::from(fixed), 1);
    for vector in plan.iter().flat_map(|sent| &sent.vectors) {
        put_component(&mut written, fixed, vector.x);
        put_component(&mut written, fixed, vector.y);
    }
    put_choices(&mut written, 0);
    put_ends(&mut written, coded.iter().filter(|coded| **coded).count());
    put_choices(&mut written, 1);
    written.bytes().to_vec()
}

/// Writes which blocks are coded, given that in raster order.
fn put_flags(written: &mut Written<Field>, layout: &Layout, coded: &[bool]) {
    let of_super_block = |blocks: &Vec<usize>| blocks.iter().map(|block| coded[*block]).collect();
    let flags: Vec<Vec<bool>> = layout.super_blocks.iter().map(of_super_block).collect();
    let is_partly = |flags: &&Vec<bool>| flags.contains(&true) && flags.contains(&false);
    let partly: Vec<bool> = flags.iter().map(|flags| is_partly(&flags)).collect();
    let rest = flags.iter().filter(|flags| !is_partly(flags));
    let fully: Vec<bool> = rest.map(|flags| flags[0]).collect();
    let blocks: Vec<bool> = flags.iter().filter(is_partly).flatten().copied().collect();
    put_bits(written, Bits::Partly, LONG, &partly);
    put_bits(written, Bits::Fully, LONG, &fully);
    put_bits(written, Bits::Blocks, SHORT, &blocks);
}

/// Writes a string of bits, of which no run is the longest that there is.
fn put_bits(written: &mut Written<Field>, which: Bits, codes: &RunCodes, bits: &[bool]) {
    if let Some(first) = bits.first() {
        written.put(Field::RunBit(which), u64::from(*first), 1);
    }
    for run in bits.chunk_by(|bit, next| bit == next) {
        put_run(written, which, codes, run.len());
    }
}

#[cfg(test)]
pub use tests::read_stream;

#[cfg(test)]
mod tests {
    use super::*;
    use crate::four_cases::{cases, luma_vectors};
    use crate::reference::decode::Decoder;
    use crate::reference::frame::record::Prediction;
    use crate::reference::frame::{FramePacket, Kind};
    use crate::reference::samples::prediction::predicted;
    use crate::reference::samples::ways::Way;
    use crate::reference::setup::setup;
    use std::collections::BTreeSet;

    /// The frames of a stream, as they are read.
    pub fn read_stream(format: u64) -> (Layout, Vec<FramePacket>) {
        let packets = packets(&mut Random::new(1), format);
        let setup = setup(&packets[2]).unwrap();
        let decoder = Decoder::new(&fields(format), &setup);
        let read = packets[3..].iter().map(|packet| decoder.read(true, packet));
        let read = read.map(Result::unwrap).collect();
        (decoder.layout, read)
    }

    #[test]
    fn every_case_at_each_place_in_a_super_block() {
        for format in FORMATS {
            let (layout, packets) = read_stream(format);
            let found = packets.iter().flat_map(|packet| cases(&layout, packet));
            let found: BTreeSet<_> = found.map(|(number, case)| (number % 4, case)).collect();
            assert_eq!(found.len(), 4 * 15 * 2);
        }
    }

    /// In each case block A of the next macro block has another prediction with
    /// zero, and with each vector of FOUR that is not its own.
    fn assert_shown(layout: &Layout, packet: &FramePacket, previous: &[u8]) {
        for (number, _) in cases(layout, packet) {
            let behind = layout.macro_blocks[number + 1].luma[0];
            let own = packet.records[behind].prediction;
            let made = |prediction| {
                let place = layout.blocks[behind];
                predicted(layout, place, prediction, &[], previous)
            };
            let four = luma_vectors(&layout.macro_blocks[number], &packet.records);
            for other in four.chain([Vector::ZERO]).map(Prediction::Previous) {
                assert!(other == own || made(other) != made(own), "{number}");
            }
        }
    }

    #[test]
    fn a_wrong_vector_makes_another_frame() {
        let packets = packets(&mut Random::new(1), 0);
        let setup = setup(&packets[2]).unwrap();
        let decoder = Decoder::new(&fields(0), &setup);
        let mut previous = vec![0; decoder.layout.sizes.buffer as usize];
        let mut new = previous.clone();
        for packet in &packets[3..] {
            let read = decoder.read(true, packet).unwrap();
            assert_shown(&decoder.layout, &read, &previous);
            decoder.make(Way::First, &read, &previous, &previous, &mut new);
            previous.copy_from_slice(&new);
            let kind = [Kind::Intra, Kind::Inter][usize::from(packet[0] >= 0x40)];
            assert_eq!((read.kind, &read.qis[..]), (kind, &[30][..]));
        }
    }
}
