//! The vectors of an inter frame, and with them the prediction of each coded
//! block.

use super::super::bits::{BitReader, Fault};
use super::super::layout::{Layout, MacroBlock};
use super::super::numeric::round_mean;
use super::modes::Mode;
use super::reader::{Field, FrameFault, FrameReader};
use super::record::{Prediction, Record, Vector};

/// The two vectors that later macro blocks can repeat.
struct Memory {
    last: Vector,
    last2: Vector,
}

impl Memory {
    /// "last2 takes last, last takes it"
    fn push(&mut self, vector: Vector) {
        self.last2 = self.last;
        self.last = vector;
    }
}

/// Reads the vectors and fills in the predictions of coded blocks.
pub fn vectors(
    reader: &mut FrameReader,
    layout: &Layout,
    modes: &[Mode],
    records: &mut [Record],
) -> Result<(), FrameFault> {
    let fixed = reader.bit(Field::VectorBit)?;
    let mut memory = Memory {
        last: Vector::ZERO,
        last2: Vector::ZERO,
    };
    for (macro_block, mode) in layout.macro_blocks.iter().zip(modes) {
        if *mode == Mode::Four {
            let four = four_vectors(reader, fixed, macro_block, records)?;
            memory.push(last_of_four(macro_block, &four, records));
            predict_four(layout, macro_block, &four, records);
        } else {
            let prediction = one_prediction(reader, fixed, *mode, &mut memory)?;
            let chroma = macro_block.chroma.iter().flatten();
            for block in macro_block.luma.iter().chain(chroma) {
                predict(records, *block, prediction);
            }
        }
    }
    Ok(())
}

/// The prediction of a macro block that has one for all its blocks.
fn one_prediction(
    reader: &mut FrameReader,
    fixed: bool,
    mode: Mode,
    memory: &mut Memory,
) -> Result<Prediction, FrameFault> {
    let prediction = match mode {
        Mode::NoMv => Prediction::Previous(Vector::ZERO),
        Mode::Intra => Prediction::None,
        Mode::Mv => {
            memory.push(vector(reader, fixed)?);
            Prediction::Previous(memory.last)
        }
        Mode::Last => Prediction::Previous(memory.last),
        Mode::Last2 => {
            memory.push(memory.last2);
            Prediction::Previous(memory.last)
        }
        Mode::GoldenNoMv => Prediction::Golden(Vector::ZERO),
        Mode::GoldenMv => Prediction::Golden(vector(reader, fixed)?),
        Mode::Four => unreachable!("has four"),
    };
    Ok(prediction)
}

/// "FOUR: luma blocks A, B (lower), C, D, one vector per coded block, else zero"
fn four_vectors(
    reader: &mut FrameReader,
    fixed: bool,
    macro_block: &MacroBlock,
    records: &[Record],
) -> Result<[Vector; 4], FrameFault> {
    let mut four = [Vector::ZERO; 4];
    for (vector_of, block) in four.iter_mut().zip(macro_block.luma) {
        if records[block].coded {
            *vector_of = vector(reader, fixed)?;
        }
    }
    Ok(four)
}

/// What "last" takes: "the last vector actually read, of the last coded luma
/// block in the order A, B, C, D"
fn last_of_four(macro_block: &MacroBlock, four: &[Vector; 4], records: &[Record]) -> Vector {
    let coded = macro_block.luma.map(|block| records[block].coded);
    let last = coded.iter().rposition(|coded| *coded);
    four[last.expect("a mode is sent only with a coded luma block")]
}

/// The predictions of a macro block with four vectors.
fn predict_four(
    layout: &Layout,
    macro_block: &MacroBlock,
    four: &[Vector; 4],
    records: &mut [Record],
) {
    for (block, vector) in macro_block.luma.iter().zip(four) {
        predict(records, *block, Prediction::Previous(*vector));
    }
    let chroma = chroma_vectors(layout.format, four);
    for plane in &macro_block.chroma {
        for (block, vector) in plane.iter().zip(&chroma) {
            predict(records, *block, Prediction::Previous(*vector));
        }
    }
}

/// "Subsampled chroma in FOUR: round of the mean of the 4 (4:2:0) or of its
/// row's 2; in 4:4:4 chroma takes its luma block's." Rows from below.
pub fn chroma_vectors(format: u64, four: &[Vector; 4]) -> Vec<Vector> {
    match format {
        0 => vec![mean(four)],
        2 => vec![mean(&four[..2]), mean(&four[2..])],
        _ => four.to_vec(),
    }
}

/// The mean of some vectors.
fn mean(vectors: &[Vector]) -> Vector {
    let count = vectors.len() as i64;
    Vector {
        x: round_mean(vectors.iter().map(|vector| vector.x).sum(), count),
        y: round_mean(vectors.iter().map(|vector| vector.y).sum(), count),
    }
}

/// Gives a block a prediction, if it is coded.
fn predict(records: &mut [Record], block: usize, prediction: Prediction) {
    if records[block].coded {
        records[block].prediction = prediction;
    }
}

/// Reads a vector, x then y.
fn vector(reader: &mut FrameReader, fixed: bool) -> Result<Vector, FrameFault> {
    let x = component(reader, fixed)?;
    let y = component(reader, fixed)?;
    Ok(Vector { x, y })
}

/// Reads a component.
fn component(reader: &mut FrameReader, fixed: bool) -> Result<i64, FrameFault> {
    match fixed {
        true => reader.whole(Field::FixedComponent, |bits| added(bits, 0, 5)),
        false => reader.whole(Field::VariableComponent, variable),
    }
}

/// "000 is 0, 001/010 ±1, 0110/0111 ±2, 1000/1001 ±3, then 101, 110, 111 with
/// 2, 3, 4 bits added to 4, 8, 16 and a sign bit"
fn variable(bits: &mut BitReader) -> Result<i64, Fault> {
    match bits.read(3)? {
        0 => Ok(0),
        1 => Ok(1),
        2 => Ok(-1),
        3 => added(bits, 2, 0),
        4 => added(bits, 3, 0),
        5 => added(bits, 4, 2),
        6 => added(bits, 8, 3),
        _ => added(bits, 16, 4),
    }
}

/// Some bits that are added to a number, and a sign.
fn added(bits: &mut BitReader, to: i64, width: u32) -> Result<i64, Fault> {
    let magnitude = to + bits.read(width)? as i64;
    match bits.read(1)? {
        0 => Ok(magnitude),
        _ => Ok(-magnitude),
    }
}

#[cfg(test)]
mod tests {
    use super::super::super::layout::tests::layout;
    use super::*;
    use recording::bit_writer::BitWriter;

    const fn at(x: i64, y: i64) -> Vector {
        Vector { x, y }
    }

    /// Components in five bits and a sign.
    fn fixed(components: &[i64]) -> BitWriter {
        let mut bits = BitWriter::default();
        bits.put(1, 1);
        for component in components {
            bits.put(component.unsigned_abs(), 5);
            bits.put(u64::from(*component < 0), 1);
        }
        bits
    }

    /// The predictions of a row of macro blocks, all blocks coded but those
    /// that are listed (by macro block and A to D).
    fn read(
        packet: &BitWriter,
        modes: &[Mode],
        uncoded: &[(usize, usize)],
    ) -> (Layout, Vec<Record>) {
        let layout = layout(modes.len() as u64, 1, 0);
        let coded = Record {
            coded: true,
            ..Record::UNCODED
        };
        let mut records = vec![coded; layout.blocks.len()];
        for (macro_block, block) in uncoded {
            records[layout.macro_blocks[*macro_block].luma[*block]].coded = false;
        }
        let mut reader = FrameReader::new(packet.bytes());
        vectors(&mut reader, &layout, modes, &mut records).unwrap();
        assert_eq!(reader.place(), packet.length());
        (layout, records)
    }

    /// The predictions of the A blocks.
    fn first_luma(layout: &Layout, records: &[Record]) -> Vec<Prediction> {
        let blocks = layout.macro_blocks.iter().map(|m| m.luma[0]);
        blocks.map(|block| records[block].prediction).collect()
    }

    #[test]
    fn variable_components() {
        let mut bits = BitWriter::default();
        let mut expected = vec![0, 1, -1, 2, -2, 3, -3];
        for (code, width) in [(0, 3), (1, 3), (2, 3), (6, 4), (7, 4), (8, 4), (9, 4)] {
            bits.put(code, width);
        }
        for magnitude in 4..32_i64 {
            let (code, width, start) = match magnitude {
                4..8 => (5, 2, 4),
                8..16 => (6, 3, 8),
                _ => (7, 4, 16),
            };
            for sign in 0..2 {
                bits.put(code, 3);
                bits.put((magnitude - start) as u64, width);
                bits.put(sign, 1);
                expected.push(if sign == 0 { magnitude } else { -magnitude });
            }
        }
        let mut reader = FrameReader::new(bits.bytes());
        for number in expected {
            assert_eq!(component(&mut reader, false), Ok(number));
        }
        assert_eq!(reader.place(), bits.length());
    }

    #[test]
    fn fixed_components() {
        let numbers: Vec<i64> = (-31..32).collect();
        let bits = fixed(&numbers);
        let mut reader = FrameReader::new(bits.bytes());
        reader.bit(Field::VectorBit).unwrap();
        for number in numbers {
            assert_eq!(component(&mut reader, true), Ok(number));
        }
        // A minus zero is zero.
        let mut reader = FrameReader::new(&[0b0000_0100]);
        assert_eq!(component(&mut reader, true), Ok(0));
    }

    #[test]
    fn a_cut_component_is_4_at_its_first_bit() {
        // x is 16 + 7, y is missing.
        let mut reader = FrameReader::new(&[0b1110_1110]);
        let cut = vector(&mut reader, false);
        assert_eq!(cut, Err(FrameFault::new(4, 8, Field::VariableComponent)));
        // x is 0, y's bits are cut.
        let mut reader = FrameReader::new(&[0b0001_1111]);
        let cut = vector(&mut reader, false);
        assert_eq!(cut, Err(FrameFault::new(4, 3, Field::VariableComponent)));
        let mut reader = FrameReader::new(&[0xFF]);
        let cut = vector(&mut reader, true);
        assert_eq!(cut, Err(FrameFault::new(4, 6, Field::FixedComponent)));
    }

    #[test]
    fn last_and_last2() {
        use Mode::*;
        let modes = [
            Last, Mv, Last2, Last, Mv, Last2, Last2, GoldenMv, Last, NoMv, GoldenNoMv, Intra,
        ];
        let bits = fixed(&[1, 2, -3, 4, 9, 9]);
        let (layout, records) = read(&bits, &modes, &[]);
        let previous = |x, y| Prediction::Previous(at(x, y));
        let expected = [
            previous(0, 0),               // last is 0
            previous(1, 2),               // last 1 2, last2 0
            previous(0, 0),               // last 0, last2 1 2
            previous(0, 0),               // the same
            previous(-3, 4),              // last -3 4, last2 0
            previous(0, 0),               // last 0, last2 -3 4
            previous(-3, 4),              // last -3 4, last2 0
            Prediction::Golden(at(9, 9)), // stores nothing
            previous(-3, 4),
            previous(0, 0),
            Prediction::Golden(Vector::ZERO),
            Prediction::None,
        ];
        assert_eq!(first_luma(&layout, &records), expected);
        // Chroma takes the macro block's vector as it is.
        let chroma = layout.macro_blocks[4].chroma[1][0];
        assert_eq!(records[chroma].prediction, previous(-3, 4));
    }

    #[test]
    fn four_vectors_of_which_two_are_read() {
        let modes = [Mode::Mv, Mode::Four, Mode::Last, Mode::Last2];
        // A, C of the second macro block are coded.
        let bits = fixed(&[7, 7, 1, 2, 4, -6]);
        let (layout, records) = read(&bits, &modes, &[(1, 1), (1, 3)]);
        let expected = [at(7, 7), at(1, 2), at(4, -6), at(7, 7)].map(Prediction::Previous);
        assert_eq!(first_luma(&layout, &records), expected);
        let four = &layout.macro_blocks[1];
        assert_eq!(records[four.luma[1]], Record::UNCODED);
        // (1 + 4)/4 and (2 - 6)/4
        let mean = Prediction::Previous(at(1, -1));
        assert_eq!(records[four.chroma[0][0]].prediction, mean);
    }

    #[test]
    fn last_takes_the_last_vector_of_four_that_was_read() {
        let modes = [Mode::Mv, Mode::Four, Mode::Last, Mode::Last2, Mode::Last2];
        let vectors = [at(1, 2), at(3, -4), at(-5, 6), at(-7, -8)];
        for set in 1..16 {
            let coded: Vec<usize> = (0..4).filter(|block| set >> block & 1 == 1).collect();
            let uncoded: Vec<(usize, usize)> = (0..4)
                .filter(|block| !coded.contains(block))
                .map(|block| (1, block))
                .collect();
            let read_ones = coded.iter().map(|block| vectors[*block]);
            let components = read_ones.flat_map(|vector| [vector.x, vector.y]);
            let bits = fixed(&[vec![9, 9], components.collect()].concat());
            let (layout, records) = read(&bits, &modes, &uncoded);
            let last = vectors[coded[coded.len() - 1]];
            let expected = [last, at(9, 9), last].map(Prediction::Previous);
            assert_eq!(first_luma(&layout, &records)[2..], expected, "{coded:?}");
        }
    }

    #[test]
    fn chroma_means() {
        let four = [at(-1, 1), at(-1, 0), at(0, 0), at(0, -3)];
        assert_eq!(chroma_vectors(0, &four), [at(-1, -1)]);
        assert_eq!(chroma_vectors(2, &four), [at(-1, 1), at(0, -2)]);
        assert_eq!(chroma_vectors(3, &four), four);
        let ends = [at(31, -31); 4];
        assert_eq!(chroma_vectors(0, &ends), [at(31, -31)]);
    }
}
