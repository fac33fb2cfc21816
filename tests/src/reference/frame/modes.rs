//! The modes of an inter frame's macro blocks.

use super::super::layout::Layout;
use super::reader::{Field, FrameFault, FrameReader, ones};
use super::record::Record;

/// The mode of a macro block.
#[derive(Clone, Copy, Debug, PartialEq, Eq, PartialOrd, Ord)]
pub enum Mode {
    /// 0: as the previous frame, no vector.
    NoMv,
    /// 1: no prediction.
    Intra,
    /// 2: a vector of its own.
    Mv,
    /// 3: the last vector.
    Last,
    /// 4: the vector before the last.
    Last2,
    /// 5: as the golden frame, no vector.
    GoldenNoMv,
    /// 6: a vector into the golden frame.
    GoldenMv,
    /// 7: a vector for each coded luma block.
    Four,
}

/// The modes by their numbers.
pub const MODES: [Mode; 8] = [
    Mode::NoMv,
    Mode::Intra,
    Mode::Mv,
    Mode::Last,
    Mode::Last2,
    Mode::GoldenNoMv,
    Mode::GoldenMv,
    Mode::Four,
];

/// The modes of ranks 0 to 7.
pub type Alphabet = [usize; 8];

/// Schemes 1 to 6: "34201567, 34021567, 32401567, 32041567, 03421567, 05342167".
pub const SCHEMES: [Alphabet; 6] = [
    [3, 4, 2, 0, 1, 5, 6, 7],
    [3, 4, 0, 2, 1, 5, 6, 7],
    [3, 2, 4, 0, 1, 5, 6, 7],
    [3, 2, 0, 4, 1, 5, 6, 7],
    [0, 3, 4, 2, 1, 5, 6, 7],
    [0, 5, 3, 4, 2, 1, 6, 7],
];

/// Reads the modes of all macro blocks, in coded order.
pub fn modes(
    reader: &mut FrameReader,
    layout: &Layout,
    records: &[Record],
) -> Result<Vec<Mode>, FrameFault> {
    let alphabet = alphabet(reader)?;
    let mut modes = Vec::with_capacity(layout.macro_blocks.len());
    for macro_block in &layout.macro_blocks {
        let sent = macro_block.luma.iter().any(|block| records[*block].coded);
        modes.push(match sent {
            true => mode(reader, alphabet.as_ref())?,
            false => Mode::NoMv,
        });
    }
    Ok(modes)
}

/// Reads the scheme and what it sends; none: modes are sent raw.
fn alphabet(reader: &mut FrameReader) -> Result<Option<Alphabet>, FrameFault> {
    match reader.read(Field::Scheme, 3)? as usize {
        0 => {
            let mut alphabet = [0; 8];
            for mode in 0..8 {
                alphabet[reader.read(Field::Rank, 3)? as usize] = mode;
            }
            Ok(Some(alphabet))
        }
        7 => Ok(None),
        scheme => Ok(Some(SCHEMES[scheme - 1])),
    }
}

/// Reads one mode.
fn mode(reader: &mut FrameReader, alphabet: Option<&Alphabet>) -> Result<Mode, FrameFault> {
    let number = match alphabet {
        Some(alphabet) => alphabet[reader.whole(Field::RankCode, |bits| ones(bits, 7))?],
        None => reader.read(Field::RawMode, 3)? as usize,
    };
    Ok(MODES[number])
}

#[cfg(test)]
#[allow(clippy::unusual_byte_groupings)] // a group is a field
mod tests {
    use super::super::super::layout::tests::layout;
    use super::*;
    use recording::bit_writer::BitWriter;

    /// Reads the modes of a frame whose macro blocks have coded luma as said.
    fn read(packet: &[u8], coded: &[bool]) -> Result<(Vec<Mode>, u64), FrameFault> {
        let layout = layout(coded.len() as u64, 1, 0);
        let mut records = vec![Record::UNCODED; layout.blocks.len()];
        for (macro_block, coded) in layout.macro_blocks.iter().zip(coded) {
            records[macro_block.luma[3]].coded = *coded;
            records[macro_block.chroma[1][0]].coded = true;
        }
        let mut reader = FrameReader::new(packet);
        let modes = modes(&mut reader, &layout, &records)?;
        Ok((modes, reader.place()))
    }

    /// The codes of ranks 0 to 7.
    fn put_ranks(bits: &mut BitWriter) {
        for (code, width) in [
            (0b0, 1),
            (0b10, 2),
            (0b110, 3),
            (0b1110, 4),
            (0b11110, 5),
            (0b111110, 6),
            (0b1111110, 7),
            (0b1111111, 7),
        ] {
            bits.put(code, width);
        }
    }

    #[test]
    fn schemes_give_the_mode_of_each_rank() {
        for (number, digits) in
            (1..).zip([34201567, 34021567, 32401567, 32041567, 3421567, 5342167])
        {
            let mut bits = BitWriter::default();
            bits.put(number, 3);
            put_ranks(&mut bits);
            let (modes, place) = read(bits.bytes(), &[true; 8]).unwrap();
            assert_eq!(place, bits.length());
            let digit = |rank: u32| digits / 10_usize.pow(7 - rank) % 10;
            let expected: Vec<Mode> = (0..8).map(|rank| MODES[digit(rank)]).collect();
            assert_eq!(modes, expected);
        }
    }

    #[test]
    fn scheme_0_sends_ranks() {
        let mut bits = BitWriter::default();
        bits.put(0, 3);
        // Modes 0 to 7; rank 2 goes to mode 5, rank 0 to mode 7, nobody has 4 and 6.
        for rank in [7, 0, 2, 1, 3, 2, 5, 0] {
            bits.put(rank, 3);
        }
        put_ranks(&mut bits);
        let (modes, place) = read(bits.bytes(), &[true; 8]).unwrap();
        assert_eq!(modes, [7, 3, 5, 4, 0, 6, 0, 0].map(|mode| MODES[mode]));
        assert_eq!(place, bits.length());
    }

    #[test]
    fn scheme_7_sends_modes_raw() {
        let (modes, place) = read(&[0b111_101_00, 0b0_0000000], &[true, false, true]).unwrap();
        assert_eq!(modes, [Mode::GoldenNoMv, Mode::NoMv, Mode::NoMv]);
        assert_eq!(place, 9);
        let cut = read(&[0b111_101_00], &[true, true]).unwrap_err();
        assert_eq!(cut, FrameFault::new(4, 6, Field::RawMode));
    }

    #[test]
    fn cuts() {
        let fault = |packet: &[u8]| read(packet, &[true; 3]).unwrap_err();
        assert_eq!(fault(&[]), FrameFault::new(4, 0, Field::Scheme));
        assert_eq!(fault(&[0]), FrameFault::new(4, 6, Field::Rank));
        // The rank code begins at 5.
        assert_eq!(
            fault(&[0b001_10_111]),
            FrameFault::new(4, 5, Field::RankCode)
        );
        let (modes, place) = read(&[0b001_10_110], &[true, true, false]).unwrap();
        assert_eq!((modes[1], place), (Mode::Mv, 8));
    }
}
