//! Strings of bits that are sent as runs.

use super::super::bits::{BitReader, Fault};
use super::reader::{Bits, Field, FrameFault, FrameReader, ones};

/// The start and the number of extra bits of each code: so many 1s and a 0,
/// the last one without the 0.
pub type RunCodes = [(usize, u32)];

/// Long runs.
pub const LONG: &RunCodes = &[(1, 0), (2, 1), (4, 1), (6, 2), (10, 3), (18, 4), (34, 12)];

/// Short runs.
pub const SHORT: &RunCodes = &[(1, 1), (3, 1), (5, 1), (7, 2), (11, 2), (15, 4)];

/// "after a run of 4129 a new bit is read"
pub const LONGEST: usize = 4129;

/// Reads so many bits. "First bit explicit, then it flips, but after a run of
/// 4129 a new bit is read." "No bits wanted: nothing read."
pub fn runs(
    reader: &mut FrameReader,
    which: Bits,
    codes: &RunCodes,
    wanted: usize,
) -> Result<Vec<bool>, FrameFault> {
    let mut bits = Vec::with_capacity(wanted);
    let mut bit = false;
    let mut explicit = true;
    while bits.len() < wanted {
        bit = match explicit {
            true => reader.bit(Field::RunBit(which))?,
            false => !bit,
        };
        let length = run(reader, which, codes, wanted - bits.len())?;
        bits.resize(bits.len() + length, bit);
        explicit = length == LONGEST;
    }
    Ok(bits)
}

/// Reads a run. It is judged after all its bits and reported at its code.
fn run(
    reader: &mut FrameReader,
    which: Bits,
    codes: &RunCodes,
    still_wanted: usize,
) -> Result<usize, FrameFault> {
    let place = reader.place();
    let length = reader.whole(Field::Run(which), |bits| run_length(bits, codes))?;
    if length > still_wanted {
        return Err(FrameFault::new(12, place, Field::Run(which)));
    }
    Ok(length)
}

/// A run's code and extra bits.
fn run_length(bits: &mut BitReader, codes: &RunCodes) -> Result<usize, Fault> {
    let (start, extra) = codes[ones(bits, codes.len() - 1)?];
    Ok(start + bits.read(extra)? as usize)
}

#[cfg(test)]
#[allow(clippy::unusual_byte_groupings)] // a group is a field
mod tests {
    use super::*;
    use recording::bit_writer::BitWriter;

    const PARTLY: Bits = Bits::Partly;

    /// The bits, as runs, and the place reached.
    fn read(
        packet: &[u8],
        codes: &RunCodes,
        wanted: usize,
    ) -> Result<(Vec<(bool, usize)>, u64), FrameFault> {
        let mut reader = FrameReader::new(packet);
        let bits = runs(&mut reader, PARTLY, codes, wanted)?;
        assert_eq!(bits.len(), wanted);
        let groups = bits.chunk_by(|a, b| a == b);
        let groups = groups.map(|group| (group[0], group.len())).collect();
        Ok((groups, reader.place()))
    }

    /// Every length of every code, followed by a run of 1 (or more).
    fn every_length(codes: &RunCodes, last: usize) {
        let mut expected = 1;
        for (number, (start, extra)) in codes.iter().enumerate() {
            for more in 0..1 << extra {
                let length = start + more as usize;
                assert_eq!(length, expected);
                expected += 1;
                let mut bits = BitWriter::default();
                bits.put(1, 1);
                put_ones(&mut bits, number, codes.len() - 1);
                bits.put(more, *extra);
                let place = bits.length();
                assert_eq!(
                    read(bits.bytes(), codes, length),
                    Ok((vec![(true, length)], place))
                );
                let fault = FrameFault::new(12, 1, Field::Run(PARTLY));
                assert_eq!(read(bits.bytes(), codes, length - 1).err(), {
                    // Of no bits nothing is read.
                    (length > 1).then_some(fault)
                });
            }
        }
        assert_eq!(expected, last + 1);
    }

    fn put_ones(bits: &mut BitWriter, count: usize, most: usize) {
        (0..count).for_each(|_| bits.put(1, 1));
        if count < most {
            bits.put(0, 1);
        }
    }

    #[test]
    fn long_runs_have_1_to_4129() {
        every_length(LONG, LONGEST);
    }

    #[test]
    fn short_runs_have_1_to_30() {
        every_length(SHORT, 30);
    }

    #[test]
    fn the_bit_flips() {
        // 0, then runs of 1, 2, 1, 3
        let packet = [0b0_0_100_0_10, 0b1_0000000];
        let runs = vec![(false, 1), (true, 2), (false, 1), (true, 3)];
        assert_eq!(read(&packet, LONG, 7), Ok((runs, 9)));
    }

    #[test]
    fn after_4129_a_new_bit_is_read() {
        for (second, expected) in [(1, vec![(true, 4131)]), (0, vec![(true, 4129), (false, 2)])] {
            let mut bits = BitWriter::default();
            bits.put(1, 1);
            bits.put(u64::MAX, 18);
            bits.put(second, 1);
            bits.put(0b100, 3);
            assert_eq!(read(bits.bytes(), LONG, 4131), Ok((expected, 23)));
            // The new bit is read only if more bits are wanted.
            assert_eq!(read(bits.bytes(), LONG, 4129), Ok((vec![(true, 4129)], 19)));
        }
    }

    #[test]
    fn a_new_bit_behind_the_end_is_4_at_that_bit() {
        let mut bits = BitWriter::default();
        bits.put(1, 1);
        bits.put(0b10_0, 3);
        bits.put(0b111111, 6);
        bits.put(4095, 12);
        assert_eq!(bits.length(), 22);
        let mut reader = FrameReader::new(&bits.bytes()[..2]);
        let cut = runs(&mut reader, PARTLY, LONG, 5000);
        assert_eq!(cut, Err(FrameFault::new(4, 4, Field::Run(PARTLY))));
        // 2 bits, then 4129 up to place 24
        let mut bits = BitWriter::default();
        bits.put(0b1_10_0_0_0, 6);
        bits.put(u64::MAX, 18);
        let fault = FrameFault::new(4, 24, Field::RunBit(PARTLY));
        assert_eq!(read(bits.bytes(), LONG, 5000), Err(fault));
    }

    #[test]
    fn cuts_come_before_judging() {
        // A run of 34 or more whose extra bits are cut.
        let packet = [0b0_111111_0, 0];
        let fault = FrameFault::new(4, 1, Field::Run(PARTLY));
        assert_eq!(read(&packet, LONG, 1), Err(fault));
        let empty = FrameFault::new(4, 0, Field::RunBit(PARTLY));
        assert_eq!(read(&[], LONG, 1), Err(empty));
        assert_eq!(read(&[], LONG, 0), Ok((vec![], 0)));
    }

    #[test]
    fn a_code_may_end_with_the_packet() {
        let packet = [0b1_0_0_0_0_0_0_0];
        let read = read(&packet, LONG, 7).map(|read| read.1);
        assert_eq!(read, Ok(8));
    }
}
