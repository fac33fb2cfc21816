//! Which qi of the list each coded block has.

use super::reader::{Bits, FrameFault, FrameReader};
use super::record::Record;
use super::runs::{LONG, runs};

/// "with more than one, a long-run string per step raises the index of the
/// coded blocks still at the step"
pub fn block_qi(
    reader: &mut FrameReader,
    qis: usize,
    coded: &[usize],
    records: &mut [Record],
) -> Result<(), FrameFault> {
    for step in 0..qis - 1 {
        let at_step = |block: &&usize| records[**block].qi_index == step;
        let wanted = coded.iter().filter(at_step).count();
        let mut raised = runs(reader, Bits::BlockQi(step), LONG, wanted)?.into_iter();
        for block in coded {
            if records[*block].qi_index == step && raised.next() == Some(true) {
                records[*block].qi_index = step + 1;
            }
        }
    }
    Ok(())
}

#[cfg(test)]
#[allow(clippy::unusual_byte_groupings)] // a group is a field
mod tests {
    use super::*;

    fn read(packet: &[u8], qis: usize) -> (Vec<usize>, u64) {
        let mut records = vec![Record::UNCODED; 7];
        let mut reader = FrameReader::new(packet);
        block_qi(&mut reader, qis, &[6, 0, 1, 5, 3], &mut records).unwrap();
        let indices = records.iter().map(|record| record.qi_index);
        (indices.collect(), reader.place())
    }

    #[test]
    fn one_string_for_each_step() {
        assert_eq!(read(&[], 1), (vec![0; 7], 0));
        // 0 1 1 1 0 over 6, 0, 1, 5, 3
        let packet = [0b0_0_10_1_0_1_0, 0b10_0_00000];
        assert_eq!(read(&packet, 2), (vec![1, 1, 0, 0, 0, 1, 0], 6));
        // then 1 0 0 over 0, 1, 5
        assert_eq!(read(&packet, 3), (vec![2, 1, 0, 0, 0, 1, 0], 11));
    }
}
