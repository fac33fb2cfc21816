//! Coded flags of an inter frame.

use super::super::layout::Layout;
use super::reader::{Bits, FrameFault, FrameReader};
use super::runs::{LONG, SHORT, runs};

/// "long runs say which super blocks are partly coded, long runs which of the
/// rest are fully coded, short runs the blocks of the partly coded". Gives the
/// flags in coded order.
pub fn coded_flags(reader: &mut FrameReader, layout: &Layout) -> Result<Vec<bool>, FrameFault> {
    let super_blocks = &layout.super_blocks;
    let partly = runs(reader, Bits::Partly, LONG, super_blocks.len())?;
    let rest = partly.iter().filter(|partly| !**partly).count();
    let fully = runs(reader, Bits::Fully, LONG, rest)?;
    let in_partly = super_blocks
        .iter()
        .zip(&partly)
        .filter(|(_, partly)| **partly);
    let wanted = in_partly.map(|(blocks, _)| blocks.len()).sum();
    let blocks = runs(reader, Bits::Blocks, SHORT, wanted)?;

    let (mut fully, mut blocks) = (fully.into_iter(), blocks.into_iter());
    let mut flags = Vec::with_capacity(layout.blocks.len());
    for (super_block, partly) in super_blocks.iter().zip(partly) {
        let count = super_block.len();
        match partly {
            true => flags.extend(blocks.by_ref().take(count)),
            false => flags.resize(flags.len() + count, fully.next() == Some(true)),
        }
    }
    Ok(flags)
}

#[cfg(test)]
#[allow(clippy::unusual_byte_groupings)] // a group is a field
mod tests {
    use super::super::super::layout::tests::layout;
    use super::*;

    /// 3 by 1 macro blocks in 4:2:0: super blocks of 8, 4, 3 and 3 blocks.
    #[test]
    fn three_strings() {
        let layout = layout(3, 1, 0);
        // partly: 1 0 0 1; of the rest: 0 1; blocks of 8 + 3: 1 once, 0 ten times
        let packet = [0b1_0_100_0_0_0, 0b0_1_00_1110, 0b11_000000];
        let mut reader = FrameReader::new(&packet);
        let flags = coded_flags(&mut reader, &layout).unwrap();
        let ones: Vec<usize> = (0..18).filter(|number| flags[*number]).collect();
        assert_eq!(flags.len(), 18);
        assert_eq!(ones, [0, 12, 13, 14]);
        assert_eq!(reader.place(), 18);
    }

    #[test]
    fn what_is_not_wanted_is_not_read() {
        let layout = layout(1, 1, 3);
        // all three partly: nothing is sent of the rest; all 12 blocks coded
        let mut reader = FrameReader::new(&[0b1_10_1_1_111, 0b10_01_0000]);
        let flags = coded_flags(&mut reader, &layout).unwrap();
        assert_eq!((flags, reader.place()), (vec![true; 12], 12));
        // none partly, none coded
        let mut reader = FrameReader::new(&[0b0_10_1_0_10_1]);
        let flags = coded_flags(&mut reader, &layout).unwrap();
        assert_eq!((flags, reader.place()), (vec![false; 12], 8));
    }
}
