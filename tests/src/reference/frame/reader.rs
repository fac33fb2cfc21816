//! The reader of frame packets: fields, and things of several fields that are
//! refused as a whole.

use super::super::bits::{BitReader, Fault};

/// Which string of bits is sent as runs.
#[derive(Clone, Copy, Debug, PartialEq, Eq, PartialOrd, Ord)]
pub enum Bits {
    /// Which super blocks are partly coded.
    Partly,
    /// Which of the rest are fully coded.
    Fully,
    /// The blocks of the partly coded.
    Blocks,
    /// Which coded blocks leave this step of the qi list.
    BlockQi(usize),
}

/// The fields of a frame packet, for reports.
#[derive(Clone, Copy, Debug, PartialEq, Eq, PartialOrd, Ord)]
pub enum Field {
    /// An empty packet.
    Packet,
    /// The first bit.
    FirstBit,
    /// The frame type bit.
    Type,
    /// A qi, by its index in the list.
    Qi(usize),
    /// The bit that announces the qi of this index.
    MoreQi(usize),
    /// An intra frame's 3 reserved bits.
    Reserved,
    /// The explicit bit of a string.
    RunBit(Bits),
    /// A run.
    Run(Bits),
    /// The mode scheme.
    Scheme,
    /// A mode's rank in scheme 0.
    Rank,
    /// A rank code.
    RankCode,
    /// A mode in scheme 7.
    RawMode,
    /// The bit that says which code vectors have.
    VectorBit,
    /// A vector component in the variable code.
    VariableComponent,
    /// A vector component of five bits and a sign.
    FixedComponent,
    /// A table choice, by its position and luma (0) or chroma (1).
    Choice(usize, usize),
    /// A token.
    Token,
}

/// A fault and its field.
#[derive(Clone, Copy, Debug, PartialEq, Eq)]
pub struct FrameFault {
    /// The number and the bit place.
    pub fault: Fault,
    /// The field at fault.
    pub field: Field,
}

impl FrameFault {
    /// A fault.
    pub fn new(number: u32, place: u64, field: Field) -> FrameFault {
        let fault = Fault { number, place };
        FrameFault { fault, field }
    }
}

/// A reader that knows which field it reads.
pub struct FrameReader<'a>(BitReader<'a>);

impl<'a> FrameReader<'a> {
    /// A reader at the packet's first bit.
    pub fn new(packet: &'a [u8]) -> FrameReader<'a> {
        FrameReader(BitReader::new(packet))
    }

    /// The place of the next bit.
    pub fn place(&self) -> u64 {
        self.0.place()
    }

    /// A field of this width.
    pub fn read(&mut self, field: Field, width: u32) -> Result<u64, FrameFault> {
        let read = self.0.read(width);
        read.map_err(|fault| FrameFault { fault, field })
    }

    /// A flag.
    pub fn bit(&mut self, field: Field) -> Result<bool, FrameFault> {
        Ok(self.read(field, 1)? == 1)
    }

    /// A thing of several fields: where one of them passes the end, the thing
    /// is at fault, at its own first bit.
    pub fn whole<T>(
        &mut self,
        field: Field,
        read: impl FnOnce(&mut BitReader<'a>) -> Result<T, Fault>,
    ) -> Result<T, FrameFault> {
        let place = self.place();
        read(&mut self.0).map_err(|fault| FrameFault::new(fault.number, place, field))
    }
}

/// A code of so many 1s and a 0; with the most 1s the 0 is left out.
pub fn ones(bits: &mut BitReader, most: usize) -> Result<usize, Fault> {
    let mut count = 0;
    while count < most && bits.read(1)? == 1 {
        count += 1;
    }
    Ok(count)
}

#[cfg(test)]
mod tests {
    use super::*;

    #[test]
    fn ones_and_a_zero() {
        let mut bits = BitReader::new(&[0b0101_1011, 0b1111_1110]);
        let counts: Vec<_> = (0..5).map(|_| ones(&mut bits, 7).unwrap()).collect();
        assert_eq!(counts, [0, 1, 2, 7, 2]);
        assert_eq!(bits.place(), 16);
        assert_eq!(ones(&mut bits, 0), Ok(0));
    }

    #[test]
    fn a_whole_thing_is_at_fault_at_its_first_bit() {
        let mut reader = FrameReader::new(&[0xFF]);
        reader.read(Field::Qi(0), 3).unwrap();
        let fault = reader.whole(Field::Token, |bits| {
            bits.read(4)?;
            bits.read(2)
        });
        assert_eq!(fault, Err(FrameFault::new(4, 3, Field::Token)));
    }
}
