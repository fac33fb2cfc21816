//! The frame header.

use super::Kind;
use super::reader::{Field, FrameFault, FrameReader};

/// Type and qi list.
#[derive(Clone, Debug, PartialEq, Eq)]
pub struct Header {
    /// Intra or inter.
    pub kind: Kind,
    /// One to three qi.
    pub qis: Vec<usize>,
}

/// "bit 0; type (0 intra); qi 6 bits, up to two more each announced by a 1
/// bit, the third qi needing no closing bit; intra: 3 zero bits"
pub fn header(reader: &mut FrameReader, references: bool) -> Result<Header, FrameFault> {
    if reader.bit(Field::FirstBit)? {
        return Err(FrameFault::new(10, 0, Field::FirstBit));
    }
    let place = reader.place();
    let kind = match reader.bit(Field::Type)? {
        false => Kind::Intra,
        true if references => Kind::Inter,
        true => return Err(FrameFault::new(9, place, Field::Type)),
    };
    let mut qis = vec![reader.read(Field::Qi(0), 6)? as usize];
    while qis.len() < 3 && reader.bit(Field::MoreQi(qis.len()))? {
        qis.push(reader.read(Field::Qi(qis.len()), 6)? as usize);
    }
    let place = reader.place();
    if kind == Kind::Intra && reader.read(Field::Reserved, 3)? != 0 {
        return Err(FrameFault::new(11, place, Field::Reserved));
    }
    Ok(Header { kind, qis })
}

#[cfg(test)]
#[allow(clippy::unusual_byte_groupings)] // a group is a field
mod tests {
    use super::*;

    fn read(packet: &[u8], references: bool) -> Result<(Header, u64), FrameFault> {
        let mut reader = FrameReader::new(packet);
        Ok((header(&mut reader, references)?, reader.place()))
    }

    fn good(kind: Kind, qis: &[usize], place: u64) -> Result<(Header, u64), FrameFault> {
        let qis = qis.to_vec();
        Ok((Header { kind, qis }, place))
    }

    #[test]
    fn one_to_three_qi() {
        let one = [0b0_0_000101, 0b0_000_1111];
        assert_eq!(read(&one, false), good(Kind::Intra, &[5], 12));
        let two = [0b0_1_111111, 0b1_000011_0];
        assert_eq!(read(&two, true), good(Kind::Inter, &[63, 3], 16));
        let three = [0b0_0_000000, 0b1_000001_1, 0b000010_00, 0b0_0000000];
        assert_eq!(read(&three, true), good(Kind::Intra, &[0, 1, 2], 25));
    }

    #[test]
    fn refusals() {
        let fault = |packet: &[u8], references| read(packet, references).unwrap_err();
        assert_eq!(
            fault(&[0x80], false),
            FrameFault::new(10, 0, Field::FirstBit)
        );
        assert_eq!(
            fault(&[0xC0], false),
            FrameFault::new(10, 0, Field::FirstBit)
        );
        assert_eq!(fault(&[0x40], false), FrameFault::new(9, 1, Field::Type));
        assert_eq!(
            fault(&[0x40], true),
            FrameFault::new(4, 8, Field::MoreQi(1))
        );
        assert_eq!(
            fault(&[0, 0x10], true),
            FrameFault::new(11, 9, Field::Reserved)
        );
        let three_qi = [0b0_0_000000, 0b1_000001_1, 0b000010_01];
        let cut = FrameFault::new(4, 22, Field::Reserved);
        assert_eq!(fault(&three_qi, true), cut);
        let announced = FrameFault::new(4, 16, Field::Qi(2));
        assert_eq!(fault(&three_qi[..2], true), announced);
    }
}
