//! The setup header: what is read, in reading order, and where it is refused.

use super::bits::{BitReader, Fault};
use super::ranges::{QuantRanges, six_sets};
use super::trees::{Codes, trees};

/// The fields of the setup header, for reports. A set of quant ranges is
/// numbered 3 times its type plus its plane.
#[derive(Clone, Copy, Debug, PartialEq, Eq, PartialOrd, Ord)]
pub enum Field {
    /// 82 hex.
    TypeByte,
    /// One of "theora".
    Letter,
    /// The width of the loop limits.
    LimitWidth,
    /// A loop limit.
    Limit,
    /// The width of the AC scales, less one.
    AcWidth,
    /// An AC scale.
    AcScale,
    /// The width of the DC scales, less one.
    DcWidth,
    /// A DC scale.
    DcScale,
    /// NBMS, less one.
    Nbms,
    /// A value of a base matrix.
    BaseValue,
    /// NEWQR of a set: whether the set is new or copied.
    NewRanges(usize),
    /// RPQR of a set: whether it is copied from the same plane.
    SamePlane(usize),
    /// The first matrix index of a set.
    FirstIndex(usize),
    /// The size of one of a set's ranges, less one.
    Size(usize),
    /// A later matrix index of a set.
    LaterIndex(usize),
    /// Whether a tree has a leaf here.
    LeafBit,
    /// A leaf bit that says branch.
    Branch,
    /// A leaf bit that says leaf.
    Leaf,
    /// A leaf's token.
    Token,
}

/// A fault and its field.
#[derive(Clone, Copy, Debug, PartialEq, Eq)]
pub struct SetupFault {
    /// The number and the bit place.
    pub fault: Fault,
    /// The field at fault.
    pub field: Field,
}

/// What a setup packet says.
#[derive(Clone, Debug, PartialEq, Eq)]
pub struct Setup {
    /// LFLIMS: the loop limit of each qi.
    pub limits: Vec<u64>,
    /// ACSCALE: the AC scale of each qi.
    pub ac_scale: Vec<u64>,
    /// DCSCALE: the DC scale of each qi.
    pub dc_scale: Vec<u64>,
    /// BMS: the base matrices, NBMS of them.
    pub base_matrices: Vec<Vec<u64>>,
    /// Six sets of quant ranges: intra Y', Cb, Cr, then inter.
    pub ranges: Vec<QuantRanges>,
    /// HTS: 80 tables of Huffman codes.
    pub codes: Vec<Codes>,
    /// How many bits were read.
    pub bits: u64,
}

/// A reader that knows which field it reads.
pub struct FieldReader<'a>(BitReader<'a>);

impl FieldReader<'_> {
    /// The place of the next bit.
    pub fn place(&self) -> u64 {
        self.0.place()
    }

    /// A field of this width.
    pub fn read(&mut self, field: Field, width: u32) -> Result<u64, SetupFault> {
        let read = self.0.read(width);
        read.map_err(|fault| SetupFault { fault, field })
    }

    /// A field that is judged at once.
    pub fn read_judged(
        &mut self,
        field: Field,
        width: u32,
        number: u32,
        good: impl FnOnce(u64) -> bool,
    ) -> Result<u64, SetupFault> {
        let read = self.0.read_judged(width, number, good);
        read.map_err(|fault| SetupFault { fault, field })
    }

    /// So many fields of one width.
    fn list(&mut self, field: Field, count: u64, width: u32) -> Result<Vec<u64>, SetupFault> {
        (0..count).map(|_| self.read(field, width)).collect()
    }

    /// 64 scales: a 4-bit width less one, then the scales.
    fn scales(&mut self, width_field: Field, field: Field) -> Result<Vec<u64>, SetupFault> {
        let width = self.read(width_field, 4)? + 1;
        self.list(field, 64, width as u32)
    }
}

/// Reads a setup header: what it says, or the first fault in reading order.
pub fn setup(packet: &[u8]) -> Result<Setup, SetupFault> {
    let mut reader = FieldReader(BitReader::new(packet));
    reader.read_judged(Field::TypeByte, 8, 2, |byte| byte == 0x82)?;
    for letter in *b"theora" {
        reader.read_judged(Field::Letter, 8, 2, |byte| byte == u64::from(letter))?;
    }
    let width = reader.read(Field::LimitWidth, 3)?;
    let limits = reader.list(Field::Limit, 64, width as u32)?;
    let ac_scale = reader.scales(Field::AcWidth, Field::AcScale)?;
    let dc_scale = reader.scales(Field::DcWidth, Field::DcScale)?;
    let nbms = reader.read_judged(Field::Nbms, 9, 7, |less_one| less_one < 384)? + 1;
    let base_matrices = (0..nbms)
        .map(|_| reader.list(Field::BaseValue, 64, 8))
        .collect::<Result<_, _>>()?;
    let ranges = six_sets(&mut reader, nbms)?;
    let codes = trees(&mut reader)?;
    Ok(Setup {
        limits,
        ac_scale,
        dc_scale,
        base_matrices,
        ranges,
        codes,
        bits: reader.place(),
    })
}

#[cfg(test)]
pub mod tests {
    use super::*;
    use recording::bit_writer::BitWriter;

    /// A header up to its trees: limits of 3 bits (qi % 8), AC scales of 16
    /// bits, DC scales of 5, so many base matrices of one value each.
    pub fn begin(nbms_less_one: u64) -> BitWriter {
        let mut bits = BitWriter::default();
        bits.put_bytes(b"\x82theora");
        bits.put(3, 3);
        (0..64).for_each(|qi| bits.put(qi % 8, 3));
        bits.put(15, 4);
        (0..64).for_each(|qi| bits.put(65535 - qi, 16));
        bits.put(4, 4);
        (0..64).for_each(|qi| bits.put(qi % 32, 5));
        bits.put(nbms_less_one, 9);
        for matrix in 0..nbms_less_one + 1 {
            (0..64).for_each(|_| bits.put(matrix % 256, 8));
        }
        bits
    }

    /// One set with one range, from matrix 0 to matrix 0 (in so many bits),
    /// and five copies of it.
    pub fn put_copies(bits: &mut BitWriter, index_width: u32) {
        bits.put(0, index_width);
        bits.put(62, 6);
        bits.put(0, index_width);
        bits.put(0, 2);
        bits.put(0, 6);
    }

    /// 80 lone leaves; tree t has token t % 32.
    pub fn put_lone_leaves(bits: &mut BitWriter) {
        for tree in 0..80 {
            bits.put(1, 1);
            bits.put(tree % 32, 5);
        }
    }

    /// A whole header with one base matrix.
    pub fn small() -> BitWriter {
        let mut bits = begin(0);
        put_copies(&mut bits, 0);
        put_lone_leaves(&mut bits);
        bits
    }

    pub fn fault(packet: &[u8]) -> (u32, u64, Field) {
        let SetupFault { fault, field } = setup(packet).unwrap_err();
        (fault.number, fault.place, field)
    }

    #[test]
    fn values_are_read_in_order() {
        let header = small();
        let read = setup(header.bytes()).unwrap();
        assert_eq!(read.bits, header.length());
        assert_eq!(read.limits[..10], [0, 1, 2, 3, 4, 5, 6, 7, 0, 1]);
        assert_eq!(read.ac_scale[63], 65535 - 63);
        assert_eq!(read.dc_scale[31..33], [31, 0]);
        assert_eq!(read.base_matrices, [vec![0; 64]]);
        let one_range = QuantRanges {
            sizes: vec![63],
            indices: vec![0, 0],
        };
        assert_eq!(read.ranges, vec![one_range; 6]);
        assert_eq!(read.codes.len(), 80);
    }

    #[test]
    fn the_first_fields_are_judged_at_once() {
        assert_eq!(fault(&[]), (4, 0, Field::TypeByte));
        assert_eq!(fault(b"\x80"), (2, 0, Field::TypeByte));
        assert_eq!(fault(b"\x82thEora"), (2, 24, Field::Letter));
        assert_eq!(fault(b"\x82theora"), (4, 56, Field::LimitWidth));
        assert_eq!(fault(b"\x82theora\xE0"), (4, 59, Field::Limit));
        assert_eq!(fault(b"\x82theora\x00"), (4, 64, Field::AcScale));
    }

    #[test]
    fn nbms_384_passes_and_385_is_7() {
        let mut bits = begin(383);
        put_copies(&mut bits, 9);
        put_lone_leaves(&mut bits);
        let read = setup(bits.bytes()).unwrap();
        assert_eq!(read.base_matrices.len(), 384);
        assert_eq!(read.base_matrices[383][0], 383 % 256);
        let place = 56 + 3 + 192 + 4 + 1024 + 4 + 320;
        let too_many = begin(384);
        assert_eq!(fault(too_many.bytes()), (7, place, Field::Nbms));
        assert_eq!(fault(begin(511).bytes()), (7, place, Field::Nbms));
        let cut = &too_many.bytes()[..(place as usize + 8) / 8];
        assert_eq!(fault(cut), (4, place, Field::Nbms));
    }

    #[test]
    fn later_bytes_are_ignored() {
        let mut long = small().bytes().to_vec();
        let read = setup(&long);
        long.extend([0xFF; 40]);
        assert_eq!(setup(&long), read);
    }

    #[test]
    fn every_cut_is_4() {
        let header = small();
        for length in 0..header.bytes().len() {
            assert_eq!(fault(&header.bytes()[..length]).0, 4);
        }
    }
}
