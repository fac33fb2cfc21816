//! The six sets of quant ranges.

use super::setup::{Field, FieldReader, SetupFault};

/// A set of quant ranges.
#[derive(Clone, Debug, PartialEq, Eq)]
pub struct QuantRanges {
    /// QRSIZES: the size of each range; their sum is 63.
    pub sizes: Vec<u64>,
    /// QRBMIS: the base matrix at each end, one more than there are ranges.
    pub indices: Vec<u64>,
}

impl QuantRanges {
    /// The number of qi's range and the qi at which that begins. A border
    /// belongs to two ranges, which give the same matrix; this is the later.
    pub fn range_of(&self, qi: u64) -> (usize, u64) {
        let (mut number, mut start) = (0, 0);
        while number + 1 < self.sizes.len() && start + self.sizes[number] <= qi {
            start += self.sizes[number];
            number += 1;
        }
        (number, start)
    }
}

/// ilog: the number of bits of a number; 0 has none.
fn ilog(number: u64) -> u32 {
    64 - number.leading_zeros()
}

/// Reads the sets: intra Y', Cb, Cr, then inter. Each but the first may be a copy.
pub fn six_sets(reader: &mut FieldReader, nbms: u64) -> Result<Vec<QuantRanges>, SetupFault> {
    let mut sets: Vec<QuantRanges> = Vec::new();
    for set in 0..6 {
        let new = set == 0 || reader.read(Field::NewRanges(set), 1)? == 1;
        let ranges = if new {
            new_set(reader, nbms, set)?
        } else {
            sets[copied(reader, set)?].clone()
        };
        sets.push(ranges);
    }
    Ok(sets)
}

/// Which set is copied: that of the same plane and the type before, or the
/// most recent one.
fn copied(reader: &mut FieldReader, set: usize) -> Result<usize, SetupFault> {
    let kind = set / 3;
    let same_plane = kind > 0 && reader.read(Field::SamePlane(set), 1)? == 1;
    Ok(if same_plane { set - 3 } else { set - 1 })
}

/// A new set: a matrix index, then sizes and indices until the sum is 63.
fn new_set(reader: &mut FieldReader, nbms: u64, set: usize) -> Result<QuantRanges, SetupFault> {
    let width = ilog(nbms - 1);
    let mut sizes = Vec::new();
    let mut indices = vec![reader.read_judged(Field::FirstIndex(set), width, 7, |i| i < nbms)?];
    let mut qi = 0;
    while qi < 63 {
        let fits = |less_one| qi + less_one < 63;
        let size = reader.read_judged(Field::Size(set), ilog(62 - qi), 7, fits)? + 1;
        let index = reader.read_judged(Field::LaterIndex(set), width, 7, |i| i < nbms)?;
        sizes.push(size);
        indices.push(index);
        qi += size;
    }
    Ok(QuantRanges { sizes, indices })
}

#[cfg(test)]
mod tests {
    use super::super::setup::setup;
    use super::super::setup::tests::{begin, fault, put_lone_leaves};
    use super::*;
    use recording::bit_writer::BitWriter;

    /// A set from matrix `first` to `last` in 2-bit indices, with one range.
    fn put_one_range(bits: &mut BitWriter, first: u64, last: u64) {
        bits.put(first, 2);
        bits.put(62, 6);
        bits.put(last, 2);
    }

    /// What a header with three matrices and these sets says.
    fn sets(put: impl FnOnce(&mut BitWriter)) -> Vec<QuantRanges> {
        let mut bits = begin(2);
        put(&mut bits);
        put_lone_leaves(&mut bits);
        setup(bits.bytes()).unwrap().ranges
    }

    /// The fault of a header with three matrices and these sets, its place
    /// counted from the first set.
    fn set_fault(put: impl FnOnce(&mut BitWriter)) -> (u32, u64, Field) {
        let mut bits = begin(2);
        let first = bits.length();
        put(&mut bits);
        let (number, place, field) = fault(bits.bytes());
        (number, place - first, field)
    }

    #[test]
    fn ilog_counts_bits() {
        let numbers = [0, 1, 2, 3, 4, 62, 383];
        assert_eq!(numbers.map(ilog), [0, 1, 2, 2, 3, 6, 9]);
    }

    #[test]
    fn a_border_belongs_to_the_later_range() {
        let ranges = |sizes: &[u64]| QuantRanges {
            sizes: sizes.to_vec(),
            indices: vec![0; sizes.len() + 1],
        };
        let found = [0, 1, 2, 61, 62, 63].map(|qi| ranges(&[2, 60, 1]).range_of(qi));
        assert_eq!(found, [(0, 0), (0, 0), (1, 2), (1, 2), (2, 62), (2, 62)]);
        assert_eq!([0, 63].map(|qi| ranges(&[63]).range_of(qi)), [(0, 0); 2]);
        let ones = ranges(&[1; 63]);
        (0..63).for_each(|qi| assert_eq!(ones.range_of(qi), (qi as usize, qi)));
        assert_eq!(ones.range_of(63), (62, 62));
    }

    #[test]
    fn copies_come_from_the_set_before_or_the_same_plane() {
        let sets = sets(|bits| {
            put_one_range(bits, 0, 0);
            bits.put(1, 1);
            put_one_range(bits, 0, 1);
            bits.put(1, 1);
            put_one_range(bits, 0, 2);
            bits.put(0b00, 2); // inter Y': the set before, intra Cr
            bits.put(0b01, 2); // inter Cb: intra Cb
            bits.put(0b00, 2); // inter Cr: inter Cb
        });
        let last: Vec<u64> = sets.iter().map(|set| set.indices[1]).collect();
        assert_eq!(last, [0, 1, 2, 2, 1, 1]);
    }

    #[test]
    fn sizes_narrow_as_the_sum_grows() {
        let sets = sets(|bits| {
            bits.put(0, 2);
            bits.put(30, 6); // 31, sum 31
            bits.put(1, 2);
            bits.put(30, 5); // 31, sum 62
            bits.put(2, 2);
            bits.put(1, 2); // size 1 in no bits
            bits.put(0, 2 + 6);
        });
        assert_eq!(sets[0].sizes, [31, 31, 1]);
        assert_eq!(sets[0].indices, [0, 1, 2, 1]);
    }

    #[test]
    fn every_index_is_judged_at_once() {
        assert_eq!(
            set_fault(|bits| bits.put(3, 2)),
            (7, 0, Field::FirstIndex(0))
        );
        let later = set_fault(|bits| put_one_range(bits, 0, 3));
        assert_eq!(later, (7, 8, Field::LaterIndex(0)));
        let fifth = set_fault(|bits| {
            put_one_range(bits, 0, 0);
            bits.put(0b0001, 4); // copies: Cb, Cr, then inter Y' of intra Y'
            bits.put(1, 1);
            put_one_range(bits, 1, 3);
        });
        assert_eq!(fifth, (7, 23, Field::LaterIndex(4)));
    }

    #[test]
    fn a_sum_above_63_is_7_at_its_size() {
        let at_once = set_fault(|bits| bits.put(63, 2 + 6));
        assert_eq!(at_once, (7, 2, Field::Size(0)));
        let second = set_fault(|bits| {
            bits.put(0, 2);
            bits.put(40, 6); // sum 41
            bits.put(0, 2);
            bits.put(22, 5); // sum 64
        });
        assert_eq!(second, (7, 10, Field::Size(0)));
    }
}
