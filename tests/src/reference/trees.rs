//! The 80 tables of Huffman codes, sent as trees.

use super::bits::Fault;
use super::setup::{Field, FieldReader, SetupFault};

/// A table has no more entries than this, a code no more bits.
const MOST: usize = 32;

/// The code of a token: HBITS and TOKEN.
#[derive(Clone, Copy, Debug, PartialEq, Eq)]
pub struct Code {
    /// The code's bits as a number, its first bit the most significant.
    pub bits: u64,
    /// How many bits it has.
    pub length: usize,
    /// The token.
    pub token: u64,
}

/// A table of codes, in the order of the tree's leaves.
pub type Codes = Vec<Code>;

/// Reads 80 trees.
pub fn trees(reader: &mut FieldReader) -> Result<Vec<Codes>, SetupFault> {
    (0..80)
        .map(|_| {
            let mut codes = Vec::new();
            tree(reader, 0, 0, &mut codes)?;
            Ok(codes)
        })
        .collect()
}

/// Reads the tree below the code of these bits, depth first.
fn tree(
    reader: &mut FieldReader,
    bits: u64,
    length: usize,
    codes: &mut Codes,
) -> Result<(), SetupFault> {
    let place = reader.place();
    let refused = |field| {
        let fault = Fault { number: 7, place };
        Err(SetupFault { fault, field })
    };
    let is_leaf = reader.read(Field::LeafBit, 1)? == 1;
    if is_leaf && codes.len() == MOST {
        return refused(Field::Leaf);
    }
    if is_leaf {
        let token = reader.read(Field::Token, 5)?;
        codes.push(Code {
            bits,
            length,
            token,
        });
        return Ok(());
    }
    if length == MOST {
        return refused(Field::Branch);
    }
    tree(reader, 2 * bits, length + 1, codes)?;
    tree(reader, 2 * bits + 1, length + 1, codes)
}

#[cfg(test)]
mod tests {
    use super::super::setup::setup;
    use super::super::setup::tests::{begin, fault, put_copies, put_lone_leaves, small};
    use super::*;
    use recording::bit_writer::BitWriter;

    /// A header whose first tree begins so.
    fn header(put: impl FnOnce(&mut BitWriter)) -> (BitWriter, u64) {
        let mut bits = begin(0);
        put_copies(&mut bits, 0);
        let first = bits.length();
        put(&mut bits);
        (bits, first)
    }

    /// The first tree's codes; the others are lone leaves.
    fn codes(put: impl FnOnce(&mut BitWriter)) -> Codes {
        let (mut bits, _) = header(put);
        put_lone_leaves(&mut bits);
        setup(bits.bytes()).unwrap().codes.swap_remove(0)
    }

    /// The fault of a first tree, its place counted from the tree's first bit.
    fn tree_fault(put: impl FnOnce(&mut BitWriter)) -> (u32, u64, Field) {
        let (bits, first) = header(put);
        let (number, place, field) = fault(bits.bytes());
        (number, place - first, field)
    }

    fn leaf(bits: &mut BitWriter, token: u64) {
        bits.put(1, 1);
        bits.put(token, 5);
    }

    /// A comb to the right: so many leaves, each with a branch before it.
    fn comb(bits: &mut BitWriter, leaves: u64) {
        for token in 0..leaves {
            bits.put(0, 1);
            leaf(bits, token % 32);
        }
    }

    #[test]
    fn a_lone_leaf_has_the_empty_code() {
        let read = setup(small().bytes()).unwrap();
        let empty = |token| Code {
            bits: 0,
            length: 0,
            token,
        };
        assert_eq!(read.codes[33], [empty(1)]);
    }

    #[test]
    fn the_0_branch_comes_first() {
        let codes = codes(|bits| {
            bits.put(0, 1);
            leaf(bits, 9);
            bits.put(0, 1);
            leaf(bits, 8);
            leaf(bits, 7);
        });
        let pairs: Vec<_> = codes.iter().map(|c| (c.bits, c.length, c.token)).collect();
        assert_eq!(pairs, [(0, 1, 9), (2, 2, 8), (3, 2, 7)]);
    }

    #[test]
    fn a_comb_of_32_leaves_has_depth_31() {
        let codes = codes(|bits| {
            comb(bits, 31);
            leaf(bits, 31);
        });
        assert_eq!(codes.len(), 32);
        let last = codes[31];
        assert_eq!((last.length, last.bits), (31, (1 << 31) - 1));
    }

    #[test]
    fn a_33rd_leaf_is_7_at_its_leaf_bit() {
        let fault = tree_fault(|bits| {
            comb(bits, 32);
            leaf(bits, 0);
        });
        assert_eq!(fault, (7, 32 * 7, Field::Leaf));
        let before_its_token = tree_fault(|bits| {
            comb(bits, 32);
            bits.put(1, 1);
        });
        assert_eq!(before_its_token, (7, 32 * 7, Field::Leaf));
    }

    #[test]
    fn a_branch_at_depth_32_is_7_at_that_bit() {
        assert_eq!(tree_fault(|bits| bits.put(0, 40)), (7, 32, Field::Branch));
        let after_leaves = tree_fault(|bits| {
            comb(bits, 32);
            bits.put(0, 1);
        });
        assert_eq!(after_leaves, (7, 32 * 7, Field::Branch));
    }

    #[test]
    fn a_leaf_at_depth_32_is_too_many_in_the_end() {
        let fault = tree_fault(|bits| {
            bits.put(0, 32);
            (0..33).for_each(|token| leaf(bits, token % 32));
        });
        assert_eq!(fault, (7, 32 + 32 * 6, Field::Leaf));
    }
}
