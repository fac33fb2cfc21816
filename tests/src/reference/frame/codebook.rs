//! Finds the code that the next bits begin with.
//!
//! The codes of a tree part the numbers of 32 bits among them: a code has
//! those that begin with it. They come in the order of the leaves, so the code
//! of a number is the last one that begins at it or below.

use super::super::bits::{BitReader, Fault};
use super::super::setup::Setup;
use super::super::trees::{Code, Codes};

/// A table of codes.
pub struct Codebook {
    /// The first number of each code.
    starts: Vec<u64>,
    codes: Codes,
}

/// The 80 tables of a setup.
pub type Codebooks = Vec<Codebook>;

/// The tables of a setup.
pub fn codebooks(setup: &Setup) -> Codebooks {
    setup.codes.iter().map(Codebook::new).collect()
}

impl Codebook {
    /// A table of a tree's codes.
    pub fn new(codes: &Codes) -> Codebook {
        let start = |code: &Code| code.bits << (32 - code.length);
        Codebook {
            starts: codes.iter().map(start).collect(),
            codes: codes.clone(),
        }
    }

    /// The codes.
    pub fn codes(&self) -> &Codes {
        &self.codes
    }

    /// Reads a code and gives its token. Bits behind the end look like zeros;
    /// a code that takes one of them passes the end.
    pub fn read(&self, bits: &mut BitReader) -> Result<u64, Fault> {
        let next = u64::from(bits.next_32());
        let behind = self.starts.partition_point(|start| *start <= next);
        let code = &self.codes[behind - 1];
        bits.read(code.length as u32)?;
        Ok(code.token)
    }
}

#[cfg(test)]
mod tests {
    use super::*;
    use crate::random::Random;
    use crate::reference::setup::setup;
    use crate::setup_header::accepted;

    /// The token that is found bit by bit.
    fn by_bits(codes: &Codes, bits: &mut BitReader) -> Result<u64, Fault> {
        let first = bits.place();
        let (mut number, mut length) = (0, 0);
        loop {
            let is_it = |code: &&Code| code.length == length && code.bits == number;
            if let Some(code) = codes.iter().find(is_it) {
                return Ok(code.token);
            }
            number = 2 * number
                + bits.read(1).map_err(|fault| Fault {
                    place: first,
                    ..fault
                })?;
            length += 1;
        }
    }

    #[test]
    fn it_is_what_is_found_bit_by_bit() {
        let mut random = Random::new(8);
        for _ in 0..20 {
            let setup = setup(accepted(&mut random, false).bytes()).unwrap();
            for book in codebooks(&setup) {
                let length = 1 + random.below(8);
                let packet: Vec<u8> = (0..length).map(|_| random.byte()).collect();
                let (mut one, mut other) = (BitReader::new(&packet), BitReader::new(&packet));
                for _ in 0..70 {
                    let token = book.read(&mut one);
                    assert_eq!(token, by_bits(book.codes(), &mut other));
                    if token.is_err() {
                        break;
                    }
                    assert_eq!(one.place(), other.place());
                }
            }
        }
    }
}
