//! The 32 tokens.

use super::super::bits::{BitReader, Fault};

/// What a token says.
#[derive(Clone, Copy, Debug, PartialEq, Eq)]
pub enum Token {
    /// Ends so many blocks.
    End(usize),
    /// Ends all unfinished blocks.
    EndAll,
    /// So many zeros.
    Zeros(usize),
    /// A value after so many zeros.
    Value {
        /// Zeros before it.
        zeros: usize,
        /// The value.
        value: i16,
    },
}

/// How many bits follow the code of each token.
pub const EXTRA_BITS: [u32; 32] = [
    0, 0, 0, 2, 3, 4, 12, 3, 6, 0, 0, 0, 0, 1, 1, 1, 1, 2, 3, 4, 5, 6, 10, 1, 1, 1, 1, 1, 3, 4, 2,
    3,
];

/// Reads what follows the code of a token.
pub fn token(bits: &mut BitReader, number: u64) -> Result<Token, Fault> {
    let token = match number {
        0..=2 => Token::End(number as usize + 1),
        3 => Token::End(4 + count(bits, 2)?),
        4 => Token::End(8 + count(bits, 3)?),
        5 => Token::End(16 + count(bits, 4)?),
        6 => match count(bits, 12)? {
            0 => Token::EndAll,
            blocks => Token::End(blocks),
        },
        7 => Token::Zeros(1 + count(bits, 3)?),
        8 => Token::Zeros(1 + count(bits, 6)?),
        9 => value(0, 1),
        10 => value(0, -1),
        11 => value(0, 2),
        12 => value(0, -2),
        13..=16 => value(0, sign(bits)? * (number as i16 - 10)),
        17 => signed(bits, 7, 1)?,
        18 => signed(bits, 9, 2)?,
        19 => signed(bits, 13, 3)?,
        20 => signed(bits, 21, 4)?,
        21 => signed(bits, 37, 5)?,
        22 => signed(bits, 69, 9)?,
        23..=27 => value(number as usize - 22, sign(bits)?),
        28 => after_zeros(bits, 6, 2)?,
        29 => after_zeros(bits, 10, 3)?,
        30 => {
            let sign = sign(bits)?;
            value(1, sign * (2 + count(bits, 1)? as i16))
        }
        31 => {
            let sign = sign(bits)?;
            let magnitude = 2 + count(bits, 1)? as i16;
            value(2 + count(bits, 1)?, sign * magnitude)
        }
        _ => unreachable!("tokens have 5 bits"),
    };
    Ok(token)
}

/// A value after some zeros.
fn value(zeros: usize, value: i16) -> Token {
    Token::Value { zeros, value }
}

/// Some bits as a number.
fn count(bits: &mut BitReader, width: u32) -> Result<usize, Fault> {
    Ok(bits.read(width)? as usize)
}

/// "Sign 1 is minus."
fn sign(bits: &mut BitReader) -> Result<i16, Fault> {
    Ok(if bits.read(1)? == 1 { -1 } else { 1 })
}

/// A sign, then a magnitude to which some bits are added.
fn signed(bits: &mut BitReader, magnitude: i16, width: u32) -> Result<Token, Fault> {
    let sign = sign(bits)?;
    Ok(value(0, sign * (magnitude + count(bits, width)? as i16)))
}

/// A sign, then a number of zeros to which some bits are added; the value is 1.
fn after_zeros(bits: &mut BitReader, zeros: usize, width: u32) -> Result<Token, Fault> {
    let sign = sign(bits)?;
    Ok(value(zeros + count(bits, width)?, sign))
}

impl Token {
    /// How many positions a token moves its block, if it does not end it.
    pub fn moves(self) -> usize {
        match self {
            Token::End(_) | Token::EndAll => 0,
            Token::Zeros(zeros) => zeros,
            Token::Value { zeros, .. } => zeros + 1,
        }
    }
}

#[cfg(test)]
mod tests {
    use super::*;
    use recording::bit_writer::BitWriter;

    /// What a token says with all its extra bits 0, and with all 1.
    fn ends(number: u64) -> [Token; 2] {
        [0, u64::MAX].map(|extra| {
            let width = EXTRA_BITS[number as usize];
            let mut bits = BitWriter::default();
            bits.put(extra, width);
            let mut reader = BitReader::new(bits.bytes());
            let token = token(&mut reader, number).unwrap();
            assert_eq!(reader.place(), u64::from(width));
            token
        })
    }

    #[test]
    fn tokens_that_end_blocks() {
        assert_eq!(ends(0), [Token::End(1); 2]);
        assert_eq!(ends(1), [Token::End(2); 2]);
        assert_eq!(ends(2), [Token::End(3); 2]);
        assert_eq!(ends(3), [Token::End(4), Token::End(7)]);
        assert_eq!(ends(4), [Token::End(8), Token::End(15)]);
        assert_eq!(ends(5), [Token::End(16), Token::End(31)]);
        assert_eq!(ends(6), [Token::EndAll, Token::End(4095)]);
    }

    #[test]
    fn zeros() {
        assert_eq!(ends(7), [Token::Zeros(1), Token::Zeros(8)]);
        assert_eq!(ends(8), [Token::Zeros(1), Token::Zeros(64)]);
    }

    #[test]
    fn values() {
        for (number, least, greatest) in [
            (9, 1, 1),
            (10, -1, -1),
            (11, 2, 2),
            (12, -2, -2),
            (13, 3, -3),
            (14, 4, -4),
            (15, 5, -5),
            (16, 6, -6),
            (17, 7, -8),
            (18, 9, -12),
            (19, 13, -20),
            (20, 21, -36),
            (21, 37, -68),
            (22, 69, -580),
        ] {
            assert_eq!(ends(number), [value(0, least), value(0, greatest)]);
        }
    }

    #[test]
    fn zeros_and_a_value() {
        for number in 23..28 {
            let zeros = number as usize - 22;
            assert_eq!(ends(number), [value(zeros, 1), value(zeros, -1)]);
        }
        assert_eq!(ends(28), [value(6, 1), value(9, -1)]);
        assert_eq!(ends(29), [value(10, 1), value(17, -1)]);
        assert_eq!(ends(30), [value(1, 2), value(1, -3)]);
        assert_eq!(ends(31), [value(2, 2), value(3, -3)]);
    }

    /// Of token 31 the magnitude comes before the zeros.
    #[test]
    fn the_order_of_extra_bits() {
        let mut reader = BitReader::new(&[0b0100_0100]);
        assert_eq!(token(&mut reader, 31), Ok(value(2, 3)));
        assert_eq!(token(&mut reader, 31), Ok(value(3, 2)));
        let mut reader = BitReader::new(&[0b1100_0000]);
        assert_eq!(token(&mut reader, 30), Ok(value(1, -3)));
        let mut reader = BitReader::new(&[0b1010_0000]);
        assert_eq!(token(&mut reader, 28), Ok(value(7, -1)));
    }
}
