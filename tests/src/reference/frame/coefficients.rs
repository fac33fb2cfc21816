//! The coefficients of the coded blocks, position by position.

use super::super::layout::Layout;
use super::codebook::Codebooks;
use super::reader::{Field, FrameFault, FrameReader};
use super::token::{Token, token};

/// The position of a block that is finished.
const FINISHED: u8 = 64;

/// What is read, for each coded block in coded order.
pub struct Coefficients {
    /// 64 coefficients in zig-zag order.
    pub blocks: Vec<[i16; 64]>,
    /// The position of the last visit.
    pub last_visits: Vec<u8>,
    /// How many tokens were read.
    pub tokens: u64,
}

/// The state of reading.
struct Walk<'a, 'b, 'c> {
    reader: &'a mut FrameReader<'b>,
    codebooks: &'c Codebooks,
    read: Coefficients,
    /// Where each block is.
    positions: Vec<u8>,
    /// How many more blocks are ended by the last ending token.
    ending: usize,
}

/// Reads the coefficients of the coded blocks: "zig-zag positions 0 to 63; at
/// 0 and 1, two 4-bit table choices (luma, chroma), also if no block is coded.
/// At each position the coded blocks there are visited in coded order."
pub fn coefficients(
    reader: &mut FrameReader,
    layout: &Layout,
    codebooks: &Codebooks,
    coded: &[usize],
) -> Result<Coefficients, FrameFault> {
    let read = Coefficients {
        blocks: vec![[0; 64]; coded.len()],
        last_visits: vec![0; coded.len()],
        tokens: 0,
    };
    let chroma: Vec<usize> = coded
        .iter()
        .map(|block| usize::from(layout.blocks[*block].plane > 0))
        .collect();
    let mut walk = Walk {
        reader,
        codebooks,
        read,
        positions: vec![0; coded.len()],
        ending: 0,
    };
    let mut choices = [0, 0];
    for position in 0..64 {
        if position < 2 {
            choices = walk.choices(position)?;
        }
        for number in 0..coded.len() {
            if usize::from(walk.positions[number]) == position {
                let table = 16 * group(position) + choices[chroma[number]];
                walk.visit(number, position, table)?;
            }
        }
    }
    Ok(walk.read)
}

/// "Groups 0, 1–5, 6–14, 15–27, 28–63"
pub fn group(position: usize) -> usize {
    match position {
        0 => 0,
        1..=5 => 1,
        6..=14 => 2,
        15..=27 => 3,
        _ => 4,
    }
}

impl Walk<'_, '_, '_> {
    /// Reads the table choices of luma and chroma.
    fn choices(&mut self, position: usize) -> Result<[usize; 2], FrameFault> {
        let luma = self.reader.read(Field::Choice(position, 0), 4)?;
        let chroma = self.reader.read(Field::Choice(position, 1), 4)?;
        Ok([luma as usize, chroma as usize])
    }

    /// Visits a block: it is ended by a token read before, or has its own.
    fn visit(&mut self, number: usize, position: usize, table: usize) -> Result<(), FrameFault> {
        self.read.last_visits[number] = position as u8;
        if self.ending == 0 {
            self.take_token(number, position, table)?;
        }
        if self.ending > 0 {
            self.ending -= 1;
            self.positions[number] = FINISHED;
        }
        Ok(())
    }

    /// Reads a token of a block. It is judged after all its bits and reported
    /// at its Huffman code.
    fn take_token(
        &mut self,
        number: usize,
        position: usize,
        table: usize,
    ) -> Result<(), FrameFault> {
        let place = self.reader.place();
        let book = &self.codebooks[table];
        let read = self.reader.whole(Field::Token, |bits| {
            let number = book.read(bits)?;
            token(bits, number)
        })?;
        self.read.tokens += 1;
        match read {
            Token::End(blocks) => self.ending = blocks,
            Token::EndAll => self.ending = self.unfinished(),
            Token::Zeros(_) | Token::Value { .. } => {
                let end = position + read.moves();
                if end > 64 {
                    return Err(FrameFault::new(13, place, Field::Token));
                }
                if let Token::Value { value, .. } = read {
                    self.read.blocks[number][end - 1] = value;
                }
                self.positions[number] = end as u8;
            }
        }
        Ok(())
    }

    /// How many blocks are unfinished, the present one included.
    fn unfinished(&self) -> usize {
        let unfinished = |position: &&u8| **position < FINISHED;
        self.positions.iter().filter(unfinished).count()
    }
}
