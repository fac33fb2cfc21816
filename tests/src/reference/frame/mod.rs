//! A frame packet, read to its end.
//!
//! Each heading of the rules has a file: the header, runs of bits, coded
//! flags, modes, vectors, block qi, tokens, and the walk over the coded blocks
//! that reads their coefficients.

pub mod block_qi;
pub mod codebook;
pub mod coefficients;
pub mod flags;
pub mod header;
pub mod modes;
pub mod reader;
pub mod record;
pub mod runs;
pub mod token;
pub mod vectors;

use super::layout::Layout;
use codebook::Codebooks;
use coefficients::Coefficients;
use header::Header;
use modes::Mode;
use reader::{Field, FrameFault, FrameReader};
use record::Record;

/// The kind of a frame.
#[derive(Clone, Copy, Debug, PartialEq, Eq, PartialOrd, Ord)]
pub enum Kind {
    /// Every block is coded, none is predicted.
    Intra,
    /// Blocks may be predicted.
    Inter,
    /// An empty packet: the previous frame once more.
    Repeat,
}

/// What a frame packet says.
#[derive(Clone, Debug, PartialEq, Eq)]
pub struct FramePacket {
    /// Intra, inter or repeat.
    pub kind: Kind,
    /// The qi list, empty for a repeat.
    pub qis: Vec<usize>,
    /// Which blocks are coded, in coded order.
    pub flags: Vec<bool>,
    /// The coded blocks' raster numbers, in coded order.
    pub coded: Vec<usize>,
    /// Each block's record, in raster order.
    pub records: Vec<Record>,
    /// Each macro block's mode, in coded order.
    pub modes: Vec<Mode>,
    /// For each coded block, in coded order, its 64 coefficients in zig-zag
    /// order, as read.
    pub coefficients: Vec<[i16; 64]>,
    /// For each coded block, in coded order, the position of its last visit.
    pub last_visits: Vec<u8>,
    /// How many tokens were read.
    pub tokens: u64,
    /// How many bits were read.
    pub bits: u64,
}

/// Reads a frame packet: what it says, or the first fault in reading order.
pub fn read(
    layout: &Layout,
    codebooks: &Codebooks,
    references: bool,
    packet: &[u8],
) -> Result<FramePacket, FrameFault> {
    if packet.is_empty() {
        return match references {
            true => Ok(repeat(layout)),
            false => Err(FrameFault::new(9, 0, Field::Packet)),
        };
    }
    let mut reader = FrameReader::new(packet);
    let Header { kind, qis } = header::header(&mut reader, references)?;
    let flags = match kind {
        Kind::Inter => flags::coded_flags(&mut reader, layout)?,
        _ => vec![true; layout.blocks.len()],
    };
    let coded = coded_blocks(layout, &flags);
    let mut records = vec![Record::UNCODED; layout.blocks.len()];
    coded.iter().for_each(|block| records[*block].coded = true);
    let modes = match kind {
        Kind::Inter => {
            let modes = modes::modes(&mut reader, layout, &records)?;
            vectors::vectors(&mut reader, layout, &modes, &mut records)?;
            modes
        }
        _ => vec![Mode::Intra; layout.macro_blocks.len()],
    };
    block_qi::block_qi(&mut reader, qis.len(), &coded, &mut records)?;
    let Coefficients {
        blocks,
        last_visits,
        tokens,
    } = coefficients::coefficients(&mut reader, layout, codebooks, &coded)?;
    Ok(FramePacket {
        kind,
        qis,
        flags,
        coded,
        records,
        modes,
        coefficients: blocks,
        last_visits,
        tokens,
        bits: reader.place(),
    })
}

/// "An empty packet codes no block."
fn repeat(layout: &Layout) -> FramePacket {
    FramePacket {
        kind: Kind::Repeat,
        qis: Vec::new(),
        flags: vec![false; layout.blocks.len()],
        coded: Vec::new(),
        records: vec![Record::UNCODED; layout.blocks.len()],
        modes: vec![Mode::NoMv; layout.macro_blocks.len()],
        coefficients: Vec::new(),
        last_visits: Vec::new(),
        tokens: 0,
        bits: 0,
    }
}

/// The coded blocks in coded order, given the flags in coded order.
fn coded_blocks(layout: &Layout, flags: &[bool]) -> Vec<usize> {
    let order = layout.coded_order().zip(flags);
    order.filter(|(_, coded)| **coded).map(|b| b.0).collect()
}

#[cfg(test)]
pub mod tests;
