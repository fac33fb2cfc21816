//! The two ways of making a frame of what its packet says.

use super::super::frame::record::{Prediction, Record};
use super::super::frame::{FramePacket, Kind};
use super::super::layout::Layout;
use super::super::matrices::matrix;
use super::super::numeric::sample;
use super::super::setup::Setup;
use super::dc;
use super::loop_filter::filter_block;
use super::prediction;
use super::residual::{Quantized, dequantized, is_dc_only, residual};
use super::transform::rows_then_columns;

/// Which way.
#[derive(Clone, Copy, Debug, PartialEq, Eq)]
pub enum Way {
    /// "make all blocks as said, then go over all for the loop filter"
    First,
    /// "take previous whole, write the coded blocks over it, predicted from
    /// golden and previous themselves, then go over only these for the loop
    /// filter"
    Second,
}

/// What a frame is made of, beside its packet.
#[derive(Clone, Copy)]
pub struct Source<'a> {
    /// Sizes and orders.
    pub layout: &'a Layout,
    /// Limits and matrices.
    pub setup: &'a Setup,
    /// The golden frame.
    pub golden: &'a [u8],
    /// The previous frame.
    pub previous: &'a [u8],
}

/// Makes the frame of a packet.
pub fn make(way: Way, source: Source, packet: &FramePacket, new: &mut [u8]) {
    match way {
        Way::First => first_way(source, packet, new),
        Way::Second => second_way(source, packet, new),
    }
}

/// All blocks, then the filter over all.
fn first_way(source: Source, packet: &FramePacket, new: &mut [u8]) {
    let layout = source.layout;
    let maker = Maker::new(source, packet);
    let mut numbers = vec![None; layout.blocks.len()];
    for (number, block) in packet.coded.iter().enumerate() {
        numbers[*block] = Some(number);
    }
    for (block, number) in numbers.iter().enumerate() {
        match number {
            Some(number) => put(layout, block, &maker.coded_block(block, *number), new),
            None => put(layout, block, &copied_block(source, block), new),
        }
    }
    for (block, record) in packet.records.iter().enumerate() {
        if record.coded {
            filter_block(layout, &packet.records, block, maker.limit, new);
        }
    }
}

/// Previous whole, the coded blocks over it, then the filter over only these.
fn second_way(source: Source, packet: &FramePacket, new: &mut [u8]) {
    new.copy_from_slice(source.previous);
    let maker = Maker::new(source, packet);
    for (number, block) in packet.coded.iter().enumerate() {
        put(
            source.layout,
            *block,
            &maker.coded_block(*block, number),
            new,
        );
    }
    let mut in_raster_order = packet.coded.clone();
    in_raster_order.sort_unstable();
    for block in in_raster_order {
        filter_block(source.layout, &packet.records, block, maker.limit, new);
    }
}

/// The matrices of one type and plane: of each qi of the list.
type Matrices = Vec<Vec<u64>>;

/// What the coded blocks of a frame are made of.
struct Maker<'a> {
    source: Source<'a>,
    packet: &'a FramePacket,
    /// The final DC of each block, in raster order.
    dc: Vec<i64>,
    /// By type (0 intra, 1 inter) and plane.
    matrices: [[Matrices; 3]; 2],
    /// "L is the limit of the first qi."
    limit: i64,
}

impl<'a> Maker<'a> {
    fn new(source: Source<'a>, packet: &'a FramePacket) -> Maker<'a> {
        let of_qis = |kind, plane| {
            let of_qi = |qi: &usize| matrix(source.setup, kind, plane, *qi);
            packet.qis.iter().map(of_qi).collect()
        };
        let of_kind = |kind| std::array::from_fn(|plane| of_qis(kind, plane));
        Maker {
            source,
            packet,
            dc: dc::predicted(source.layout, packet),
            matrices: match packet.kind {
                Kind::Inter => [of_kind(0), of_kind(1)],
                // Nothing is predicted in an intra frame.
                _ => [of_kind(0), Default::default()],
            },
            limit: packet.qis.first().map_or(0, |qi| source.setup.limits[*qi]) as i64,
        }
    }

    /// A coded block, given its raster number and its number among the coded.
    fn coded_block(&self, block: usize, number: usize) -> [u8; 64] {
        let Source {
            layout,
            golden,
            previous,
            ..
        } = self.source;
        let place = layout.blocks[block];
        let prediction = self.packet.records[block].prediction;
        let predicted = prediction::predicted(layout, place, prediction, golden, previous);
        let residual = residual(&self.quantized(block, number));
        std::array::from_fn(|i| sample(predicted[i] + residual[i]))
    }

    /// What its residual is made of.
    fn quantized(&self, block: usize, number: usize) -> Quantized<'_> {
        let Record {
            qi_index,
            prediction,
            ..
        } = self.packet.records[block];
        let plane = self.source.layout.blocks[block].plane;
        let kind = usize::from(prediction != Prediction::None);
        let matrices = &self.matrices[kind][plane];
        Quantized {
            dc: self.dc[block],
            coefficients: &self.packet.coefficients[number],
            dc_only: is_dc_only(self.packet.last_visits[number]),
            dc_quantizer: matrices[0][0] as i64,
            matrix: &matrices[qi_index],
        }
    }
}

/// Whether x+8 passes 16 bits in the last shift of some block. libtheora's
/// vector code makes another frame then.
pub fn passes_16_bits(source: Source, packet: &FramePacket) -> bool {
    let maker = Maker::new(source, packet);
    let coded = packet.coded.iter().enumerate();
    coded
        .map(|(number, block)| maker.quantized(*block, number))
        .filter(|block| !block.dc_only)
        .flat_map(|block| rows_then_columns(&dequantized(&block)))
        .any(|x| x + 8 > 32767)
}

/// "Uncoded blocks copy previous."
fn copied_block(source: Source, block: usize) -> [u8; 64] {
    let (corner, width) = corner(source.layout, block);
    std::array::from_fn(|i| source.previous[corner + i / 8 * width + i % 8])
}

/// Writes a block into a buffer.
fn put(layout: &Layout, block: usize, samples: &[u8; 64], buffer: &mut [u8]) {
    let (corner, width) = corner(layout, block);
    for (row, samples) in samples.chunks(8).enumerate() {
        buffer[corner + row * width..][..8].copy_from_slice(samples);
    }
}

/// Where a block's lower left sample lies in a buffer, and how wide its plane is.
fn corner(layout: &Layout, block: usize) -> (usize, usize) {
    let place = layout.blocks[block];
    let plane = layout.sizes.planes[place.plane];
    let width = 8 * plane.across as usize;
    (
        plane.offset as usize + 8 * place.y * width + 8 * place.x,
        width,
    )
}
