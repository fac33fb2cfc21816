//! Where the blocks of a frame lie and in which order they are sent: what the
//! frame packets of one session have in common.
//!
//! A block is named by its raster number: planes follow on, in a plane the
//! lowest row comes first.

use super::face::grid;
use super::members::{Block, blocks_of};
use super::order::Grid;
use super::session::Fields;
use super::sizes::{Plane, Sizes, sizes};

/// A block's place.
#[derive(Clone, Copy, Debug, PartialEq, Eq)]
pub struct BlockPlace {
    /// 0 is Y', 1 is Cb, 2 is Cr.
    pub plane: usize,
    /// From the left.
    pub x: usize,
    /// From below.
    pub y: usize,
}

/// The blocks of a macro block.
#[derive(Clone, Debug, PartialEq, Eq)]
pub struct MacroBlock {
    /// A, B (lower), C, D.
    pub luma: [usize; 4],
    /// Of Cb and of Cr, rows from below.
    pub chroma: [Vec<usize>; 2],
}

/// The orders of a frame's blocks.
#[derive(Clone, Debug)]
pub struct Layout {
    /// PF.
    pub format: u64,
    /// The sizes.
    pub sizes: Sizes,
    /// The place of each block, in raster order.
    pub blocks: Vec<BlockPlace>,
    /// The blocks of each super block, in coded order; planes follow on.
    pub super_blocks: Vec<Vec<usize>>,
    /// The macro blocks in coded order.
    pub macro_blocks: Vec<MacroBlock>,
}

impl Layout {
    /// The layout of a frame with these fields, which are sound.
    pub fn new(fields: &Fields) -> Layout {
        let sizes = sizes(fields);
        let macro_blocks = Grid::macro_blocks(fields.fmbw, fields.fmbh).walk();
        Layout {
            format: fields.pf,
            blocks: raster(&sizes),
            super_blocks: super_blocks(&sizes),
            macro_blocks: macro_blocks
                .into_iter()
                .map(|place| macro_block(&sizes, blocks_of(fields.pf, place)))
                .collect(),
            sizes,
        }
    }

    /// The blocks in coded order.
    pub fn coded_order(&self) -> impl Iterator<Item = usize> + '_ {
        self.super_blocks.iter().flatten().copied()
    }
}

/// "number = blocks before the plane + y·across + x"
fn raster_number(sizes: &Sizes, (plane, (x, y)): Block) -> usize {
    let plane = plane as usize;
    let before: u64 = sizes.planes[..plane].iter().map(Plane::blocks).sum();
    (before + y * sizes.planes[plane].across + x) as usize
}

/// Every block's place, in raster order.
fn raster(sizes: &Sizes) -> Vec<BlockPlace> {
    let mut places = Vec::new();
    for (plane, size) in sizes.planes.iter().enumerate() {
        for y in 0..size.up as usize {
            places.extend((0..size.across as usize).map(|x| BlockPlace { plane, x, y }));
        }
    }
    places
}

/// The blocks of each super block, in coded order.
fn super_blocks(sizes: &Sizes) -> Vec<Vec<usize>> {
    let mut all = Vec::new();
    for (number, plane) in (0..).zip(&sizes.planes) {
        for super_block in grid(plane).walk_super_blocks() {
            let blocks = super_block.into_iter();
            all.push(
                blocks
                    .map(|place| raster_number(sizes, (number, place)))
                    .collect(),
            );
        }
    }
    all
}

/// A macro block of these blocks.
fn macro_block(sizes: &Sizes, blocks: Vec<Block>) -> MacroBlock {
    let of_plane = |plane| {
        let blocks = blocks.iter().filter(move |block| block.0 == plane);
        blocks.map(|block| raster_number(sizes, *block))
    };
    let mut luma = [0; 4];
    for (number, block) in of_plane(0).enumerate() {
        luma[number] = block;
    }
    MacroBlock {
        luma,
        chroma: [of_plane(1).collect(), of_plane(2).collect()],
    }
}

#[cfg(test)]
pub mod tests {
    use super::*;

    /// The layout of a frame.
    pub fn layout(fmbw: u64, fmbh: u64, pf: u64) -> Layout {
        Layout::new(&Fields::of_frame(fmbw, fmbh, pf))
    }

    #[test]
    fn two_macro_blocks_side_by_side() {
        let layout = layout(2, 1, 0);
        // 00 10 11 01, then 31 21 20 30: what lies higher is absent.
        let order: Vec<usize> = layout.coded_order().collect();
        assert_eq!(order, [0, 1, 5, 4, 7, 6, 2, 3, 8, 9, 10, 11]);
        assert_eq!(layout.macro_blocks[1].luma, [2, 3, 6, 7]);
        assert_eq!(layout.macro_blocks[1].chroma, [vec![9], vec![11]]);
        let place = BlockPlace {
            plane: 1,
            x: 1,
            y: 0,
        };
        assert_eq!(layout.blocks[9], place);
    }

    #[test]
    fn every_block_comes_once_in_each_order() {
        for pf in [0, 2, 3] {
            for (fmbw, fmbh) in [(1, 1), (1, 2), (5, 3), (4, 4)] {
                let layout = layout(fmbw, fmbh, pf);
                let all: Vec<usize> = (0..layout.sizes.nbs as usize).collect();
                let mut order: Vec<usize> = layout.coded_order().collect();
                order.sort_unstable();
                assert_eq!(order, all);
                let mut members = Vec::new();
                for macro_block in &layout.macro_blocks {
                    members.extend(macro_block.luma);
                    members.extend(macro_block.chroma.iter().flatten());
                }
                members.sort_unstable();
                assert_eq!(members, all);
                assert_eq!(layout.blocks.len(), all.len());
                assert_eq!(layout.super_blocks.len() as u64, layout.sizes.nsbs);
            }
        }
    }
}
