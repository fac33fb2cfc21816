//! Where samples lie in a plane buffer: plane 0 first, rows bottom first.

use super::super::members::Block;
use super::super::sizes::Sizes;

/// The offset of sample (column, row) of a block that the frame has.
pub fn sample_offset(sizes: &Sizes, (plane, (x, y)): Block, column: u64, row: u64) -> u64 {
    let plane = sizes.planes[plane as usize];
    let width = 8 * plane.across;
    let (sample_x, sample_y) = (8 * x + column, 8 * y + row);
    plane.offset + width * sample_y + sample_x
}

/// Every sample of a frame in the order of the buffer, as block, column and row.
pub fn walk(sizes: &Sizes) -> Vec<(Block, u64, u64)> {
    let mut samples = Vec::new();
    for (plane, size) in (0..).zip(sizes.planes) {
        for y in 0..size.up {
            for row in 0..8 {
                for x in 0..size.across {
                    samples.extend((0..8).map(|column| ((plane, (x, y)), column, row)));
                }
            }
        }
    }
    samples
}

#[cfg(test)]
mod tests {
    use super::super::super::session::Fields;
    use super::super::super::sizes::sizes;
    use super::*;

    #[test]
    fn the_walk_fills_the_buffer_in_order() {
        for pf in [0, 2, 3] {
            for (fmbw, fmbh) in [(1, 1), (1, 2), (2, 1), (3, 2)] {
                let frame = sizes(&Fields {
                    fmbw,
                    fmbh,
                    pf,
                    ..Fields::default()
                });
                let samples = walk(&frame);
                assert_eq!(samples.len() as u64, frame.buffer);
                for (offset, (block, column, row)) in (0..).zip(samples) {
                    assert_eq!(sample_offset(&frame, block, column, row), offset);
                }
            }
        }
    }
}
