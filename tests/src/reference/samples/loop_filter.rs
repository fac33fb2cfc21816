//! The loop filter.

use super::super::frame::record::Record;
use super::super::layout::{BlockPlace, Layout};
use super::super::numeric::sample;

/// "R if |R|<L; sign·(2L−|R|) if L≤|R|<2L; else 0"
pub fn response(r: i64, limit: i64) -> i64 {
    let magnitude = r.abs();
    if magnitude < limit {
        r
    } else if magnitude < 2 * limit {
        r.signum() * (2 * limit - magnitude)
    } else {
        0
    }
}

/// Filters the edges of a coded block: "left, lower edge inside the plane,
/// right and upper edge only if that neighbour is uncoded".
pub fn filter_block(
    layout: &Layout,
    records: &[Record],
    block: usize,
    limit: i64,
    buffer: &mut [u8],
) {
    let BlockPlace { plane, x, y } = layout.blocks[block];
    let size = layout.sizes.planes[plane];
    let (across, up) = (size.across as usize, size.up as usize);
    let width = 8 * across;
    // The sample at the block's lower left corner.
    let corner = size.offset as usize + 8 * y * width + 8 * x;
    if x > 0 {
        filter_edge(buffer, corner - 2, 1, width, limit);
    }
    if y > 0 {
        filter_edge(buffer, corner - 2 * width, width, 1, limit);
    }
    if x + 1 < across && !records[block + 1].coded {
        filter_edge(buffer, corner + 6, 1, width, limit);
    }
    if y + 1 < up && !records[block + across].coded {
        filter_edge(buffer, corner + 6 * width, width, 1, limit);
    }
}

/// Filters 8 lines across an edge. The first line's p0 is at `first`; from p0
/// to p1 it is one step across, from line to line one step along.
fn filter_edge(buffer: &mut [u8], first: usize, across: usize, along: usize, limit: i64) {
    for line in 0..8 {
        let p0 = first + line * along;
        let places = [p0, p0 + across, p0 + 2 * across, p0 + 3 * across];
        let p = places.map(|place| i64::from(buffer[place]));
        let r = (p[0] - 3 * p[1] + 3 * p[2] - p[3] + 4) >> 3;
        let f = response(r, limit);
        buffer[places[1]] = sample(p[1] + f);
        buffer[places[2]] = sample(p[2] - f);
    }
}

#[cfg(test)]
mod tests {
    use super::super::super::layout::tests::layout;
    use super::*;

    #[test]
    fn responses() {
        let of_10: Vec<i64> = [0, 9, 10, 15, 19, 20, 21, -9, -10, -15, -19, -20]
            .map(|r| response(r, 10))
            .into();
        assert_eq!(of_10, [0, 9, 10, 5, 1, 0, 0, -9, -10, -5, -1, 0]);
        assert!((-127..129).all(|r| response(r, 0) == 0));
    }

    #[test]
    fn an_edge_moves_one_sample_on_each_side() {
        let mut line = [100, 100, 120, 120, 0, 0, 0, 0];
        let mut buffer: Vec<u8> = line.repeat(8);
        filter_edge(&mut buffer, 0, 1, 8, 30);
        // R = (100 − 300 + 360 − 120 + 4) >> 3 = 5
        line[1] = 105;
        line[2] = 115;
        assert_eq!(buffer, line.repeat(8));
        // The same upward.
        let mut buffer = vec![0; 64];
        for (row, value) in [100, 100, 120, 120].into_iter().enumerate() {
            buffer[8 * row..8 * row + 8].fill(value);
        }
        filter_edge(&mut buffer, 0, 8, 1, 30);
        assert_eq!(buffer[8..24], [[105; 8], [115; 8]].concat());
    }

    #[test]
    fn samples_stay_in_range() {
        let mut buffer = [255, 0, 255, 0].repeat(8);
        filter_edge(&mut buffer, 0, 1, 4, 127);
        // R = (255 − 0 + 765 − 0 + 4) >> 3 = 128, f = 2·127 − 128 = 126
        assert_eq!(buffer[..4], [255, 126, 129, 0]);
        let mut buffer = [0, 1, 0, 0].repeat(8);
        filter_edge(&mut buffer, 0, 1, 4, 127);
        assert_eq!(buffer[..4], [0, 1, 0, 0]);
        let mut buffer = [255, 250, 255, 190].repeat(8);
        // R = (255 − 750 + 765 − 190 + 4) >> 3 = 10
        filter_edge(&mut buffer, 0, 1, 4, 127);
        assert_eq!(buffer[..4], [255, 255, 245, 190]);
    }

    /// The edges of a block in the middle, at a corner, and beside coded ones.
    #[test]
    fn which_edges() {
        let layout = layout(2, 2, 3);
        let edges = |block: usize, coded: &[usize]| {
            let mut records = vec![Record::UNCODED; layout.blocks.len()];
            for block in coded.iter().chain([&block]) {
                records[*block].coded = true;
            }
            // Columns of 8 that rise from left to right, and rows that rise.
            let mut buffer = vec![0; layout.sizes.buffer as usize];
            for (i, value) in buffer.iter_mut().enumerate() {
                let (x, y) = (i % 32, i / 32 % 32);
                *value = (20 * (x / 8) + 60 * (y / 8)) as u8;
            }
            let before = buffer.clone();
            filter_block(&layout, &records, block, 127, &mut buffer);
            let changed = |x: usize, y: usize| buffer[32 * y + x] != before[32 * y + x];
            let (x, y) = (8 * (block % 4), 8 * (block / 4));
            [
                x > 0 && changed(x - 1, y + 4),
                y > 0 && changed(x + 4, y - 1),
                x < 24 && changed(x + 8, y + 4),
                y < 24 && changed(x + 4, y + 8),
            ]
        };
        assert_eq!(edges(5, &[]), [true; 4]);
        assert_eq!(edges(5, &[4, 1, 6, 9]), [true, true, false, false]);
        assert_eq!(edges(5, &[6]), [true, true, false, true]);
        assert_eq!(edges(0, &[]), [false, false, true, true]);
        assert_eq!(edges(15, &[]), [true, true, false, false]);
    }
}
