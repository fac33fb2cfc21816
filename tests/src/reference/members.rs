//! Which blocks belong to which macro block.

use super::order::Place;
use super::sizes::chroma_step;

/// A plane and a place in it.
pub type Block = (u64, Place);

/// The blocks of a macro block, listed plane by plane, rows from the bottom.
pub fn blocks_of(pf: u64, (x, y): Place) -> Vec<Block> {
    let luma = [
        (2 * x, 2 * y),
        (2 * x + 1, 2 * y),
        (2 * x, 2 * y + 1),
        (2 * x + 1, 2 * y + 1),
    ];
    let chroma = match pf {
        0 => vec![(x, y)],
        2 => vec![(x, 2 * y), (x, 2 * y + 1)],
        _ => luma.to_vec(),
    };
    let planes = [luma.to_vec(), chroma.clone(), chroma];
    (0..)
        .zip(planes)
        .flat_map(|(plane, places)| places.into_iter().map(move |place| (plane, place)))
        .collect()
}

/// The macro block of a block: the one over the same luma samples.
pub fn macro_block_of(pf: u64, (plane, (x, y)): Block) -> Place {
    let (across, up) = if plane == 0 { (1, 1) } else { chroma_step(pf) };
    (8 * x * across / 16, 8 * y * up / 16)
}

#[cfg(test)]
mod tests {
    use super::super::session::Fields;
    use super::super::sizes::sizes;
    use super::*;
    use std::collections::HashSet;

    /// Each block of a frame belongs to exactly one macro block.
    #[test]
    fn macro_blocks_part_the_frame() {
        for pf in [0, 2, 3] {
            for (fmbw, fmbh) in [(1, 1), (2, 3), (5, 4), (7, 1)] {
                let mut seen = HashSet::new();
                for macro_block in (0..fmbw).flat_map(|x| (0..fmbh).map(move |y| (x, y))) {
                    for block in blocks_of(pf, macro_block) {
                        assert!(seen.insert(block));
                        assert_eq!(macro_block_of(pf, block), macro_block);
                    }
                }
                let fields = Fields {
                    fmbw,
                    fmbh,
                    pf,
                    ..Fields::default()
                };
                let frame = sizes(&fields);
                assert_eq!(seen.len() as u64, frame.nbs);
                assert!(seen.iter().all(|(plane, (x, y))| {
                    let plane = frame.planes[*plane as usize];
                    *x < plane.across && *y < plane.up
                }));
            }
        }
    }
}
