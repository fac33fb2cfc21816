//! Prediction from the previous or the golden frame.

use super::super::frame::record::{Prediction, Vector};
use super::super::layout::{BlockPlace, Layout};
use super::super::sizes::chroma_step;
use super::transform::Square;

/// One plane of a buffer.
#[derive(Clone, Copy)]
struct PlaneSamples<'a> {
    samples: &'a [u8],
    width: i64,
    height: i64,
}

impl<'a> PlaneSamples<'a> {
    /// A plane of a buffer.
    fn of(layout: &Layout, plane: usize, buffer: &'a [u8]) -> PlaneSamples<'a> {
        let size = layout.sizes.planes[plane];
        let first = size.offset as usize;
        PlaneSamples {
            samples: &buffer[first..first + size.length as usize],
            width: 8 * size.across as i64,
            height: 8 * size.up as i64,
        }
    }

    /// "Fetches clamp to the plane."
    fn fetch(&self, x: i64, y: i64) -> i64 {
        let x = x.clamp(0, self.width - 1);
        let y = y.clamp(0, self.height - 1);
        i64::from(self.samples[(y * self.width + x) as usize])
    }
}

/// The prediction of a block, row 0 lowest. "128 for none."
pub fn predicted(
    layout: &Layout,
    place: BlockPlace,
    prediction: Prediction,
    golden: &[u8],
    previous: &[u8],
) -> Square {
    let (buffer, vector) = match prediction {
        Prediction::None => return [128; 64],
        Prediction::Previous(vector) => (previous, vector),
        Prediction::Golden(vector) => (golden, vector),
    };
    let plane = PlaneSamples::of(layout, place.plane, buffer);
    let (down, up) = two_vectors(vector, steps(layout.format, place.plane));
    let corner = (8 * place.x as i64, 8 * place.y as i64);
    let first = fetched(&plane, corner, down);
    if down == up {
        return first;
    }
    let second = fetched(&plane, corner, up);
    std::array::from_fn(|i| (first[i] + second[i]) >> 1)
}

/// The samples of a block moved by whole samples.
fn fetched(plane: &PlaneSamples, (x, y): (i64, i64), vector: Vector) -> Square {
    std::array::from_fn(|i| {
        let (column, row) = (i as i64 % 8, i as i64 / 8);
        plane.fetch(x + column + vector.x, y + row + vector.y)
    })
}

/// "Vectors are half samples, quarter along a subsampled axis": how many steps
/// a sample has, across and up.
fn steps(format: u64, plane: usize) -> (i64, i64) {
    let (across, up) = if plane == 0 {
        (1, 1)
    } else {
        chroma_step(format)
    };
    (2 * across as i64, 2 * up as i64)
}

/// "TWO fetches, magnitudes down and up in both axes"
fn two_vectors(vector: Vector, (across, up): (i64, i64)) -> (Vector, Vector) {
    let (x, y) = (down_and_up(vector.x, across), down_and_up(vector.y, up));
    (Vector { x: x.0, y: y.0 }, Vector { x: x.1, y: y.1 })
}

/// A component in whole samples, its magnitude rounded down and up.
fn down_and_up(component: i64, steps: i64) -> (i64, i64) {
    let (sign, magnitude) = (component.signum(), component.abs());
    (
        sign * (magnitude / steps),
        sign * ((magnitude + steps - 1) / steps),
    )
}

#[cfg(test)]
mod tests {
    use super::super::super::layout::tests::layout;
    use super::*;

    #[test]
    fn magnitudes_down_and_up() {
        let half: Vec<_> = (-3..4).map(|v| down_and_up(v, 2)).collect();
        let expected = [(-1, -2), (-1, -1), (0, -1), (0, 0), (0, 1), (1, 1), (1, 2)];
        assert_eq!(half, expected);
        let quarter: Vec<_> = [-31, -5, -4, -1, 1, 3, 4, 31]
            .map(|v| down_and_up(v, 4))
            .into();
        let expected = [
            (-7, -8),
            (-1, -2),
            (-1, -1),
            (0, -1),
            (0, 1),
            (0, 1),
            (1, 1),
            (7, 8),
        ];
        assert_eq!(quarter, expected);
    }

    #[test]
    fn steps_of_the_formats() {
        assert_eq!([0, 2, 3].map(|format| steps(format, 0)), [(2, 2); 3]);
        let chroma = [0, 2, 3].map(|format| steps(format, 2));
        assert_eq!(chroma, [(4, 4), (4, 2), (2, 2)]);
    }

    /// A buffer of 2 by 1 macro blocks in 4:2:0: luma is 5·x + y.
    fn buffer() -> Vec<u8> {
        let mut buffer: Vec<u8> = (0..32 * 16)
            .map(|i| (5 * (i % 32) + i / 32) as u8)
            .collect();
        buffer.resize(64 * 12, 9);
        buffer
    }

    fn luma(x: usize, y: usize, vector: Vector) -> Square {
        let place = BlockPlace { plane: 0, x, y };
        let golden = vec![0; 64 * 12];
        predicted(
            &layout(2, 1, 0),
            place,
            Prediction::Previous(vector),
            &golden,
            &buffer(),
        )
    }

    #[test]
    fn whole_and_half() {
        let whole = luma(1, 0, Vector { x: 4, y: 2 });
        assert_eq!(whole[0], 5 * (8 + 2) + 1);
        assert_eq!(whole[63], 5 * (15 + 2) + 8);
        // Two fetches: (0, 0) and (1, 1); a mean of four would give the same, so
        // (0, 0) and (−1, 1) are tried too.
        let half = luma(1, 0, Vector { x: 1, y: 1 });
        assert_eq!(half[0], (40 + 46) >> 1);
        let half = luma(1, 0, Vector { x: -1, y: 1 });
        assert_eq!(half[0], (40 + 36) >> 1);
        let half = luma(1, 0, Vector { x: 0, y: 1 });
        assert_eq!(half[0], 40);
    }

    #[test]
    fn fetches_clamp() {
        let far = luma(0, 0, Vector { x: -31, y: -31 });
        assert_eq!(far, [0; 64]);
        let far = luma(3, 1, Vector { x: 31, y: 31 });
        assert_eq!(far, [5 * 31 + 15; 64]);
        let up = luma(3, 1, Vector { x: 0, y: 30 });
        assert_eq!(up[0], 5 * 24 + 15);
    }

    #[test]
    fn none_is_128() {
        let place = BlockPlace {
            plane: 2,
            x: 0,
            y: 0,
        };
        let made = predicted(&layout(2, 1, 0), place, Prediction::None, &[], &[]);
        assert_eq!(made, [128; 64]);
    }
}
