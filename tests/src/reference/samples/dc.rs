//! DC prediction.

use super::super::frame::FramePacket;
use super::super::frame::record::{Record, Reference};
use super::super::layout::Layout;
use super::super::numeric::cut;

/// The final DC of each block, in raster order; 0 for an uncoded one.
pub fn predicted(layout: &Layout, packet: &FramePacket) -> Vec<i64> {
    let mut dc = vec![0; layout.blocks.len()];
    for (block, coefficients) in packet.coded.iter().zip(&packet.coefficients) {
        dc[*block] = i64::from(coefficients[0]);
    }
    let mut first = 0;
    for plane in &layout.sizes.planes {
        let end = first + plane.blocks() as usize;
        predict_plane(
            plane.across as usize,
            &packet.records[first..end],
            &mut dc[first..end],
        );
        first = end;
    }
    dc
}

/// Predicts a plane "in raster order". Before, `dc` has the values that were
/// read, after it the final ones.
fn predict_plane(across: usize, records: &[Record], dc: &mut [i64]) {
    // "the last DC of that reference in this plane, at first 0"
    let mut last = [0; 3];
    for block in 0..dc.len() {
        if !records[block].coded {
            continue;
        }
        let reference = records[block].prediction.reference();
        let kept = &mut last[reference as usize];
        let neighbours = Neighbours::of(across, records, dc, block, reference);
        let prediction = neighbours.prediction().unwrap_or(*kept);
        dc[block] = cut(dc[block] + prediction);
        *kept = dc[block];
    }
}

/// The final DC of the neighbours that count: "if coded with the same reference".
#[derive(Clone, Copy, Debug, Default)]
struct Neighbours {
    left: Option<i64>,
    down_left: Option<i64>,
    down: Option<i64>,
    down_right: Option<i64>,
}

impl Neighbours {
    /// Of a block with this reference.
    fn of(
        across: usize,
        records: &[Record],
        dc: &[i64],
        block: usize,
        reference: Reference,
    ) -> Neighbours {
        let (x, y) = (block % across, block / across);
        let value = |there: bool, distance: usize| {
            let neighbour = block.checked_sub(distance).filter(|_| there)?;
            let record = records[neighbour];
            let counts = record.coded && record.prediction.reference() == reference;
            counts.then(|| dc[neighbour])
        };
        Neighbours {
            left: value(x > 0, 1),
            down_left: value(x > 0 && y > 0, across + 1),
            down: value(y > 0, across),
            down_right: value(x + 1 < across && y > 0, across.saturating_sub(1)),
        }
    }

    /// The prediction by the first rule that applies, if one does.
    fn prediction(&self) -> Option<i64> {
        let Neighbours {
            left,
            down_left,
            down,
            down_right,
        } = *self;
        let prediction = match (left, down_left, down, down_right) {
            (Some(l), Some(dl), Some(d), _) => gradient(l, dl, d),
            (Some(l), _, _, Some(dr)) => (75 * l + 53 * dr) / 128,
            (_, Some(dl), Some(d), Some(dr)) => (3 * dl + 10 * d + 3 * dr) / 16,
            (Some(l), _, Some(d), _) => (l + d) / 2,
            (_, _, Some(d), _) => d,
            (Some(l), _, _, _) => l,
            (_, Some(dl), _, Some(dr)) => (dl + dr) / 2,
            (_, Some(dl), _, _) => dl,
            (_, _, _, Some(dr)) => dr,
            (None, None, None, None) => return None,
        };
        Some(prediction)
    }
}

/// "(29L−26DL+29D)//32, but the first of D, L, DL from which it is more than
/// 128 away replaces it"
fn gradient(left: i64, down_left: i64, down: i64) -> i64 {
    let prediction = (29 * left - 26 * down_left + 29 * down) / 32;
    let far = |neighbour: &i64| (prediction - neighbour).abs() > 128;
    let replacement = [down, left, down_left].into_iter().find(far);
    replacement.unwrap_or(prediction)
}

#[cfg(test)]
mod tests {
    use super::super::super::frame::record::{Prediction, Vector};
    use super::*;

    /// A plane of blocks: none 'n', previous 'p', golden 'g', uncoded '.',
    /// rows from below.
    fn records(rows: &[&str]) -> Vec<Record> {
        let record = |letter| Record {
            coded: letter != '.',
            qi_index: 0,
            prediction: match letter {
                'p' => Prediction::Previous(Vector { x: 1, y: 2 }),
                'P' => Prediction::Previous(Vector::ZERO),
                'g' => Prediction::Golden(Vector::ZERO),
                _ => Prediction::None,
            },
        };
        rows.concat().chars().map(record).collect()
    }

    fn predict(rows: &[&str], read: &[i64]) -> Vec<i64> {
        let mut dc = read.to_vec();
        predict_plane(rows[0].len(), &records(rows), &mut dc);
        dc
    }

    #[test]
    fn the_first_rule_that_applies() {
        let prediction = |[left, down_left, down, down_right]: [i64; 4]| {
            let some = |value| (value != 0).then_some(value);
            let neighbours = Neighbours {
                left: some(left),
                down_left: some(down_left),
                down: some(down),
                down_right: some(down_right),
            };
            neighbours.prediction()
        };
        // The specification's table of weights, with L 10, DL 20, D 40, DR 80.
        for (there, expected) in [
            ([0, 0, 0, 0], None),
            ([10, 0, 0, 0], Some(10)),
            ([0, 20, 0, 0], Some(20)),
            ([10, 20, 0, 0], Some(10)),
            ([0, 0, 40, 0], Some(40)),
            ([10, 0, 40, 0], Some(25)),
            ([0, 20, 40, 0], Some(40)),
            ([10, 20, 40, 0], Some((290 - 520 + 1160) / 32)),
            ([0, 0, 0, 80], Some(80)),
            ([10, 0, 0, 80], Some((750 + 4240) / 128)),
            ([0, 20, 0, 80], Some(50)),
            ([10, 20, 0, 80], Some((750 + 4240) / 128)),
            ([0, 0, 40, 80], Some(40)),
            ([10, 0, 40, 80], Some((750 + 4240) / 128)),
            ([0, 20, 40, 80], Some((60 + 400 + 240) / 16)),
            ([10, 20, 40, 80], Some((290 - 520 + 1160) / 32)),
        ] {
            assert_eq!(prediction(there), expected, "{there:?}");
        }
    }

    #[test]
    fn division_goes_toward_zero() {
        assert_eq!(predict(&["n", "n"], &[-3, 0]), [-3, -3]);
        // L -3, D 0 (no DL): -3//2
        assert_eq!(predict(&["pn", "nn"], &[7, 0, -3, 0])[3], -1);
    }

    #[test]
    fn a_gradient_too_far_away_is_replaced_once() {
        assert_eq!(gradient(0, 0, 0), 0);
        // 29·200/32 = 181, more than 128 away from D = 0
        assert_eq!(gradient(200, 0, 0), 0);
        // 181, near D = 200, more than 128 from L = 0
        assert_eq!(gradient(0, 0, 200), 0);
        // (29·100 + 29·100)/32 = 181: near D and L, far from DL = 0
        assert_eq!(gradient(100, 0, 100), 0);
        // 128 away is not too far.
        assert_eq!(gradient(142, 0, 0), 128);
        assert_eq!(gradient(143, 0, 0), 0);
        // After a replacement nothing is judged again: D = 0 is far from L.
        assert_eq!(gradient(600, 0, 0), 0);
        // -243, near D = -300, far from L = 300
        assert_eq!(gradient(300, 300, -300), 300);
    }

    #[test]
    fn references_are_kept_apart() {
        // A row: each takes the last of its reference, if its left one is another's.
        let row = ["npgnpgPpnN"];
        let read = [1, 10, 100, 1, 10, 100, 10, 10, 1, 1];
        let expected = [1, 10, 100, 2, 20, 200, 30, 40, 3, 4];
        assert_eq!(predict(&row, &read), expected);
        // Uncoded blocks keep 0 and are no neighbours.
        assert_eq!(predict(&["n.n"], &[5, 0, 6]), [5, 0, 11]);
    }

    #[test]
    fn the_sum_is_cut() {
        let mut dc = [32767, 1];
        predict_plane(2, &records(&["nn"]), &mut dc);
        assert_eq!(dc, [32767, -32768]);
    }

    #[test]
    fn borders_have_no_neighbours() {
        // Two rows of one block: the row below is D, not DL or DR.
        assert_eq!(predict(&["n", "n", "n"], &[4, 1, 1]), [4, 5, 6]);
        // The first of the upper row has D and DR, the last L, DL and D.
        let dc = predict(&["nn", "nn"], &[8, 24, 0, 0]);
        assert_eq!(dc[..2], [8, 32]);
        assert_eq!(dc[2], 8);
        assert_eq!(dc[3], (29 * 8 - 26 * 8 + 29 * 32) / 32);
    }
}
