//! Quantization matrices.

use super::ranges::QuantRanges;
use super::setup::Setup;

/// The matrix of a type (0 intra, 1 inter), plane and qi, in natural order.
pub fn matrix(setup: &Setup, kind: usize, plane: usize, qi: usize) -> Vec<u64> {
    (0..64)
        .map(|i| {
            let scale = if i == 0 {
                setup.dc_scale[qi]
            } else {
                setup.ac_scale[qi]
            };
            let base = interpolated(setup, 3 * kind + plane, qi as u64, i);
            value(scale, base, minimum(kind, i))
        })
        .collect()
}

/// BM: the base matrix of a set at qi.
fn interpolated(setup: &Setup, set: usize, qi: u64, i: usize) -> u64 {
    let ranges = &setup.ranges[set];
    between_ends(setup, ranges, ranges.range_of(qi), qi, i)
}

/// BM between the two ends of a range, given its number and where it begins.
fn between_ends(
    setup: &Setup,
    ranges: &QuantRanges,
    (number, start): (usize, u64),
    qi: u64,
    i: usize,
) -> u64 {
    let size = ranges.sizes[number];
    let end = start + size;
    let first = setup.base_matrices[ranges.indices[number] as usize][i];
    let second = setup.base_matrices[ranges.indices[number + 1] as usize][i];
    (2 * (end - qi) * first + 2 * (qi - start) * second + size) / (2 * size)
}

/// QMIN.
fn minimum(kind: usize, i: usize) -> u64 {
    match (kind, i) {
        (0, 0) => 16,
        (0, _) => 8,
        (_, 0) => 32,
        (_, _) => 16,
    }
}

/// A matrix value of a scale, a base value and the least value.
pub fn value(scale: u64, base: u64, minimum: u64) -> u64 {
    minimum.max((4 * (scale * base / 100)).min(4096))
}

#[cfg(test)]
mod tests {
    use super::*;

    /// Two ranges, 0 to 10 and 10 to 63, over matrices of 100, 50 and 7; scale 100.
    fn setup() -> Setup {
        let ranges = QuantRanges {
            sizes: vec![10, 53],
            indices: vec![0, 1, 2],
        };
        Setup {
            limits: vec![0; 64],
            ac_scale: vec![100; 64],
            dc_scale: vec![10; 64],
            base_matrices: vec![vec![100; 64], vec![50; 64], vec![7; 64]],
            ranges: vec![ranges; 6],
            codes: Vec::new(),
            bits: 0,
        }
    }

    #[test]
    fn interpolation_rounds_to_nearest() {
        let base = |qi| interpolated(&setup(), 0, qi, 1);
        assert_eq!([base(0), base(1), base(10)], [100, 95, 50]);
        // 50·52/53 + 7·1/53 = 49.19; 50·47/53 + 7·6/53 = 45.13; 8.62 and 7.81 at the end
        assert_eq!([base(11), base(16)], [49, 45]);
        assert_eq!([base(61), base(62), base(63)], [9, 8, 7]);
    }

    #[test]
    fn both_ranges_give_the_same_at_a_border() {
        let setup = setup();
        let by = |range| between_ends(&setup, &setup.ranges[0], range, 10, 1);
        assert_eq!([by((0, 0)), by((1, 10))], [50, 50]);
    }

    #[test]
    fn dc_has_its_own_scale_and_minimum() {
        let read = setup();
        assert_eq!(matrix(&read, 0, 0, 0)[..2], [40, 400]);
        assert_eq!(matrix(&read, 0, 2, 63)[..2], [16, 28]);
        assert_eq!(matrix(&read, 1, 1, 63)[..2], [32, 28]);
    }

    #[test]
    fn minima() {
        assert_eq!([minimum(0, 0), minimum(0, 1)], [16, 8]);
        assert_eq!([minimum(1, 0), minimum(1, 63)], [32, 16]);
    }
}
