//! Dequantization and the residual of a block.

use super::super::numeric::cut;
use super::transform::{Square, inverse};

/// The natural place of each zig-zag position, from 002's figure: its rows
/// give the position of each place.
pub const NATURAL: [usize; 64] = {
    const FIGURE: [usize; 64] = [
        0, 1, 5, 6, 14, 15, 27, 28, //
        2, 4, 7, 13, 16, 26, 29, 42, //
        3, 8, 12, 17, 25, 30, 41, 43, //
        9, 11, 18, 24, 31, 40, 44, 53, //
        10, 19, 23, 32, 39, 45, 52, 54, //
        20, 22, 33, 38, 46, 51, 55, 60, //
        21, 34, 37, 47, 50, 56, 59, 61, //
        35, 36, 48, 49, 57, 58, 62, 63,
    ];
    let mut natural = [0; 64];
    let mut place = 0;
    while place < 64 {
        natural[FIGURE[place]] = place;
        place += 1;
    }
    natural
};

/// What a block's residual is made of.
pub struct Quantized<'a> {
    /// The final DC.
    pub dc: i64,
    /// The coefficients as read, in zig-zag order; the first one is not used.
    pub coefficients: &'a [i16; 64],
    /// Whether the block is DC-only.
    pub dc_only: bool,
    /// The quantizer of DC: the matrix of the frame's first qi, at 0.
    pub dc_quantizer: i64,
    /// The matrix of the block's qi, in natural order.
    pub matrix: &'a [u64],
}

/// "A block is DC-only if its last visit, an ending one included, was below position 2."
pub fn is_dc_only(last_visit: u8) -> bool {
    last_visit < 2
}

/// The residual of a block, row 0 lowest.
pub fn residual(block: &Quantized) -> Square {
    if block.dc_only {
        return [dc_only(block.dc, block.dc_quantizer); 64];
    }
    inverse(&dequantized(block))
}

/// "Dequantised values are cut to 16 bits." In natural order.
pub fn dequantized(block: &Quantized) -> Square {
    let mut square = [0; 64];
    square[0] = cut(block.dc * block.dc_quantizer);
    for (coefficient, place) in block.coefficients.iter().zip(NATURAL).skip(1) {
        square[place] = cut(i64::from(*coefficient) * block.matrix[place] as i64);
    }
    square
}

/// "every residual is (c·q+15)>>5, cut only after the shift"
pub fn dc_only(dc: i64, quantizer: i64) -> i64 {
    cut((dc * quantizer + 15) >> 5)
}

#[cfg(test)]
mod tests {
    use super::*;

    #[test]
    fn zig_zag_goes_along_diagonals() {
        assert_eq!(NATURAL[..10], [0, 1, 8, 16, 9, 2, 3, 10, 17, 24]);
        assert_eq!(NATURAL[60..], [47, 55, 62, 63]);
        for step in NATURAL.windows(2) {
            let [row, column] = [step[0] / 8, step[0] % 8];
            let [next_row, next_column] = [step[1] / 8, step[1] % 8];
            assert!(row.abs_diff(next_row) <= 1 && column.abs_diff(next_column) <= 1);
        }
        let mut seen = NATURAL;
        seen.sort_unstable();
        assert_eq!(seen, std::array::from_fn::<usize, 64, _>(|i| i));
    }

    fn block<'a>(dc: i64, coefficients: &'a [i16; 64], matrix: &'a [u64]) -> Quantized<'a> {
        Quantized {
            dc,
            coefficients,
            dc_only: false,
            dc_quantizer: 16,
            matrix,
        }
    }

    #[test]
    fn dc_only_is_another_rounding() {
        let full = block(1, &[0; 64], &[8; 64]);
        assert_eq!(
            residual(&full),
            inverse(&std::array::from_fn(|i| if i == 0 { 16 } else { 0 }))
        );
        let dc_only = Quantized {
            dc_only: true,
            ..full
        };
        assert_eq!(residual(&dc_only), [0; 64]);
    }

    #[test]
    fn products_are_cut_in_the_full_transform_only() {
        assert_eq!(dc_only(32767, 4096), cut((32767 * 4096 + 15) >> 5));
        assert_eq!(dc_only(-32768, 4096), 0);
        assert_eq!(dc_only(255, 4096), 32640);
        assert_eq!(dc_only(256, 4096), -32768);
        let full = Quantized {
            dc_quantizer: 4096,
            ..block(16, &[0; 64], &[8; 64])
        };
        assert_eq!(residual(&full), [0; 64]);
    }

    #[test]
    fn positions_and_matrix_meet_in_natural_order() {
        let mut coefficients = [0; 64];
        coefficients[2] = 3;
        let mut matrix = [8; 64];
        matrix[8] = 100;
        let mut square = [0; 64];
        square[8] = 300;
        assert_eq!(
            residual(&block(0, &coefficients, &matrix)),
            inverse(&square)
        );
    }
}
