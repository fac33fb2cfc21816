//! The inverse transform.

use super::super::numeric::cut;

/// Coefficients or samples in natural order: row after row of 8.
pub type Square = [i64; 64];

const C1: i64 = 64277;
const C2: i64 = 60547;
const C3: i64 = 54491;
const C4: i64 = 46341;
const C5: i64 = 36410;
const C6: i64 = 25080;
const C7: i64 = 12785;

/// "rows then columns, then (x+8)>>4"
pub fn inverse(coefficients: &Square) -> Square {
    rows_then_columns(coefficients).map(|x| (x + 8) >> 4)
}

/// The transform before the last shift.
pub fn rows_then_columns(coefficients: &Square) -> Square {
    let mut rows = [0; 64];
    for row in 0..8 {
        let from: [i64; 8] = std::array::from_fn(|i| coefficients[8 * row + i]);
        rows[8 * row..8 * row + 8].copy_from_slice(&line(&from));
    }
    let mut square = [0; 64];
    for column in 0..8 {
        let from: [i64; 8] = std::array::from_fn(|i| rows[8 * i + column]);
        for (i, x) in line(&from).into_iter().enumerate() {
            square[8 * i + column] = x;
        }
    }
    square
}

/// "each product >>16"
fn times(constant: i64, x: i64) -> i64 {
    (constant * x) >> 16
}

/// "cut before each C4 product"
fn times_c4(x: i64) -> i64 {
    times(C4, cut(x))
}

/// One line.
fn line(x: &[i64; 8]) -> [i64; 8] {
    let a = times_c4(x[0] + x[4]);
    let b = times_c4(x[0] - x[4]);
    let c = times(C6, x[2]) - times(C2, x[6]);
    let d = times(C2, x[2]) + times(C6, x[6]);
    let e = times(C7, x[1]) - times(C1, x[7]);
    let k = times(C3, x[5]) - times(C5, x[3]);
    let g = times(C5, x[5]) + times(C3, x[3]);
    let h = times(C1, x[1]) + times(C7, x[7]);
    let (sum_e, product_k) = (e + k, times_c4(e - k));
    let (sum_h, product_g) = (h + g, times_c4(h - g));
    let pairs = [
        (a + d, sum_h),
        (b + c, product_g + product_k),
        (b - c, product_g - product_k),
        (a - d, sum_e),
    ];
    let mut outputs = [0; 8];
    for (i, (first, last)) in pairs.into_iter().enumerate() {
        outputs[i] = cut(first + last);
        outputs[7 - i] = cut(first - last);
    }
    outputs
}

#[cfg(test)]
mod tests {
    use super::*;
    use crate::random::Random;
    use std::f64::consts::PI;

    fn one(index: usize, value: i64) -> Square {
        let mut square = [0; 64];
        square[index] = value;
        square
    }

    /// The transform that the integers stand for.
    fn exact(coefficients: &Square) -> [f64; 64] {
        let scale = |i| if i == 0 { 0.5_f64.sqrt() } else { 1.0 };
        let wave = |x: usize, u: usize| ((2 * x + 1) as f64 * u as f64 * PI / 16.0).cos();
        std::array::from_fn(|place| {
            let (row, column) = (place / 8, place % 8);
            let mut sum = 0.0;
            for v in 0..8 {
                for u in 0..8 {
                    let weight = scale(u) * scale(v) * wave(column, u) * wave(row, v);
                    sum += weight * coefficients[8 * v + u] as f64;
                }
            }
            sum / 4.0 / 4.0
        })
    }

    #[test]
    fn near_the_exact_transform() {
        let mut random = Random::new(6);
        for size in [20, 200, 1000] {
            for _ in 0..200 {
                let mut square = [0; 64];
                for value in &mut square {
                    *value = random.below(2 * size + 1) as i64 - size as i64;
                }
                let exact = exact(&square);
                let made = inverse(&square);
                for i in 0..64 {
                    assert!((made[i] as f64 - exact[i]).abs() < 3.0);
                }
            }
        }
    }

    /// Row 1 of the coefficients varies from row to row of the samples.
    #[test]
    fn rows_of_coefficients_are_rows_of_samples() {
        let square = inverse(&one(8, 1000));
        assert!(square[..8].iter().all(|value| *value == square[0]));
        assert!(square[0] > 0 && square[56] < 0);
        let square = inverse(&one(1, 1000));
        assert!(square.iter().step_by(8).all(|value| *value == square[0]));
        assert!(square[0] > 0 && square[7] < 0);
    }

    #[test]
    fn extremes() {
        // DC alone: C4·32767 >> 16 = 23169, C4·23169 >> 16 = 16382
        assert_eq!(line(&[32767, 0, 0, 0, 0, 0, 0, 0]), [23169; 8]);
        assert_eq!(inverse(&one(0, 32767)), [(16382 + 8) >> 4; 64]);
        // C4·−32768 >> 16 = −23171 (the floor of −23170.5), then −16385
        assert_eq!(line(&[-32768, 0, 0, 0, 0, 0, 0, 0]), [-23171; 8]);
        assert_eq!(inverse(&one(0, -32768)), [(-16385 + 8) >> 4; 64]);
        // x0 + x4 is cut before its product: 32767 + 1 becomes −32768.
        let made = line(&[32767, 0, 0, 0, 1, 0, 0, 0]);
        assert_eq!(made[0], -23171);
        assert_eq!(made[1], (C4 * 32766) >> 16);
        // All the greatest: output 0 passes 16 bits and is cut.
        let products = |list: [i64; 2]| list.map(|c| (c * 32767) >> 16);
        let [c1, c7] = products([C1, C7]);
        let [c2, c6] = products([C2, C6]);
        let [c3, c5] = products([C3, C5]);
        let a = (C4 * -2) >> 16;
        let sum = a + (c2 + c6) + (c1 + c7 + c3 + c5);
        assert!(sum > 32767);
        assert_eq!(line(&[32767; 8])[0], cut(sum));
    }

    /// h − g is cut before its product too.
    #[test]
    fn differences_are_cut() {
        let x = [0, 32767, 0, -32768, 0, -32768, 0, 32767];
        let h = times(C1, 32767) + times(C7, 32767);
        let g = times(C5, -32768) + times(C3, -32768);
        assert!(h - g > 32767);
        let e = times(C7, 32767) - times(C1, 32767);
        let k = times(C3, -32768) - times(C5, -32768);
        let (product_g, product_k) = (times(C4, cut(h - g)), times(C4, cut(e - k)));
        assert_eq!(line(&x)[1], cut(product_g + product_k));
        assert_eq!(line(&x)[5], cut(-(product_g - product_k)));
    }
}
