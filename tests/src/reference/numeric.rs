//! The few rules of arithmetic. All else is exact; `a // b` of the rules is
//! Rust's `/` on signed numbers and `a >> b` its `>>`.

/// "keep the low 16 bits, read as two's complement"
pub fn cut(number: i64) -> i64 {
    (number + 32768).rem_euclid(65536) - 32768
}

/// The mean of `count` numbers with this sum, "round takes ties away from 0".
pub fn round_mean(sum: i64, count: i64) -> i64 {
    sum.signum() * ((2 * sum.abs() + count) / (2 * count))
}

/// A sample: clamped to 0..255.
pub fn sample(number: i64) -> u8 {
    number.clamp(0, 255) as u8
}

#[cfg(test)]
mod tests {
    use super::*;

    #[test]
    fn cut_keeps_the_low_16_bits() {
        for number in (-200_000..200_000).chain([1 << 31, -(1 << 31), (1 << 40) + 5]) {
            assert_eq!(cut(number), i64::from(number as i16));
        }
    }

    #[test]
    fn ties_go_away_from_0() {
        let of_4: Vec<i64> = (-7..8).map(|sum| round_mean(sum, 4)).collect();
        assert_eq!(of_4, [-2, -2, -1, -1, -1, -1, 0, 0, 0, 1, 1, 1, 1, 2, 2]);
        let of_2: Vec<i64> = (-3..4).map(|sum| round_mean(sum, 2)).collect();
        assert_eq!(of_2, [-2, -1, -1, 0, 1, 1, 2]);
    }

    #[test]
    fn rust_divides_and_shifts_as_the_rules_do() {
        assert_eq!([-7 / 2, 7 / 2, -1 / 32], [-3, 3, 0]);
        assert_eq!([-7 >> 1, 7 >> 1, -1 >> 5], [-4, 3, -1]);
    }

    #[test]
    fn samples_are_clamped() {
        assert_eq!([-1, 0, 255, 256].map(sample), [0, 0, 255, 255]);
    }
}
