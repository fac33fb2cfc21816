//! The residual of a block.

use super::face;
use super::lent::Lent;
use super::material::{quantizer, small, wild};
use crate::check::Difference;
use crate::random::Random;
use crate::reference::samples::residual::{Quantized, is_dc_only, residual};
use std::fmt;

/// What was compared.
#[derive(Clone, Copy, Debug, Default)]
pub struct Counts {
    dc_only: u64,
    full: u64,
    /// Full ones with a product that does not fit 16 bits.
    cut: u64,
    /// Full ones with an output of 32760 or more, which is 2048 after the
    /// last shift and would be −2048 if the sum before it were cut.
    top: u64,
}

impl Counts {
    /// What should have been met and was not.
    pub fn missed(&self) -> Vec<&'static str> {
        let met = [
            (self.cut, "a product that is cut"),
            (self.top, "an output of 32760 or more"),
        ];
        let missed = met.into_iter().filter(|(count, _)| *count == 0);
        missed.map(|(_, name)| name).collect()
    }
}

impl fmt::Display for Counts {
    fn fmt(&self, f: &mut fmt::Formatter<'_>) -> fmt::Result {
        write!(
            f,
            "{} DC-only, {} full ({} with a product that is cut, {} with an output of 32760 or more)",
            self.dc_only, self.full, self.cut, self.top
        )
    }
}

/// A block, its coefficients with others around them.
struct Block {
    coefs: Vec<i16>,
    at: usize,
    dc: i16,
    q: u16,
    last: u8,
    matrix: [u16; 64],
}

impl Block {
    /// A block with nothing but DC.
    fn of_dc(dc: i16, q: u16, last: u8) -> Block {
        Block {
            coefs: vec![0; 64],
            at: 0,
            dc,
            q,
            last,
            matrix: [8; 64],
        }
    }

    /// Its coefficients.
    fn coefficients(&self) -> &[i16; 64] {
        let coefs = &self.coefs[self.at..self.at + 64];
        coefs.try_into().expect("they are 64")
    }

    /// Compares its residuals.
    fn check(&self, counts: &mut Counts) -> Result<(), Difference> {
        let coefficients = self.coefficients();
        let matrix = self.matrix.map(u64::from);
        let expected = residual(&Quantized {
            dc: i64::from(self.dc),
            coefficients,
            dc_only: is_dc_only(self.last),
            dc_quantizer: i64::from(self.q),
            matrix: &matrix,
        });
        if is_dc_only(self.last) {
            counts.dc_only += 1;
        } else {
            counts.full += 1;
            counts.cut += u64::from(self.has_cut_product());
            counts.top += u64::from(expected.contains(&2048));
        }
        let mut out = Lent::new(&[0x5A5A; 64], 0x3C3C);
        let (dc, q) = (self.dc, self.q);
        face::residual(
            &self.coefs,
            self.at,
            (dc, q),
            self.last,
            &self.matrix,
            out.list(),
        );
        let expected = expected.map(|value| value as i16);
        out.holds(&expected).map_err(|came| {
            let (last, matrix) = (self.last, self.matrix);
            let given = format!(
                "call:     parts_residual\ngiven:    DC {dc}, quantizer {q}, last visit {last}\n\
                 coefs:    {coefficients:?}\nmatrix:   {matrix:?}\n"
            );
            Difference::new(&given, &came)
        })
    }

    /// Whether a product does not fit 16 bits.
    fn has_cut_product(&self) -> bool {
        let wide = |c: i16, q: u16| i16::try_from(i32::from(c) * i32::from(q)).is_err();
        // The order is of no account here.
        let mut pairs = self.coefficients().iter().zip(&self.matrix).skip(1);
        wide(self.dc, self.q) || pairs.any(|(c, q)| wide(*c, *q))
    }
}

/// Compares the extremes and `count` random blocks.
pub fn compare(random: &mut Random, count: u64) -> Result<Counts, Difference> {
    let mut counts = Counts::default();
    every_dc(&mut counts)?;
    lone_coefficients(&mut counts)?;
    for _ in 0..count {
        random_block(random).check(&mut counts)?;
    }
    Ok(counts)
}

/// Every DC with quantizers at the limits, DC-only and not.
fn every_dc(counts: &mut Counts) -> Result<(), Difference> {
    for dc in i16::MIN..=i16::MAX {
        for q in [0, 1, 15, 16, 17, 31, 32, 33, 4095, 4096, 32768, 65535] {
            Block::of_dc(dc, q, dc as u8 % 2).check(counts)?;
        }
        for (q, last) in [(16, 2), (4096, 63), (1, 255)] {
            Block::of_dc(dc, q, last).check(counts)?;
        }
    }
    Ok(())
}

/// A value at each position, by itself and with the largest DC.
fn lone_coefficients(counts: &mut Counts) -> Result<(), Difference> {
    let values = [
        1,
        -1,
        2,
        580,
        -580,
        4095,
        16384,
        i16::MAX,
        i16::MIN + 1,
        i16::MIN,
    ];
    for position in 0..64 {
        for value in values {
            for q in [1, 8, 57, 4096, 32767, 65535] {
                for dc in [0, i16::MAX, i16::MIN] {
                    let mut block = Block::of_dc(dc, 1, 2);
                    block.coefs[position] = value;
                    block.matrix = [q; 64];
                    block.check(counts)?;
                }
            }
        }
    }
    Ok(())
}

/// A random block.
fn random_block(random: &mut Random) -> Block {
    let (before, behind) = (random.index(70), random.index(70));
    let dense = random.pick(&[1, 1, 2, 4, 16, 64]);
    let limit = random.pick(&[2, 40, 580, 0]);
    let mut matrix = [0; 64];
    match random.below(3) {
        0 => matrix.fill_with(|| quantizer(random)),
        1 => matrix = [quantizer(random); 64],
        _ => matrix.fill_with(|| 8 + random.up_to(200) as u16),
    }
    let mut coefs = vec![0x7777; before + 64 + behind];
    for coef in &mut coefs[before..before + 64] {
        *coef = match (random.once_in(dense), limit) {
            (false, _) => 0,
            (true, 0) => wild(random),
            (true, limit) => small(random, limit),
        };
    }
    if random.once_in(4) {
        near_the_cut(random, &mut coefs[before..before + 64], &matrix);
    }
    Block {
        coefs,
        at: before,
        dc: wild(random),
        q: quantizer(random),
        last: random.pick(&[0, 1, 2, 2, 3, 5, 20, 63, 63, 64, 255]),
        matrix,
    }
}

/// Coefficients whose products lie near ±32768 and its multiples.
fn near_the_cut(random: &mut Random, coefs: &mut [i16], matrix: &[u16; 64]) {
    let q = i64::from(matrix[random.index(64)].max(1));
    for coef in coefs {
        if random.once_in(3) {
            let product = 32768 * (random.up_to(8) as i64 - 4);
            *coef = (product / q + random.up_to(2) as i64 - 1) as i16;
        }
    }
}
