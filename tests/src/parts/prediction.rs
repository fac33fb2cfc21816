//! Prediction: the samples of a block.

use super::face::{self, Frame};
use super::lent::Lent;
use super::material::{FORMATS, frame, layout, packed, place, prediction, samples, small, wild};
use crate::check::Difference;
use crate::random::Random;
use crate::reference::frame::record::{Prediction, Record, Vector};
use crate::reference::layout::Layout;
use crate::reference::numeric::sample;
use crate::reference::samples::prediction::predicted;
use crate::reference::samples::sample_offset;
use std::fmt;

/// What was compared.
#[derive(Clone, Copy, Debug, Default)]
pub struct Counts {
    vectors: u64,
    blocks: u64,
}

impl fmt::Display for Counts {
    fn fmt(&self, f: &mut fmt::Formatter<'_>) -> fmt::Result {
        write!(
            f,
            "{} blocks by every vector, {} by random ones",
            self.vectors, self.blocks
        )
    }
}

/// Frames of which every block is predicted by every vector: each of their
/// planes has its borders near, and some blocks have both borders of an axis
/// within reach.
const SMALL: [(u64, u64); 4] = [(1, 1), (1, 2), (2, 1), (2, 2)];

/// Compares every block of small frames by every vector, and all blocks of
/// `count` random frames.
pub fn compare(random: &mut Random, count: u64) -> Result<Counts, Difference> {
    let mut counts = Counts::default();
    for pf in FORMATS {
        for (w, h) in SMALL {
            counts.vectors += every_vector(random, Frame { pf, w, h })?;
        }
    }
    for _ in 0..count {
        let frame = frame(random, 4);
        let mut maker = Maker::new(random, frame);
        for block in 0..maker.layout.blocks.len() {
            let prediction = prediction(random);
            maker.check(random, block, prediction)?;
            counts.blocks += 1;
        }
    }
    Ok(counts)
}

/// Every block of a frame by every vector.
fn every_vector(random: &mut Random, frame: Frame) -> Result<u64, Difference> {
    let mut count = 0;
    let mut maker = Maker::new(random, frame);
    for block in 0..maker.layout.blocks.len() {
        maker.check(random, block, Prediction::None)?;
        for x in -31..=31 {
            for y in -31..=31 {
                let vector = Vector { x, y };
                let prediction = match random.once_in(2) {
                    true => Prediction::Previous(vector),
                    false => Prediction::Golden(vector),
                };
                maker.check(random, block, prediction)?;
                count += 1;
            }
        }
    }
    Ok(count)
}

/// A frame that is made block after block.
struct Maker {
    frame: Frame,
    layout: Layout,
    golden: Vec<u8>,
    previous: Vec<u8>,
    residuals: Vec<[i16; 64]>,
    new: Lent<u8>,
    expected: Vec<u8>,
}

impl Maker {
    fn new(random: &mut Random, frame: Frame) -> Maker {
        let expected = samples(random, frame.bytes());
        Maker {
            frame,
            layout: layout(frame),
            golden: samples(random, frame.bytes()),
            previous: samples(random, frame.bytes()),
            residuals: (0..16).map(|_| residual(random)).collect(),
            new: Lent::new(&expected, 0xA5),
            expected,
        }
    }

    /// Compares one block.
    fn check(
        &mut self,
        random: &mut Random,
        block: usize,
        prediction: Prediction,
    ) -> Result<(), Difference> {
        let at = self.layout.blocks[block];
        let residual = random.pick(&self.residuals);
        let predicted = predicted(&self.layout, at, prediction, &self.golden, &self.previous);
        let number = (at.plane as u64, (at.x as u64, at.y as u64));
        for (i, (predicted, residual)) in predicted.into_iter().zip(residual).enumerate() {
            let (column, row) = (i as u64 % 8, i as u64 / 8);
            let offset = sample_offset(&self.layout.sizes, number, column, row);
            self.expected[offset as usize] = sample(predicted + i64::from(residual));
        }
        let record = packed(&Record {
            coded: true,
            qi_index: 0,
            prediction,
        });
        face::write_block(
            self.frame,
            place(at),
            record,
            [&self.golden, &self.previous],
            &residual,
            self.new.list(),
        );
        self.new.holds(&self.expected).map_err(|came| {
            let frame = self.frame;
            let given = format!(
                "call:     parts_write_block\ngiven:    {frame:?}, {at:?}, {prediction:?}\n\
                 residual: {residual:?}\n"
            );
            Difference::new(&given, &came)
        })
    }
}

/// Residuals: none, small, or any.
fn residual(random: &mut Random) -> [i16; 64] {
    let mut residual = [0; 64];
    match random.below(4) {
        0 => {}
        1 => residual.fill_with(|| small(random, 20)),
        2 => residual.fill_with(|| small(random, 300)),
        _ => residual.fill_with(|| wild(random)),
    }
    residual
}
