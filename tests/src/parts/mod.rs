//! Each part of making a frame, held by itself to the independent
//! implementation, over a static library that is there for this alone.

mod dc;
mod face;
mod filter;
mod frames;
mod lent;
mod material;
mod prediction;
mod residual;
pub mod time;

use crate::check::Difference;
use crate::random::Random;
use std::fmt;

/// What was compared.
#[derive(Clone, Copy, Debug, Default)]
pub struct Report {
    residual: residual::Counts,
    prediction: prediction::Counts,
    filter: filter::Counts,
    dc: dc::Counts,
    frames: frames::Counts,
}

impl Report {
    /// What should have been met and was not.
    pub fn missed(&self) -> Vec<String> {
        self.residual
            .missed()
            .into_iter()
            .map(String::from)
            .collect()
    }
}

impl fmt::Display for Report {
    fn fmt(&self, f: &mut fmt::Formatter<'_>) -> fmt::Result {
        writeln!(f, "  residuals          {}", self.residual)?;
        writeln!(f, "  DC prediction      {}", self.dc)?;
        writeln!(f, "  prediction         {}", self.prediction)?;
        writeln!(f, "  loop filter        {}", self.filter)?;
        writeln!(f, "  whole frames       {}", self.frames)
    }
}

/// Compares all parts: their extremes, and random values for `count` frames.
pub fn compare(random: &mut Random, count: u64) -> Result<Report, Difference> {
    Ok(Report {
        residual: residual::compare(random, 50 * count)?,
        dc: dc::compare(random, 4 * count)?,
        prediction: prediction::compare(random, count)?,
        filter: filter::compare(random, 4 * count)?,
        frames: frames::compare(random, count)?,
    })
}
