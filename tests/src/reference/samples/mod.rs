//! Samples: where they lie, and how a frame's are made of what its packet says.

pub mod dc;
pub mod loop_filter;
mod offset;
pub mod prediction;
pub mod residual;
pub mod transform;
pub mod ways;

pub use offset::{sample_offset, walk};
