//! An independent implementation of the identification header, the sizes, the
//! block orders, the setup header, table memory and frame packets, and of
//! decoding, written from the rules alone.
//!
//! It is meant to be read beside the rules, not to be fast: it reads bit by
//! bit, walks the super blocks and the curve as they are described, visits
//! every coded block at every position, and counts where the library computes.
//! Both profiles of this workspace check every sum and product for overflow.

pub mod bits;
pub mod census;
pub mod decode;
pub mod face;
pub mod frame;
pub mod frame_face;
pub mod identification;
pub mod layout;
pub mod matrices;
pub mod members;
pub mod numeric;
pub mod order;
pub mod ranges;
pub mod samples;
pub mod session;
pub mod setup;
pub mod shot_face;
pub mod sizes;
pub mod table_face;
pub mod table_memory;
pub mod trees;
pub mod work_memory;

#[cfg(test)]
mod table;
