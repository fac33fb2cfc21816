//! What the command and the tests share: recordings as sequences of packets,
//! which is `wedgepetal::recording`, and what writes bits and hashes planes.

pub mod bit_writer;
pub mod hash;

pub use wedgepetal::recording::*;
