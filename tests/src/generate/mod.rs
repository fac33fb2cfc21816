//! Random things to decode; the same seed, the same things.

pub mod cases;
pub mod encoder;
pub mod frame_packets;
