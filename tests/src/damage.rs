//! Packets that are damaged, cut and extended.

use crate::random::Random;
use crate::written::Written;

/// A packet at the start of a longer buffer. What follows a cut packet is its
/// rest, so that a reader that looks past the end is found out.
#[derive(Clone, Debug)]
pub struct Packet {
    buffer: Vec<u8>,
    length: usize,
}

impl Packet {
    /// A whole buffer.
    pub fn whole(buffer: Vec<u8>) -> Packet {
        let length = buffer.len();
        Packet { buffer, length }
    }

    /// A buffer that is cut after so many bytes.
    pub fn cut(buffer: Vec<u8>, length: usize) -> Packet {
        let length = length.min(buffer.len());
        Packet { buffer, length }
    }

    /// The packet's bytes.
    pub fn bytes(&self) -> &[u8] {
        &self.buffer[..self.length]
    }
}

/// Flips one bit.
pub fn damage_bit(random: &mut Random, bytes: &mut [u8]) {
    if !bytes.is_empty() {
        let index = random.index(bytes.len());
        bytes[index] ^= 1 << random.below(8);
    }
}

/// Changes one byte.
pub fn damage_byte(random: &mut Random, bytes: &mut [u8]) {
    if !bytes.is_empty() {
        let index = random.index(bytes.len());
        bytes[index] = random.byte();
    }
}

/// Cuts so that a field passes the end, if one of its bits begins a byte.
pub fn cut_in_field<F: Ord>(random: &mut Random, written: &Written<F>, buffer: Vec<u8>) -> Packet {
    let length = written.pick(random).first.div_ceil(8) as usize;
    Packet::cut(buffer, length)
}

/// Cuts at any length.
pub fn cut_anywhere(random: &mut Random, buffer: Vec<u8>) -> Packet {
    let length = random.index(buffer.len() + 1);
    Packet::cut(buffer, length)
}

/// Appends random bytes, at most so many.
pub fn extend(random: &mut Random, bytes: &mut Vec<u8>, most: u64) {
    for _ in 0..1 + random.below(most) {
        bytes.push(random.byte());
    }
}

/// Makes all random from some place on.
pub fn random_tail(random: &mut Random, bytes: &mut [u8]) {
    if !bytes.is_empty() {
        let kept = random.index(bytes.len());
        bytes[kept..].fill_with(|| random.byte());
    }
}

/// Overwrites a field in bytes.
pub fn overwrite(bytes: &mut [u8], place: u64, width: u32, value: u64) {
    for i in 0..u64::from(width) {
        let bit = (value >> (u64::from(width) - 1 - i) & 1) as u8;
        let at = place + i;
        let byte = &mut bytes[(at / 8) as usize];
        let shift = 7 - at % 8;
        *byte = *byte & !(1 << shift) | bit << shift;
    }
}

#[cfg(test)]
mod tests {
    use super::*;

    #[test]
    fn only_the_field_is_overwritten() {
        let mut bytes = [0xFF, 0x00, 0xFF];
        overwrite(&mut bytes, 6, 11, 0b010_1010_1010);
        assert_eq!(bytes, [0b1111_1101, 0b0101_0101, 0b0111_1111]);
    }
}
