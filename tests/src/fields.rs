//! Random identification fields that are sound, near every limit.

use crate::random::Random;
use crate::reference::session::Fields;

/// Frame sizes at which something changes.
const EDGES: [u64; 16] = [
    1, 2, 3, 4, 5, 15, 16, 17, 255, 256, 257, 4096, 4097, 32768, 65534, 65535,
];

/// Sound fields.
pub fn sound(random: &mut Random) -> Fields {
    let fmbw = frame_side(random);
    let fmbh = frame_side(random);
    of_size(random, fmbw, fmbh)
}

/// Sound fields of a frame of so many macro blocks.
pub fn of_size(random: &mut Random, fmbw: u64, fmbh: u64) -> Fields {
    let (picw, picx) = picture_side(random, 16 * fmbw);
    let (pich, picy) = picture_side(random, 16 * fmbh);
    Fields {
        vrev: random.bits(8),
        fmbw,
        fmbh,
        picw,
        pich,
        picx,
        picy,
        frn: rate(random),
        frd: rate(random),
        parn: random.bits(24),
        pard: random.bits(24),
        cs: random.bits(8),
        nombr: random.bits(24),
        qual: random.bits(6),
        kfgshift: random.bits(5),
        pf: random.pick(&[0, 2, 3]),
    }
}

/// A frame's side in macro blocks.
fn frame_side(random: &mut Random) -> u64 {
    match random.below(4) {
        0 => 1 + random.below(40),
        1 => 1 + random.below(300),
        2 => 1 + random.below(65535),
        _ => random.pick(&EDGES),
    }
}

/// A picture's side and its offset in a frame of `whole` samples.
fn picture_side(random: &mut Random, whole: u64) -> (u64, u64) {
    let size = match random.below(6) {
        0 => whole,
        1 => 0,
        2 => random.up_to(whole),
        3 => whole - random.pick(&[1, 254, 255, 256, 257]).min(whole),
        _ => whole - random.below(300).min(whole),
    };
    let last = (whole - size).min(255);
    let offset = match random.below(3) {
        0 => 0,
        1 => last,
        _ => random.up_to(last),
    };
    (size, offset)
}

/// A part of the frame rate.
fn rate(random: &mut Random) -> u64 {
    match random.below(4) {
        0 => random.pick(&[1, 255, 256, 65536, 1 << 24, 1 << 31, (1 << 32) - 1]),
        1 => 1 << random.below(32),
        _ => 1 + random.below((1 << 32) - 1),
    }
}

#[cfg(test)]
mod tests {
    use super::*;

    #[test]
    fn they_are_sound() {
        let mut random = Random::new(3);
        for _ in 0..20_000 {
            let fields = sound(&mut random);
            assert!(fields.sound(), "{fields:?}");
        }
    }
}
