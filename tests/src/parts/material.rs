//! Random values that the parts are tried on.

use super::face::{Frame, Place};
use crate::random::Random;
use crate::reference::frame::record::{Prediction, Record, Vector};
use crate::reference::layout::{BlockPlace, Layout};
use crate::reference::session::Fields;

/// The pixel formats.
pub const FORMATS: [u64; 3] = [0, 2, 3];

/// The layout of a frame.
pub fn layout(frame: Frame) -> Layout {
    Layout::new(&Fields {
        fmbw: frame.w,
        fmbh: frame.h,
        pf: frame.pf,
        ..Fields::default()
    })
}

/// A random frame of at most `most` by `most` macro blocks.
pub fn frame(random: &mut Random, most: u64) -> Frame {
    Frame {
        pf: random.pick(&FORMATS),
        w: 1 + random.below(most),
        h: 1 + random.below(most),
    }
}

/// A block's place as numbers.
pub fn place(place: BlockPlace) -> Place {
    Place {
        plane: place.plane as u64,
        x: place.x as u64,
        y: place.y as u64,
    }
}

/// 16 bits, often at a limit.
pub fn wild(random: &mut Random) -> i16 {
    match random.below(8) {
        0 => 0,
        1 => i16::MAX - random.below(3) as i16,
        2 => i16::MIN + random.below(3) as i16,
        3 => small(random, 3),
        4 => small(random, 580),
        5 => small(random, 4096),
        _ => random.any() as i16,
    }
}

/// A number of this magnitude at most.
pub fn small(random: &mut Random, most: i16) -> i16 {
    let most = i64::from(most);
    (random.up_to(2 * most as u64) as i64 - most) as i16
}

/// A quantizer: what a setup can give, or any, or at a limit.
pub fn quantizer(random: &mut Random) -> u16 {
    match random.below(6) {
        0..3 => 8 + random.up_to(4088) as u16,
        3 => random.pick(&[0, 1, 2, 3, 16, 32, 4096]),
        4 => random.pick(&[32767, 32768, 65534, 65535]),
        _ => random.any() as u16,
    }
}

/// Bytes: noise, black and white, nearly flat, or steps.
pub fn samples(random: &mut Random, count: usize) -> Vec<u8> {
    let kind = random.below(4);
    let (base, step) = (random.byte(), 1 + random.index(64));
    (0..count)
        .map(|i| match kind {
            0 => random.byte(),
            1 => random.pick(&[0, 255]),
            2 => base.wrapping_add(random.below(24) as u8),
            _ => (i / step % 16 * 17) as u8,
        })
        .collect()
}

/// A component of a vector, often at a limit.
fn component(random: &mut Random) -> i64 {
    match random.below(4) {
        0 => random.pick(&[-31, -30, -1, 0, 1, 30, 31]),
        1 => random.up_to(8) as i64 - 4,
        _ => random.up_to(62) as i64 - 31,
    }
}

/// A prediction.
pub fn prediction(random: &mut Random) -> Prediction {
    let vector = Vector {
        x: component(random),
        y: component(random),
    };
    match random.below(3) {
        0 => Prediction::None,
        1 => Prediction::Previous(vector),
        _ => Prediction::Golden(vector),
    }
}

/// The record of a coded block with one of so many qi.
pub fn coded(random: &mut Random, qis: usize) -> Record {
    Record {
        coded: true,
        qi_index: random.index(qis),
        prediction: prediction(random),
    }
}

/// Which blocks are coded: none, few, some, most or all.
pub fn flags(random: &mut Random, count: usize) -> Vec<bool> {
    let of_16 = random.pick(&[0, 1, 4, 8, 12, 15, 16, 16]);
    (0..count).map(|_| random.below(16) < of_16).collect()
}

/// A record as a number. From the lowest bit: 1 bit coded, 2 bits qi index,
/// 2 bits reference, 6 bits x + 32, 6 bits y + 32; without a vector its bits are 0.
pub fn packed(record: &Record) -> u32 {
    let vector = |vector: Vector| ((vector.x + 32) + 64 * (vector.y + 32)) as u32;
    let prediction = match record.prediction {
        Prediction::None => 0,
        Prediction::Previous(v) => 1 + 4 * vector(v),
        Prediction::Golden(v) => 2 + 4 * vector(v),
    };
    8 * prediction + 2 * record.qi_index as u32 + u32::from(record.coded)
}

/// The packed records of a frame. The bits of an uncoded block beside its
/// flag are read by nobody: some get any.
pub fn packed_records(random: &mut Random, records: &[Record]) -> Vec<u32> {
    let any = random.once_in(4);
    records
        .iter()
        .map(|record| match record.coded || !any {
            true => packed(record),
            false => (random.any() as u32) & !1,
        })
        .collect()
}

#[cfg(test)]
#[allow(clippy::unusual_byte_groupings)] // a group is a field
mod tests {
    use super::*;

    #[test]
    fn records_as_numbers() {
        assert_eq!(packed(&Record::UNCODED), 0);
        let record = Record {
            coded: true,
            qi_index: 2,
            prediction: Prediction::Golden(Vector { x: -31, y: 31 }),
        };
        assert_eq!(packed(&record), 0b111111_000001_10_10_1);
        let record = Record {
            coded: true,
            qi_index: 0,
            prediction: Prediction::Previous(Vector::ZERO),
        };
        assert_eq!(packed(&record), 0b100000_100000_01_00_1);
    }
}
