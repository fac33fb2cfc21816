//! What frame packets are decoded with: a session's fields, a setup header and
//! the frames to predict from.

use crate::fields;
use crate::random::Random;
use crate::reference::session::Fields;
use crate::reference::setup::{Setup, setup};
use crate::reference::sizes::sizes;
use crate::setup_header::{Trees, accepted_with};

/// A case.
pub struct Case {
    /// The identification fields, which are sound.
    pub fields: Fields,
    /// The setup packet.
    pub header: Vec<u8>,
    /// What it says.
    pub setup: Setup,
    /// The golden frame.
    pub golden: Vec<u8>,
    /// The previous frame.
    pub previous: Vec<u8>,
}

impl Case {
    /// A case of a small frame.
    pub fn small(random: &mut Random) -> Case {
        let (fmbw, fmbh) = small_size(random);
        let fields = fields::of_size(random, fmbw, fmbh);
        let header = setup_packet(random);
        Case::of(random, fields, header)
    }

    /// A case of a frame of so many macro blocks; its trees have all tokens, and
    /// packets may follow a key frame.
    pub fn of_size(random: &mut Random, fmbw: u64, fmbh: u64) -> Case {
        let mut fields = fields::of_size(random, fmbw, fmbh);
        fields.kfgshift = fields.kfgshift.max(1);
        let header = accepted_with(random, false, Trees::Full);
        Case::of(random, fields, header.bytes().to_vec())
    }

    /// A case of these fields, which are sound, and this setup packet, which
    /// is accepted.
    pub fn of(random: &mut Random, fields: Fields, header: Vec<u8>) -> Case {
        let length = sizes(&fields).buffer as usize;
        Case {
            setup: setup(&header).expect("the header is accepted"),
            header,
            fields,
            golden: buffer(random, length),
            previous: buffer(random, length),
        }
    }
}

/// Up to some 20 macro blocks; every remainder of 4 blocks across and up.
fn small_size(random: &mut Random) -> (u64, u64) {
    match random.below(8) {
        0 => (1, 1),
        1 => (1 + random.below(2), 1 + random.below(2)),
        2 => (1 + random.below(20), 1),
        3 => (1, 1 + random.below(20)),
        4 => (1 + random.below(5), 1 + random.below(5)),
        _ => (1 + random.below(3), 1 + random.below(3)),
    }
}

/// A setup packet that is accepted: trees with all tokens, with some, lone
/// leaves.
pub fn setup_packet(random: &mut Random) -> Vec<u8> {
    let trees = match random.below(8) {
        0 => Trees::Lone,
        1 | 2 => Trees::Any,
        _ => Trees::Full,
    };
    let small = random.once_in(2);
    accepted_with(random, small, trees).bytes().to_vec()
}

/// A frame: of one value, of extremes, of smooth ramps, or of any values.
pub fn buffer(random: &mut Random, length: usize) -> Vec<u8> {
    let (value, steps) = (random.byte(), [random.below(9), random.below(5)]);
    match random.below(5) {
        0 => vec![value; length],
        1 => (0..length).map(|_| random.pick(&[0, 255])).collect(),
        2 | 3 => (0..length as u64)
            .map(|i| (u64::from(value) + i * steps[0] + i / 16 * steps[1]) as u8)
            .collect(),
        _ => (0..length).map(|_| random.byte()).collect(),
    }
}
