//! Session lists: sound, with fields at and past their limits, arbitrary, and
//! of wrong lengths; for each one every call that takes a session.

use crate::check::{Difference, Tally};
use crate::fields;
use crate::random::Random;
use crate::reference::face::{Call, KINDS, answer};
use crate::reference::members::Block;
use crate::reference::order::Place;
use crate::reference::session::{Fields, KEY_FRAMES, OTHERS, SESSION_NUMBERS, Session, WIDTHS};
use crate::reference::sizes::{Sizes, sizes};

/// Compares the calls on so many sessions.
pub fn compare(random: &mut Random, sessions: u64) -> Result<Tally, Difference> {
    let mut tally = Tally::new();
    for _ in 0..sessions {
        let list = session(random);
        let fields = Fields::of_session(&list);
        let frame = Session::of_list(&list).sound().then(|| sizes(&fields));
        for kind in 1..KINDS.len() {
            let call = call(random, kind, &fields, frame.as_ref());
            let (lent, output_length) = lengths(random, &list, call.output_length());
            let expected = answer(call, &lent, output_length);
            tally.check(call, &lent, output_length, &expected)?;
        }
    }
    Ok(tally)
}

/// A session's list: sound, changed, or arbitrary.
pub fn session(random: &mut Random) -> [u64; SESSION_NUMBERS] {
    let references = match random.below(3) {
        0 => 0,
        1 => 1,
        _ => random.any(),
    };
    let mut list = fields::sound(random).session(references);
    count(random, &mut list);
    match random.below(8) {
        0..4 => {}
        4 | 5 => change(random, &mut list),
        6 => {
            for _ in 0..2 + random.below(3) {
                change(random, &mut list);
            }
        }
        _ if random.once_in(2) => list = std::array::from_fn(|_| random.any()),
        _ => {
            for (number, width) in list.iter_mut().zip(WIDTHS) {
                *number = random.bits(width);
            }
        }
    }
    list
}

/// Gives a session with sound fields any numbers of key frames and of others that
/// it may have, often the last that they may be.
pub fn count(random: &mut Random, list: &mut [u64; SESSION_NUMBERS]) {
    let last = (1 << list[SHIFT]) - 1;
    list[KEY_FRAMES] = match random.below(8) {
        0 => u64::MAX,
        1 => u64::MAX - random.below(3),
        2 => random.any(),
        3 => 1 << random.below(64),
        _ => random.below(100),
    };
    list[OTHERS] = match random.below(8) {
        0 | 1 => last,
        2 => last - random.below(3).min(last),
        3 => random.up_to(last),
        _ => random.below(10).min(last),
    };
}

/// Where KFGSHIFT stands in a session's list.
const SHIFT: usize = 14;

/// Gives the others a number that is too large by little or much, or that is
/// right in its low bits.
fn too_many(random: &mut Random, list: &mut [u64; SESSION_NUMBERS]) {
    let bound = 1_u64 << (list[SHIFT] % 32);
    list[OTHERS] = match random.below(5) {
        0 => bound,
        1 => bound + random.below(3),
        2 => list[OTHERS] | 1 << (32 + random.below(32)),
        3 => u64::MAX,
        _ => random.any(),
    };
}

/// Changes one field to a number near one of its limits, or to one that is
/// equal to the old in its low bits; or the number of others, or KFGSHIFT under
/// it.
pub fn change(random: &mut Random, list: &mut [u64; SESSION_NUMBERS]) {
    match random.below(16) {
        0 => return too_many(random, list),
        1 => return list[SHIFT] = random.below(4),
        _ => {}
    }
    let index = random.index(16);
    let old = list[index];
    let end = 1 << WIDTHS[index];
    let frame = 16 * (list[random.pick(&[1, 2])] & 0xFFFF);
    list[index] = match random.below(12) {
        0 => 0,
        1 => 1,
        2 => end - 1,
        3 => end,
        4 => end + old % end,
        5 => u64::MAX,
        6 => old.wrapping_add(1),
        7 => old.wrapping_sub(1),
        8 => old ^ 1 << random.below(64),
        9 => old.wrapping_add(1 << random.pick(&[8, 16, 24, 32, 33, 40, 63])),
        10 => frame.wrapping_add(random.below(3)).wrapping_sub(1),
        _ => random.any(),
    };
}

/// The list as it is lent and the length of the lent output: now and then wrong.
fn lengths(
    random: &mut Random,
    list: &[u64; SESSION_NUMBERS],
    output_length: usize,
) -> (Vec<u64>, usize) {
    let mut lent = list.to_vec();
    let mut output = output_length;
    if random.once_in(32) {
        lent.resize(random.pick(&[0, 1, 17, 18, 20, 38]), 0);
    }
    if random.once_in(32) {
        output = random.pick(&[0, output_length - 1, output_length + 1, 18]);
    }
    (lent, output)
}

/// The call with this index in `KINDS`, inside the frame, at its border, or anywhere.
fn call(random: &mut Random, kind: usize, fields: &Fields, frame: Option<&Sizes>) -> Call {
    match kind {
        1 => Call::Sizes,
        2 => Call::BlockAt {
            number: block_number(random, frame),
        },
        3 => Call::BlockNumber {
            block: block(random, frame),
        },
        4 => Call::MacroBlockAt {
            number: near(random, frame.map_or(9, |frame| frame.nmbs)),
        },
        5 => Call::MacroBlockNumber {
            place: place(random, fields.fmbw, fields.fmbh),
        },
        6 => Call::MacroBlockOf {
            block: block(random, frame),
        },
        7 => Call::SampleOffset {
            block: block(random, frame),
            column: sample(random),
            row: sample(random),
        },
        _ => Call::WorkLengths,
    }
}

/// A number that is mostly below `end`, else at or past it.
fn near(random: &mut Random, end: u64) -> u64 {
    match random.below(16) {
        0 => end.wrapping_sub(1),
        1 => end,
        2 => end.wrapping_add(random.below(100)),
        3 => random.any(),
        4 => random.pick(&[0, 1, u64::MAX, 1 << 32, 1 << 63]),
        5 => random.below(end.max(1)).wrapping_add(1 << 32),
        _ => random.below(end.max(1)),
    }
}

/// A block's number: near the end of one of the planes, or of the frame.
fn block_number(random: &mut Random, frame: Option<&Sizes>) -> u64 {
    let Some(frame) = frame else {
        return near(random, 99);
    };
    let luma = frame.planes[0].length / 64;
    let cb = frame.planes[1].length / 64;
    match random.below(8) {
        0 => near(random, luma),
        1 => luma + near(random, cb) % (frame.nbs - luma),
        _ => near(random, frame.nbs),
    }
}

/// A block of a plane.
fn block(random: &mut Random, frame: Option<&Sizes>) -> Block {
    let plane = match random.below(16) {
        0 => 3,
        1 => random.any(),
        2 => (1 << 32) + random.below(3),
        _ => random.below(3),
    };
    let index = usize::try_from(plane).unwrap_or(0).min(2);
    let (across, up) = frame.map_or((5, 5), |frame| {
        (frame.planes[index].across, frame.planes[index].up)
    });
    (plane, place(random, across, up))
}

/// A place in a grid of this size, or near it.
fn place(random: &mut Random, across: u64, up: u64) -> Place {
    match random.below(4) {
        0 => (near(random, across), random.below(up.max(1))),
        1 => (random.below(across.max(1)), near(random, up)),
        2 => (near(random, across), near(random, up)),
        _ => (random.below(across.max(1)), random.below(up.max(1))),
    }
}

/// A column or row of a block, mostly 0 to 7.
fn sample(random: &mut Random) -> u64 {
    match random.below(32) {
        0 => 8,
        1 => random.any(),
        2 => (1 << 32) + random.below(8),
        _ => random.below(8),
    }
}
