//! The loop filter.

use super::face::{self, Frame};
use super::lent::Lent;
use super::material::{FORMATS, flags, layout, packed_records, samples};
use crate::check::Difference;
use crate::random::Random;
use crate::reference::frame::record::Record;
use crate::reference::samples::loop_filter::filter_block;
use std::fmt;

/// What was compared.
#[derive(Clone, Copy, Debug, Default)]
pub struct Counts {
    frames: u64,
    blocks: u64,
}

impl fmt::Display for Counts {
    fn fmt(&self, f: &mut fmt::Formatter<'_>) -> fmt::Result {
        write!(
            f,
            "{} coded blocks in {} frames, each limit with each response and each format",
            self.blocks, self.frames
        )
    }
}

/// Compares every limit with every response, and at least `count` random
/// frames, as many for each limit and format.
pub fn compare(random: &mut Random, count: u64) -> Result<Counts, Difference> {
    let mut counts = Counts::default();
    for limit in 0..128 {
        for upward in [false, true] {
            every_response(random, limit, upward, &mut counts)?;
        }
        for pf in FORMATS {
            for _ in 0..count.div_ceil(128 * 3) {
                let frame = Frame {
                    pf,
                    w: 1 + random.below(4),
                    h: 1 + random.below(4),
                };
                let flags = flags(random, frame.blocks());
                let planes = samples(random, frame.bytes());
                check(random, frame, &flags, &planes, limit, &mut counts)?;
            }
        }
    }
    Ok(counts)
}

/// A number from one to another.
fn between(random: &mut Random, least: i64, most: i64) -> i64 {
    least + random.up_to((most - least) as u64) as i64
}

/// Two bytes with this difference, the first one less the second one.
fn apart(random: &mut Random, difference: i64) -> [i64; 2] {
    let first = between(random, difference.max(0), 255 + difference.min(0));
    [first, first - difference]
}

/// Four samples across an edge with a response from −127 to 128, which is
/// (p0 − 3·p1 + 3·p2 − p3 + 4) >> 3.
fn line(random: &mut Random, response: i64) -> [u8; 4] {
    let sum = (8 * response - 4 + random.below(8) as i64).min(1020);
    // sum = 3·(p2 − p1) + (p0 − p3), where no difference is above 255
    let least = (sum - 255).div_euclid(3) + i64::from((sum - 255).rem_euclid(3) > 0);
    let most = (sum + 255).div_euclid(3);
    let inner = between(random, least.max(-255), most.min(255));
    let [p2, p1] = apart(random, inner);
    let [p0, p3] = apart(random, sum - 3 * inner);
    [p0, p1, p2, p3].map(|p| u8::try_from(p).expect("it is a byte"))
}

/// A frame of one row or column of macro blocks whose edges have each
/// response, all blocks coded.
fn every_response(
    random: &mut Random,
    limit: u32,
    upward: bool,
    counts: &mut Counts,
) -> Result<(), Difference> {
    let (w, h) = if upward { (1, 16) } else { (16, 1) };
    let frame = Frame { pf: 0, w, h };
    let mut planes = samples(random, frame.bytes());
    // Luma has 32 by 2 blocks, or 2 by 32: 31 edges with 16 lines each. What
    // the middle lines of an edge find is changed by the edges that cross it,
    // so each response comes twice, in different lines.
    let width = 16 * w as usize;
    let (across, along) = if upward { (width, 1) } else { (1, width) };
    for number in 0..31 * 16 {
        let (edge, line_number) = (1 + number / 16, number % 16);
        let response = (number + number / 256 * 8) as i64 % 256 - 127;
        let first = (8 * edge - 2) * across + line_number * along;
        for (i, p) in line(random, response).into_iter().enumerate() {
            planes[first + i * across] = p;
        }
    }
    let flags = vec![true; frame.blocks()];
    check(random, frame, &flags, &planes, limit, counts)
}

/// Compares the filter over a frame.
fn check(
    random: &mut Random,
    frame: Frame,
    flags: &[bool],
    planes: &[u8],
    limit: u32,
    counts: &mut Counts,
) -> Result<(), Difference> {
    let layout = layout(frame);
    let record = |coded: &bool| Record {
        coded: *coded,
        ..Record::UNCODED
    };
    let records: Vec<Record> = flags.iter().map(record).collect();
    let mut expected = planes.to_vec();
    counts.frames += 1;
    for (block, record) in records.iter().enumerate() {
        if record.coded {
            filter_block(&layout, &records, block, limit.into(), &mut expected);
            counts.blocks += 1;
        }
    }
    let mut new = Lent::new(planes, 0xA5);
    let packed = packed_records(random, &records);
    face::filter_frame(frame, &packed, limit, new.list());
    new.holds(&expected).map_err(|came| {
        let given = format!(
            "call:     parts_filter_frame\ngiven:    {frame:?}, limit {limit}\n\
             records:  {packed:?}\nplanes:   {planes:?}\n"
        );
        Difference::new(&given, &came)
    })
}

#[cfg(test)]
mod tests {
    use super::*;

    #[test]
    fn lines_have_their_response() {
        let mut random = Random::new(3);
        for response in -127..=128 {
            for _ in 0..100 {
                let p = line(&mut random, response).map(i64::from);
                assert_eq!((p[0] - 3 * p[1] + 3 * p[2] - p[3] + 4) >> 3, response);
            }
        }
    }
}
