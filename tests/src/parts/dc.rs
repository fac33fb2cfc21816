//! DC prediction.

use super::face::{self, Frame};
use super::lent::Lent;
use super::material::{FORMATS, coded, flags, frame, layout, packed_records, small, wild};
use crate::check::Difference;
use crate::random::Random;
use crate::reference::frame::record::{Prediction, Record, Vector};
use crate::reference::frame::{FramePacket, Kind};
use crate::reference::samples::dc;
use std::fmt;

/// What was compared.
#[derive(Clone, Copy, Debug, Default)]
pub struct Counts {
    frames: u64,
    blocks: u64,
}

impl fmt::Display for Counts {
    fn fmt(&self, f: &mut fmt::Formatter<'_>) -> fmt::Result {
        write!(f, "{} coded blocks in {} frames", self.blocks, self.frames)
    }
}

/// Compares every mix of a block's neighbours and `count` random frames.
pub fn compare(random: &mut Random, count: u64) -> Result<Counts, Difference> {
    let mut counts = Counts::default();
    for mix in 0..4 * 4 * 4 * 4 * 3 {
        for limit in [3, 100, 200, 1000, i16::MAX] {
            neighbours(random, mix, limit, &mut counts)?;
        }
    }
    for _ in 0..count {
        let frame = frame(random, 5);
        let flags = flags(random, frame.blocks());
        let records: Vec<Record> = flags
            .into_iter()
            .map(|is_coded| match is_coded {
                true => coded(random, 3),
                false => Record::UNCODED,
            })
            .collect();
        let limit = random.pick(&[2, 60, 130, 600, 0]);
        let values: Vec<i16> = (0..frame.blocks())
            .map(|_| match limit {
                0 => wild(random),
                limit => small(random, limit),
            })
            .collect();
        check(random, frame, &records, &values, &mut counts)?;
    }
    Ok(counts)
}

/// A block with four neighbours, each of which is uncoded or has one of the
/// three references.
fn neighbours(
    random: &mut Random,
    mix: usize,
    limit: i16,
    counts: &mut Counts,
) -> Result<(), Difference> {
    let frame = Frame {
        pf: random.pick(&FORMATS),
        w: 2,
        h: 1,
    };
    let mut records = vec![Record::UNCODED; frame.blocks()];
    // DL, D, DR, L of the block in the second column of the second row.
    for (i, block) in [0, 1, 2, 4].into_iter().enumerate() {
        records[block] = with_reference(mix / 4_usize.pow(i as u32) % 4);
    }
    records[5] = with_reference(mix / 256);
    let values: Vec<i16> = (0..frame.blocks()).map(|_| small(random, limit)).collect();
    check(random, frame, &records, &values, counts)
}

/// A coded block's record with a reference; 3 is an uncoded block's.
fn with_reference(number: usize) -> Record {
    let prediction = match number {
        0 => Prediction::None,
        1 => Prediction::Previous(Vector { x: 1, y: -2 }),
        2 => Prediction::Golden(Vector::ZERO),
        _ => return Record::UNCODED,
    };
    Record {
        coded: true,
        qi_index: 0,
        prediction,
    }
}

/// Compares the prediction of a frame, given a value for each block.
fn check(
    random: &mut Random,
    frame: Frame,
    records: &[Record],
    values: &[i16],
    counts: &mut Counts,
) -> Result<(), Difference> {
    let layout = layout(frame);
    let coded: Vec<usize> = (0..values.len()).filter(|b| records[*b].coded).collect();
    let block = |block: &usize| {
        let mut coefficients = [0; 64];
        coefficients[0] = values[*block];
        coefficients
    };
    counts.frames += 1;
    counts.blocks += coded.len() as u64;
    let packet = FramePacket {
        kind: Kind::Inter,
        qis: Vec::new(),
        flags: Vec::new(),
        coefficients: coded.iter().map(block).collect(),
        coded,
        records: records.to_vec(),
        modes: Vec::new(),
        last_visits: Vec::new(),
        tokens: 0,
        bits: 0,
    };
    // What stands in the place of an uncoded block stays.
    let predicted = dc::predicted(&layout, &packet);
    let expected: Vec<i16> = (0..values.len())
        .map(|block| match records[block].coded {
            true => predicted[block] as i16,
            false => values[block],
        })
        .collect();
    let mut dc = Lent::new(values, 0x1234);
    let packed = packed_records(random, records);
    face::predict_dc(frame, dc.list(), &packed);
    dc.holds(&expected).map_err(|came| {
        let given = format!(
            "call:     parts_predict_dc\ngiven:    {frame:?}\nrecords:  {packed:?}\n\
             values:   {values:?}\n"
        );
        Difference::new(&given, &came)
    })
}
