//! How long each part of making a frame takes, on one core: the best of many
//! rounds, each over a whole frame whose memory lies in the caches as it would
//! while decoding.

use super::face::{self, Blocks, Frame, MATRICES};
use super::material::{layout, packed, place, samples, small};
use crate::random::Random;
use crate::reference::frame::record::{Prediction, Record, Vector};
use std::time::{Duration, Instant};

/// 352 by 288 samples, 4:2:0.
const SMALL: Frame = Frame {
    pf: 0,
    w: 22,
    h: 18,
};

/// 1920 by 1088 samples, 4:2:0.
const LARGE: Frame = Frame {
    pf: 0,
    w: 120,
    h: 68,
};

/// How often each part is timed.
const ROUNDS: usize = 60;

/// Times the parts and prints what each takes.
pub fn time(random: &mut Random) {
    println!("frame of 22 by 18 macro blocks, 4:2:0; the best of {ROUNDS} rounds");
    residuals(random);
    predictions(random);
    filters(random);
    dc(random);
    copies(random);
    frames(random);
}

/// The least time of many rounds.
fn best(mut round: impl FnMut() -> Duration) -> Duration {
    let times = (0..ROUNDS).map(|_| round());
    times.min().expect("there are rounds")
}

/// The least time of many rounds that are timed whole.
fn best_of(mut round: impl FnMut()) -> Duration {
    best(|| {
        let start = Instant::now();
        round();
        start.elapsed()
    })
}

/// Prints what each of so many things took.
fn print(name: &str, time: Duration, count: usize, of: &str) {
    let each = time.as_nanos() as f64 / count as f64;
    println!("  {name:40} {each:>8.1} ns per {of}");
}

/// Coefficients as recordings have them: few, of which most come early.
fn coefficients(random: &mut Random, blocks: usize) -> Vec<i16> {
    let mut coefs = vec![0; 64 * blocks];
    for block in coefs.chunks_mut(64) {
        for _ in 0..1 + random.index(12) {
            let end = 1 + random.index(64);
            block[random.index(end)] = small(random, 12);
        }
    }
    coefs
}

fn residuals(random: &mut Random) {
    let blocks = SMALL.blocks();
    let coefs = coefficients(random, blocks);
    let matrix: [u16; 64] = std::array::from_fn(|i| 16 + 2 * i as u16);
    let mut out = [0; 64];
    for (name, last) in [("residual, full", 20), ("residual, DC-only", 1)] {
        let time = best_of(|| {
            for block in 0..blocks {
                let dc = (coefs[64 * block], 48);
                face::residual(&coefs, 64 * block, dc, last, &matrix, &mut out);
            }
        });
        print(name, time, blocks, "block");
    }
}

fn predictions(random: &mut Random) {
    let layout = layout(SMALL);
    let [golden, previous] = [(); 2].map(|()| samples(random, SMALL.bytes()));
    let mut new = vec![0; SMALL.bytes()];
    let residual: [i16; 64] = std::array::from_fn(|_| small(random, 30));
    let by = |x, y| Prediction::Previous(Vector { x, y });
    // The blocks of luma that have eight blocks on each side.
    let inner: Vec<_> = layout
        .blocks
        .iter()
        .filter(|at| at.plane == 0 && (8..36).contains(&at.x) && (8..28).contains(&at.y))
        .collect();
    let border: Vec<_> = layout
        .blocks
        .iter()
        .filter(|at| at.plane == 0 && at.x == 0)
        .collect();
    for (name, prediction, places) in [
        ("prediction, none", Prediction::None, &inner),
        ("prediction, vector 0", by(0, 0), &inner),
        ("prediction, whole samples", by(6, -4), &inner),
        ("prediction, half samples", by(5, -3), &inner),
        ("prediction, over the border", by(-5, -3), &border),
    ] {
        let record = packed(&Record {
            coded: true,
            qi_index: 0,
            prediction,
        });
        let repeats = 20;
        let time = best_of(|| {
            for _ in 0..repeats {
                for at in places {
                    let sources: [&[u8]; 2] = [&golden, &previous];
                    face::write_block(SMALL, place(**at), record, sources, &residual, &mut new);
                }
            }
        });
        print(name, time, repeats * places.len(), "block");
    }
}

/// A frame that looks like a picture: slopes with some noise.
fn picture(random: &mut Random, frame: Frame) -> Vec<u8> {
    let sample = |i: usize| (i / 7 % 200) as u8 + random.below(12) as u8;
    (0..frame.bytes()).map(sample).collect()
}

fn filters(random: &mut Random) {
    let planes = picture(random, SMALL);
    let mut new = planes.clone();
    for (name, limit, of_16) in [
        ("loop filter, all coded, limit 30", 30, 16),
        ("loop filter, all coded, limit 4", 4, 16),
        ("loop filter, half coded, limit 30", 30, 8),
        ("loop filter, 1 in 16 coded, limit 30", 30, 1),
    ] {
        let records: Vec<u32> = (0..SMALL.blocks())
            .map(|_| u32::from(random.below(16) < of_16))
            .collect();
        let coded = records.iter().filter(|record| **record == 1).count();
        let time = best(|| {
            new.copy_from_slice(&planes);
            let start = Instant::now();
            face::filter_frame(SMALL, &records, limit, &mut new);
            start.elapsed()
        });
        print(name, time, coded, "coded block");
    }
}

fn dc(random: &mut Random) {
    let blocks = SMALL.blocks();
    let values: Vec<i16> = (0..blocks).map(|_| small(random, 40)).collect();
    let mut dc = values.clone();
    for (name, of_16) in [
        ("DC prediction, all coded", 16),
        ("DC prediction, half coded", 8),
    ] {
        let records: Vec<u32> = (0..blocks)
            .map(|_| u32::from(random.below(16) < of_16))
            .collect();
        let time = best(|| {
            dc.copy_from_slice(&values);
            let start = Instant::now();
            face::predict_dc(SMALL, &mut dc, &records);
            start.elapsed()
        });
        print(name, time, blocks, "block");
    }
}

fn copies(random: &mut Random) {
    for frame in [SMALL, LARGE] {
        let src = samples(random, frame.bytes());
        let mut dst = vec![0; frame.bytes()];
        let time = best_of(|| face::copy(&mut dst, &src));
        let (bytes, name) = (frame.bytes(), format!("copy of {} bytes", frame.bytes()));
        let rate = bytes as f64 / time.as_secs_f64() / 1e6;
        println!("  {name:40} {rate:>8.0} MB/s");
    }
}

fn frames(random: &mut Random) {
    let layout = layout(SMALL);
    let blocks = SMALL.blocks();
    let golden = picture(random, SMALL);
    let previous = picture(random, SMALL);
    let mut new = vec![0; SMALL.bytes()];
    let matrices: Vec<u16> = (0..MATRICES).map(|i| 16 + 2 * (i as u16 % 64)).collect();
    for (name, of_16) in [
        ("whole frame, all coded", 16),
        ("whole frame, 1 in 16 coded", 1),
        ("whole frame, none coded", 0),
    ] {
        let order: Vec<usize> = layout.coded_order().collect();
        let coded: Vec<u64> = order
            .into_iter()
            .filter(|_| random.below(16) < of_16)
            .map(|block| block as u64)
            .collect();
        let count = coded.len();
        let mut records = vec![0; blocks];
        for block in &coded {
            records[*block as usize] = packed(&Record {
                coded: true,
                qi_index: random.index(2),
                prediction: Prediction::Previous(Vector {
                    x: small(random, 6).into(),
                    y: small(random, 6).into(),
                }),
            });
        }
        let coefs = coefficients(random, count);
        let lasts: Vec<u8> = (0..count).map(|_| random.below(24) as u8).collect();
        let time = best(|| {
            let mut records = records.clone();
            let (mut coded, mut coefs, mut lasts) = (coded.clone(), coefs.clone(), lasts.clone());
            let mut dc = vec![0; blocks];
            let tested = Blocks {
                records: &mut records,
                coded: &mut coded,
                count,
                coefs: &mut coefs,
                dc: &mut dc,
                lasts: &mut lasts,
            }
            .tested(SMALL);
            let start = Instant::now();
            face::make_frame(tested, (&matrices, 20), [&golden, &previous], &mut new);
            start.elapsed()
        });
        print(name, time, blocks, "block");
    }
}
