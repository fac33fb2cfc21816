//! Block orders: every frame size up to a limit in all pixel formats, and
//! random places in the largest frames.

use crate::check::{Difference, Tally};
use crate::random::Random;
use crate::reference::face::{Answer, Call, grid};
use crate::reference::members::{Block, blocks_of};
use crate::reference::order::{Grid, Place};
use crate::reference::samples::{sample_offset, walk};
use crate::reference::session::{Fields, SESSION_NUMBERS};
use crate::reference::sizes::{Sizes, sizes};
use std::collections::HashMap;

/// Frames up to so many macro blocks have every sample compared.
const ALL_SAMPLES: u64 = 6;

/// The formats 4:2:0, 4:2:2, 4:4:4.
const FORMATS: [u64; 3] = [0, 2, 3];

/// A frame under test.
struct Frame {
    fields: Fields,
    session: [u64; SESSION_NUMBERS],
    sizes: Sizes,
}

impl Frame {
    fn new(fmbw: u64, fmbh: u64, pf: u64) -> Frame {
        let fields = Fields::of_frame(fmbw, fmbh, pf);
        Frame {
            session: fields.session(0),
            sizes: sizes(&fields),
            fields,
        }
    }

    /// Compares a call with the numbers that it must write.
    fn expect(&self, tally: &mut Tally, call: Call, numbers: &[u64]) -> Result<(), Difference> {
        let length = call.output_length();
        tally.check(call, &self.session, length, &Answer::accepted(numbers))
    }

    /// Compares a call that asks for what the frame does not have.
    fn expect_absent(&self, tally: &mut Tally, call: Call) -> Result<(), Difference> {
        let length = call.output_length();
        tally.check(call, &self.session, length, &Answer::Refused(255))
    }
}

/// Compares every frame size up to `most` by `most` macro blocks.
pub fn compare_all(most: u64) -> Result<Tally, Difference> {
    let mut tally = Tally::new();
    for pf in FORMATS {
        for fmbw in 1..=most {
            for fmbh in 1..=most {
                compare_frame(&mut tally, &Frame::new(fmbw, fmbh, pf))?;
            }
        }
    }
    Ok(tally)
}

/// Compares all of one frame.
fn compare_frame(tally: &mut Tally, frame: &Frame) -> Result<(), Difference> {
    frame.expect(tally, Call::Sizes, &frame.sizes.list())?;
    compare_blocks(tally, frame)?;
    compare_macro_blocks(tally, frame)?;
    compare_absent(tally, frame)?;
    if frame.sizes.nmbs <= ALL_SAMPLES {
        compare_samples(tally, frame)?;
    }
    Ok(())
}

/// Every block both ways, its macro block and its corner samples.
fn compare_blocks(tally: &mut Tally, frame: &Frame) -> Result<(), Difference> {
    let owners = owners(&frame.fields);
    for (number, block) in (0..).zip(coded_order(&frame.sizes)) {
        let (plane, (x, y)) = block;
        frame.expect(tally, Call::BlockAt { number }, &[plane, x, y])?;
        frame.expect(tally, Call::BlockNumber { block }, &[number])?;
        let owner = owners[&block];
        frame.expect(tally, Call::MacroBlockOf { block }, &[owner.0, owner.1])?;
        for (column, row) in [(0, 0), (7, 0), (0, 7), (7, 7)] {
            let offset = sample_offset(&frame.sizes, block, column, row);
            frame.expect(tally, Call::SampleOffset { block, column, row }, &[offset])?;
        }
    }
    Ok(())
}

/// All blocks of a frame in coded order; the planes follow on.
fn coded_order(sizes: &Sizes) -> Vec<Block> {
    (0..)
        .zip(&sizes.planes)
        .flat_map(|(plane, size)| grid(size).walk().into_iter().map(move |at| (plane, at)))
        .collect()
}

/// The macro block of every block, by going through the macro blocks.
fn owners(fields: &Fields) -> HashMap<Block, Place> {
    let mut owners = HashMap::new();
    for y in 0..fields.fmbh {
        for x in 0..fields.fmbw {
            for block in blocks_of(fields.pf, (x, y)) {
                owners.insert(block, (x, y));
            }
        }
    }
    owners
}

/// Every macro block both ways.
fn compare_macro_blocks(tally: &mut Tally, frame: &Frame) -> Result<(), Difference> {
    let grid = Grid::macro_blocks(frame.fields.fmbw, frame.fields.fmbh);
    for (number, place) in (0..).zip(grid.walk()) {
        frame.expect(tally, Call::MacroBlockAt { number }, &[place.0, place.1])?;
        frame.expect(tally, Call::MacroBlockNumber { place }, &[number])?;
    }
    Ok(())
}

/// What lies just outside the frame.
fn compare_absent(tally: &mut Tally, frame: &Frame) -> Result<(), Difference> {
    let Sizes {
        nbs, nmbs, planes, ..
    } = frame.sizes;
    for number in [nbs, nbs + 1, u64::MAX] {
        frame.expect_absent(tally, Call::BlockAt { number })?;
    }
    for number in [nmbs, nmbs + 1, u64::MAX] {
        frame.expect_absent(tally, Call::MacroBlockAt { number })?;
    }
    for place in beside(frame.fields.fmbw, frame.fields.fmbh) {
        frame.expect_absent(tally, Call::MacroBlockNumber { place })?;
    }
    for (plane, size) in (0..).zip(planes) {
        for place in beside(size.across, size.up) {
            compare_absent_block(tally, frame, (plane, place))?;
        }
        for (column, row) in [(8, 0), (0, 8), (8, 8), (u64::MAX, 0), (0, u64::MAX)] {
            let block = (plane, (0, 0));
            frame.expect_absent(tally, Call::SampleOffset { block, column, row })?;
        }
    }
    compare_absent_block(tally, frame, (3, (0, 0)))?;
    compare_absent_block(tally, frame, (u64::MAX, (0, 0)))
}

/// A block that the frame does not have.
fn compare_absent_block(tally: &mut Tally, frame: &Frame, block: Block) -> Result<(), Difference> {
    let (column, row) = (0, 0);
    frame.expect_absent(tally, Call::BlockNumber { block })?;
    frame.expect_absent(tally, Call::MacroBlockOf { block })?;
    frame.expect_absent(tally, Call::SampleOffset { block, column, row })
}

/// Places just outside a grid, and far outside.
fn beside(across: u64, up: u64) -> [Place; 6] {
    [
        (across, 0),
        (0, up),
        (across, up - 1),
        (across - 1, up),
        (u64::MAX, 0),
        (0, u64::MAX),
    ]
}

/// Every sample of a frame in the order of the buffer: each byte is met once.
fn compare_samples(tally: &mut Tally, frame: &Frame) -> Result<(), Difference> {
    for (offset, (block, column, row)) in (0..).zip(walk(&frame.sizes)) {
        frame.expect(tally, Call::SampleOffset { block, column, row }, &[offset])?;
    }
    Ok(())
}

/// Compares random blocks and macro blocks of large frames.
pub fn compare_large(random: &mut Random, frames: u64) -> Result<Tally, Difference> {
    let mut tally = Tally::new();
    for _ in 0..frames {
        let frame = large(random);
        large_block(random, &mut tally, &frame)?;
        large_macro_block(random, &mut tally, &frame)?;
    }
    Ok(tally)
}

/// A large frame, now and then the largest.
fn large(random: &mut Random) -> Frame {
    let mut side = || match random.below(4) {
        0 => 65535,
        1 => 65535 - random.below(8),
        2 => 1 + random.below(65535),
        _ => random.pick(&[4096, 4097, 16384, 32767, 32768]),
    };
    let (fmbw, fmbh) = (side(), side());
    Frame::new(fmbw, fmbh, random.pick(&FORMATS))
}

/// A random block by its number and one by its place.
fn large_block(random: &mut Random, tally: &mut Tally, frame: &Frame) -> Result<(), Difference> {
    let plane = random.below(3);
    let planes = &frame.sizes.planes;
    let size = planes[plane as usize];
    let grid = grid(&size);
    let before = size.offset / 64;

    let number = somewhere(random, grid.count());
    let (x, y) = grid.walked_place(number);
    let call = Call::BlockAt {
        number: before + number,
    };
    frame.expect(tally, call, &[plane, x, y])?;

    let place = (somewhere(random, size.across), somewhere(random, size.up));
    let block = (plane, place);
    let number = before + grid.walked_number(place);
    frame.expect(tally, Call::BlockNumber { block }, &[number])?;
    let (column, row) = (random.below(8), random.below(8));
    let offset = sample_offset(&frame.sizes, block, column, row);
    frame.expect(tally, Call::SampleOffset { block, column, row }, &[offset])
}

/// A random macro block by its number, one by its place, and its blocks.
fn large_macro_block(
    random: &mut Random,
    tally: &mut Tally,
    frame: &Frame,
) -> Result<(), Difference> {
    let Fields { fmbw, fmbh, pf, .. } = frame.fields;
    let grid = Grid::macro_blocks(fmbw, fmbh);
    let number = somewhere(random, grid.count());
    let (x, y) = grid.walked_place(number);
    frame.expect(tally, Call::MacroBlockAt { number }, &[x, y])?;

    let place = (somewhere(random, fmbw), somewhere(random, fmbh));
    let number = grid.walked_number(place);
    frame.expect(tally, Call::MacroBlockNumber { place }, &[number])?;
    for block in blocks_of(pf, place) {
        frame.expect(tally, Call::MacroBlockOf { block }, &[place.0, place.1])?;
    }
    Ok(())
}

/// A number below `end`, now and then one of the last.
fn somewhere(random: &mut Random, end: u64) -> u64 {
    if random.once_in(4) {
        end - 1 - random.below(end.min(8))
    } else {
        random.below(end)
    }
}
