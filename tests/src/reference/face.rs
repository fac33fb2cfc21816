//! The calls of `include/wedgepetal.h`: what each answers for any lists.
//!
//! The length of the session's list is judged first (number 1: there is no
//! session to judge), then its fields (number 8), then the length of the list
//! for the answer (number 1), then whether the frame has what is asked for
//! (number 255). Without a session the length comes before the packet.

use super::identification::identification;
use super::members::{Block, macro_block_of};
use super::order::{Grid, Place};
use super::samples::sample_offset;
use super::session::{Fields, SESSION_NUMBERS, Session};
use super::sizes::{Plane, Sizes, sizes};
use super::work_memory;

/// A call on a session without its lists of numbers.
#[derive(Clone, Copy, Debug)]
pub enum Call {
    /// `wedgepetal_sizes`
    Sizes,
    /// `wedgepetal_block_at`
    BlockAt {
        /// In coded order.
        number: u64,
    },
    /// `wedgepetal_block_number`
    BlockNumber {
        /// Plane and place.
        block: Block,
    },
    /// `wedgepetal_macro_block_at`
    MacroBlockAt {
        /// In coded order.
        number: u64,
    },
    /// `wedgepetal_macro_block_number`
    MacroBlockNumber {
        /// The macro block.
        place: Place,
    },
    /// `wedgepetal_macro_block_of`
    MacroBlockOf {
        /// Plane and place.
        block: Block,
    },
    /// `wedgepetal_sample_offset`
    SampleOffset {
        /// Plane and place.
        block: Block,
        /// From the left, 0 to 7.
        column: u64,
        /// From the bottom, 0 to 7.
        row: u64,
    },
    /// `wedgepetal_work_lengths`
    WorkLengths,
}

/// The index of the identification call in `KINDS`.
pub const IDENTIFICATION: usize = 0;

/// The calls' names, in the order of `Call::kind`; the first takes no session.
pub const KINDS: [&str; 9] = [
    "identification",
    "sizes",
    "block_at",
    "block_number",
    "macro_block_at",
    "macro_block_number",
    "macro_block_of",
    "sample_offset",
    "work_lengths",
];

impl Call {
    /// Which call this is, as an index into `KINDS`.
    pub fn kind(&self) -> usize {
        match self {
            Call::Sizes => 1,
            Call::BlockAt { .. } => 2,
            Call::BlockNumber { .. } => 3,
            Call::MacroBlockAt { .. } => 4,
            Call::MacroBlockNumber { .. } => 5,
            Call::MacroBlockOf { .. } => 6,
            Call::SampleOffset { .. } => 7,
            Call::WorkLengths => 8,
        }
    }

    /// How many numbers the call writes.
    pub fn output_length(&self) -> usize {
        match self {
            Call::Sizes => 16,
            Call::BlockAt { .. } => 3,
            Call::MacroBlockAt { .. } | Call::MacroBlockOf { .. } => 2,
            Call::BlockNumber { .. }
            | Call::MacroBlockNumber { .. }
            | Call::SampleOffset { .. } => 1,
            Call::WorkLengths => work_memory::SLICES + 1,
        }
    }
}

/// What a call answers.
#[derive(Clone, Debug, PartialEq, Eq)]
pub enum Answer {
    /// Accepted; the numbers that it writes.
    Accepted(Vec<u64>),
    /// Refused by this number; nothing is written.
    Refused(u32),
}

impl Answer {
    /// Accepted with these numbers.
    pub fn accepted(list: &[u64]) -> Answer {
        Answer::Accepted(list.to_vec())
    }

    /// 0 or the number of the refusal.
    pub fn number(&self) -> u32 {
        match self {
            Answer::Accepted(_) => 0,
            Answer::Refused(number) => *number,
        }
    }
}

/// What `wedgepetal_identification` returns and writes: the session and the
/// place, each if it is written.
#[derive(Clone, Debug, PartialEq, Eq)]
pub struct Identified {
    /// 0, or the number of the refusal.
    pub number: u32,
    /// The fresh session.
    pub session: Option<[u64; SESSION_NUMBERS]>,
    /// The bit place of the refusal, 0 if there is none.
    pub place: Option<u64>,
}

/// What the identification call answers, given the lengths of the lists for
/// the session and for the place.
pub fn identified(packet: &[u8], session_length: usize, place_length: usize) -> Identified {
    let left = |number, session, place| Identified {
        number,
        session,
        place,
    };
    if session_length != SESSION_NUMBERS || place_length != 1 {
        return left(1, None, None);
    }
    match identification(packet) {
        Ok(fields) => left(0, Some(fields.session(0)), Some(0)),
        Err(fault) => left(fault.number, None, Some(fault.place)),
    }
}

/// What a call answers, given its session's list and the length of the list
/// that it is lent to write.
pub fn answer(call: Call, session: &[u64], output_length: usize) -> Answer {
    let fits = output_length == call.output_length();
    let Ok(list) = session.try_into() else {
        return Answer::Refused(1);
    };
    let session = Session::of_list(list);
    if !session.sound() {
        return Answer::Refused(8);
    }
    if !fits {
        return Answer::Refused(1);
    }
    answer_for(call, &session.fields).unwrap_or(Answer::Refused(255))
}

/// What a call on a sound session answers, or none if the frame has no such thing.
fn answer_for(call: Call, fields: &Fields) -> Option<Answer> {
    let frame = sizes(fields);
    let macro_blocks = Grid::macro_blocks(fields.fmbw, fields.fmbh);
    let answer = match call {
        Call::Sizes => Answer::accepted(&frame.list()),
        Call::BlockAt { number } => {
            let (plane, (x, y)) = block_at(&frame, number)?;
            Answer::accepted(&[plane, x, y])
        }
        Call::BlockNumber { block } => Answer::accepted(&[block_number(&frame, block)?]),
        Call::MacroBlockAt { number } => {
            let (x, y) = macro_blocks.place(number)?;
            Answer::accepted(&[x, y])
        }
        Call::MacroBlockNumber { place } => Answer::accepted(&[macro_blocks.number(place)?]),
        Call::MacroBlockOf { block } => {
            block_number(&frame, block)?;
            let (x, y) = macro_block_of(fields.pf, block);
            Answer::accepted(&[x, y])
        }
        Call::SampleOffset { block, column, row } => {
            block_number(&frame, block)?;
            if column > 7 || row > 7 {
                return None;
            }
            Answer::accepted(&[sample_offset(&frame, block, column, row)])
        }
        Call::WorkLengths => {
            let mut list = work_memory::lengths(&frame).to_vec();
            list.push(work_memory::bytes(&frame));
            Answer::Accepted(list)
        }
    };
    Some(answer)
}

/// The blocks of a plane.
pub fn grid(plane: &Plane) -> Grid {
    Grid::blocks(plane.across, plane.up)
}

/// The block of a number in coded order; the planes follow on.
fn block_at(frame: &Sizes, number: u64) -> Option<Block> {
    let mut rest = number;
    for (plane, size) in (0..).zip(&frame.planes) {
        let grid = grid(size);
        if rest < grid.count() {
            return Some((plane, grid.place(rest)?));
        }
        rest -= grid.count();
    }
    None
}

/// The number of a block in coded order; the planes follow on.
fn block_number(frame: &Sizes, (plane, place): Block) -> Option<u64> {
    let plane = usize::try_from(plane).ok().filter(|plane| *plane < 3)?;
    let before: u64 = frame.planes[..plane].iter().map(|p| grid(p).count()).sum();
    Some(before + grid(&frame.planes[plane]).number(place)?)
}

#[cfg(test)]
mod tests {
    use super::super::session::OTHERS;
    use super::*;

    /// A session of 3 by 2 macro blocks in 4:2:0.
    fn session() -> [u64; SESSION_NUMBERS] {
        Fields::of_frame(3, 2, 0).session(1)
    }

    #[test]
    fn the_session_comes_before_the_other_lengths() {
        assert_eq!(answer(Call::Sizes, &[0; 18], 16), Answer::Refused(1));
        assert_eq!(answer(Call::Sizes, &[0; 19], 16), Answer::Refused(8));
        assert_eq!(answer(Call::Sizes, &[0; 19], 15), Answer::Refused(8));
        assert_eq!(answer(Call::Sizes, &session(), 15), Answer::Refused(1));
        let mut too_many = session();
        too_many[OTHERS] = 1;
        assert_eq!(answer(Call::Sizes, &too_many, 15), Answer::Refused(8));
        too_many[14] = 1;
        assert_eq!(answer(Call::Sizes, &too_many, 16).number(), 0);
    }

    #[test]
    fn the_identification_call_writes_place_or_session() {
        let lengths = |session, place| identified(&[0x80, 0], session, place);
        let nothing = Identified {
            number: 1,
            session: None,
            place: None,
        };
        for (session, place) in [(18, 1), (20, 1), (19, 0), (19, 2), (0, 0)] {
            assert_eq!(lengths(session, place), nothing);
        }
        let refused = Identified {
            number: 2,
            place: Some(8),
            ..nothing
        };
        assert_eq!(lengths(19, 1), refused);
    }

    #[test]
    fn planes_follow_on() {
        let at = |number| answer(Call::BlockAt { number }, &session(), 3);
        assert_eq!(at(23), Answer::accepted(&[0, 5, 2]));
        assert_eq!(at(24), Answer::accepted(&[1, 0, 0]));
        assert_eq!(at(35), Answer::accepted(&[2, 2, 0]));
        assert_eq!(at(36), Answer::Refused(255));
    }

    #[test]
    fn what_the_frame_lacks_is_255() {
        let number = |block| answer(Call::BlockNumber { block }, &session(), 1).number();
        assert_eq!(number((2, (2, 1))), 0);
        assert_eq!(number((2, (3, 1))), 255);
        assert_eq!(number((3, (0, 0))), 255);
        let sample = |column, row| {
            let block = (1, (0, 0));
            answer(Call::SampleOffset { block, column, row }, &session(), 1)
        };
        assert_eq!(sample(7, 7), Answer::accepted(&[1536 + 24 * 7 + 7]));
        assert_eq!(sample(8, 0), Answer::Refused(255));
        assert_eq!(sample(0, 8), Answer::Refused(255));
    }
}
