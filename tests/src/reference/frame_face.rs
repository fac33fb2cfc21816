//! The frame call of `include/wedgepetal.h`: what it answers and leaves, for
//! any lists.
//!
//! Where the session's list and the answer's have their lengths, the rules say
//! the rest, and the answer is written after every call. Else nothing is: 1 for
//! the session's length; then for the answer's 8 if the session's fields are
//! wrong, or 1.

use super::bits::Fault;
use super::decode::{Accepted, Lent, Outcome, Work, frame_call};
use super::frame::Kind;
use super::samples::ways::Way;
use super::session::{KEY_FRAMES, OTHERS, REFERENCES, SESSION_NUMBERS, Session};
use super::table_face::Table;
use super::work_memory::SLICES;

/// How many numbers the answer of a frame has.
pub const ANSWER_NUMBERS: usize = 8;

/// Where the kind of an accepted frame stands among them, before how many qi it
/// has and the qi.
pub const KIND: usize = 2;

/// Table memory and what it says, read once for many calls.
pub struct TableMemory {
    /// The bytes.
    pub bytes: Vec<u8>,
    /// What they say.
    pub says: Table,
}

impl TableMemory {
    /// Table memory with these bytes.
    pub fn new(bytes: Vec<u8>) -> TableMemory {
        let says = Table::read(&bytes);
        TableMemory { bytes, says }
    }
}

/// What a caller lends.
#[derive(Clone, Copy)]
pub struct Lists<'a> {
    /// The session.
    pub session: &'a [u64],
    /// The packet.
    pub packet: &'a [u8],
    /// Table memory.
    pub table: &'a TableMemory,
    /// The lengths of work memory's slices.
    pub work: [u64; SLICES],
    /// The golden frame.
    pub golden: &'a [u8],
    /// The previous frame.
    pub previous: &'a [u8],
    /// The new frame, before the call.
    pub new: &'a [u8],
    /// The answer, before the call.
    pub answer: &'a [u64],
}

/// What a call returns and leaves.
#[derive(Clone, Debug, PartialEq, Eq)]
pub struct Left {
    /// 0, or the number of the refusal.
    pub number: u32,
    /// The session's list.
    pub session: Vec<u64>,
    /// The answer's list.
    pub answer: Vec<u64>,
    /// The new frame.
    pub new: Vec<u8>,
    /// Work memory.
    pub work: Work,
}

impl Lists<'_> {
    /// The session that the list says, or by what the lists of session and
    /// answer are refused.
    pub fn session(&self) -> Result<Session, u32> {
        let list: &[u64; SESSION_NUMBERS] = self.session.try_into().map_err(|_| 1u32)?;
        let session = Session::of_list(list);
        if self.answer.len() != ANSWER_NUMBERS {
            return Err(if session.sound() { 1 } else { 8 });
        }
        Ok(session)
    }

    /// What is lent by the rules, but new.
    pub fn lent(&self) -> Lent<'_> {
        Lent {
            table: &self.table.says,
            work: self.work,
            golden: self.golden,
            previous: self.previous,
        }
    }

    /// What the call returns and leaves, new being made in one of the ways.
    pub fn call(&self, way: Way) -> Left {
        let session = match self.session() {
            Ok(session) => session,
            Err(number) => return self.untouched(number),
        };
        let mut new = self.new.to_vec();
        let outcome = frame_call(&session, self.packet, self.lent(), way, &mut new);
        self.left(&outcome, new)
    }

    /// The outcome of a call, and new after it, on lists.
    pub fn left(&self, outcome: &Outcome, new: Vec<u8>) -> Left {
        match &outcome.answer {
            Ok(accepted) => self.accepted(accepted, new),
            Err(fault) => Left {
                answer: refused(*fault).to_vec(),
                work: outcome.work,
                ..self.untouched(fault.number)
            },
        }
    }

    /// All as it was.
    fn untouched(&self, number: u32) -> Left {
        Left {
            number,
            session: self.session.to_vec(),
            answer: self.answer.to_vec(),
            new: self.new.to_vec(),
            work: Work::Untouched,
        }
    }

    /// What an accepted call leaves: an intra frame sets the reference number to
    /// 1, is one key frame more and sets the others to 0; another packet is one of
    /// these.
    pub fn accepted(&self, accepted: &Accepted, new: Vec<u8>) -> Left {
        let mut session = self.session.to_vec();
        match accepted.kind {
            Kind::Intra => {
                session[REFERENCES] = 1;
                session[KEY_FRAMES] += 1;
                session[OTHERS] = 0;
            }
            Kind::Inter | Kind::Repeat => session[OTHERS] += 1,
        }
        Left {
            number: 0,
            session,
            answer: accepted.list().to_vec(),
            new,
            work: Work::Zero,
        }
    }
}

/// The answer to a refused call: its number and place, and zeros.
pub fn refused(fault: Fault) -> [u64; ANSWER_NUMBERS] {
    let mut list = [0; ANSWER_NUMBERS];
    list[0] = fault.number.into();
    list[1] = fault.place;
    list
}

impl Accepted {
    /// As numbers: 0 and 0, since nothing is refused, the kind, how many qi there
    /// are, three qi, of which the others are 0, and how many tokens were read.
    pub fn list(&self) -> [u64; ANSWER_NUMBERS] {
        let kind = match self.kind {
            Kind::Intra => 0,
            Kind::Inter => 1,
            Kind::Repeat => 2,
        };
        let qi = |index: usize| self.qis.get(index).map_or(0, |qi| *qi as u64);
        let count = self.qis.len() as u64;
        [0, 0, kind, count, qi(0), qi(1), qi(2), self.tokens]
    }
}

#[cfg(test)]
mod tests {
    use super::super::session::Fields;
    use super::super::setup::setup;
    use super::super::setup::tests::small;
    use super::super::table_memory::left_by;
    use super::*;

    /// One macro block in 4:2:0, with this reference number; at most one packet
    /// may follow a key frame.
    fn session(references: u64) -> [u64; SESSION_NUMBERS] {
        let fields = Fields {
            kfgshift: 1,
            ..Fields::of_frame(1, 1, 0)
        };
        fields.session(references)
    }

    /// The same with these numbers at its end.
    fn counted(references: u64, key_frames: u64, others: u64) -> [u64; SESSION_NUMBERS] {
        let mut list = session(references);
        list[KEY_FRAMES] = key_frames;
        list[OTHERS] = others;
        list
    }

    /// A call with this session and so many numbers for the answer; what it
    /// returns, the session and the answer afterwards, and whether new was written.
    fn call(session: &[u64], packet: &[u8], numbers: usize) -> (u32, Vec<u64>, Vec<u64>, bool) {
        let header = small();
        let table = TableMemory::new(left_by(header.bytes(), &setup(header.bytes())));
        let lists = Lists {
            session,
            packet,
            table: &table,
            work: [6, 6, 384, 6, 6, 6, 6, 6, 1, 6],
            golden: &[100; 384],
            previous: &[50; 384],
            new: &[7; 384],
            answer: &vec![9; numbers],
        };
        let left = lists.call(Way::Second);
        (left.number, left.session, left.answer, left.new != [7; 384])
    }

    /// An intra frame with qi 63 and 1, in which token 0 ends each block.
    const INTRA: [u8; 5] = [63, 0b1000_0010, 0b0000_0001, 0, 0];

    #[test]
    fn numbers_of_accepted_frames() {
        let repeat = vec![0, 0, 2, 0, 0, 0, 0, 0];
        let expected = (0, counted(5, 0, 1).to_vec(), repeat, true);
        assert_eq!(call(&session(5), &[], 8), expected);
        let mut intra = INTRA.to_vec();
        intra.extend([0; 9]);
        for references in [0, 1, 7] {
            let answer = vec![0, 0, 0, 2, 63, 1, 0, 6];
            let expected = (0, counted(1, 8, 0).to_vec(), answer, true);
            assert_eq!(call(&counted(references, 7, 1), &intra, 8), expected);
        }
    }

    #[test]
    fn a_refused_call_leaves_number_and_place() {
        let refused = |list: &[u64], packet, number: u32, place| {
            let answer = vec![number.into(), place, 0, 0, 0, 0, 0, 0];
            let expected = (number, list.to_vec(), answer, false);
            assert_eq!(call(list, packet, 8), expected);
        };
        refused(&session(0), &[], 9, 0);
        refused(&session(0), &[0x40], 9, 1);
        refused(&session(3), &[0x80], 10, 0);
        refused(&session(3), &[63], 4, 8);
        refused(&counted(3, 0, 1), &[], 17, 0);
        refused(&counted(3, 0, 2), &[], 8, 0);
        let mut unsound = session(0);
        unsound[15] = 1;
        refused(&unsound, &[], 8, 0);
    }

    #[test]
    fn lists_of_other_lengths_are_left() {
        let left = |list: &[u64], numbers, number| {
            let expected = (number, list.to_vec(), vec![9; numbers], false);
            assert_eq!(call(list, &[], numbers), expected);
        };
        let mut unsound = session(0);
        unsound[15] = 1;
        left(&unsound[..18], 8, 1);
        left(&unsound[..18], 7, 1);
        left(&counted(0, 0, 2), 7, 8);
        left(&unsound, 7, 8);
        left(&session(0), 7, 1);
        left(&session(0), 9, 1);
    }
}
