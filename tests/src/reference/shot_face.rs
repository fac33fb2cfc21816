//! The call for a whole shot of `include/wedgepetal.h`: what it answers and
//! leaves, for any lists, by one frame after the other.

use super::bits::Fault;
use super::decode::{Accepted, Decoder, Work};
use super::frame::Kind;
use super::frame_face::{ANSWER_NUMBERS, TableMemory, refused};
use super::samples::ways::Way;
use super::session::{KEY_FRAMES, OTHERS, REFERENCES, SESSION_NUMBERS, Session};
use super::setup::Setup;
use super::sizes::sizes;
use super::table_face::Table;
use super::work_memory::{self, SLICES};

/// "3 and 3 without references"
pub const NO_BUFFER: u64 = 3;

/// What a caller lends.
#[derive(Clone, Copy)]
pub struct ShotLists<'a> {
    /// The session.
    pub session: &'a [u64],
    /// Which buffers hold golden and previous.
    pub names: &'a [u64],
    /// The lengths of the packets.
    pub lengths: &'a [u64],
    /// The packets, joined together.
    pub packets: &'a [u8],
    /// Table memory.
    pub table: &'a TableMemory,
    /// The lengths of work memory's slices.
    pub work: [u64; SLICES],
    /// The three buffers.
    pub buffers: [&'a [u8]; 3],
    /// The answers, before the call.
    pub answers: &'a [u64],
}

/// What a call returns and leaves.
#[derive(Clone, Debug, PartialEq, Eq)]
pub struct ShotLeft {
    /// 0, or the number of the refusal.
    pub number: u32,
    /// The session's list.
    pub session: Vec<u64>,
    /// The names.
    pub names: Vec<u64>,
    /// The three buffers.
    pub buffers: [Vec<u8>; 3],
    /// The answers' list.
    pub answers: Vec<u64>,
    /// Work memory.
    pub work: Work,
}

impl ShotLists<'_> {
    /// What the call returns and leaves, frames being made in one of the ways.
    pub fn call(&self, way: Way) -> ShotLeft {
        let mut left = self.untouched();
        match self.judged() {
            Err(number) => left.number = number,
            Ok((session, setup)) => {
                if !session.references {
                    left.names.fill(NO_BUFFER);
                }
                if !self.lengths.is_empty() {
                    left.work = Work::Zero;
                }
                let decoder = Decoder::new(&session.fields, setup);
                self.play(session, &decoder, way, &mut left);
            }
        }
        left
    }

    /// All as it was.
    fn untouched(&self) -> ShotLeft {
        ShotLeft {
            number: 0,
            session: self.session.to_vec(),
            names: self.names.to_vec(),
            buffers: self.buffers.map(<[u8]>::to_vec),
            answers: self.answers.to_vec(),
            work: Work::Untouched,
        }
    }

    /// The session and the setup of a shot that is played, or the number by which
    /// it is refused: 1 for the lists of session and names, 8 for the session, 1
    /// for the others, 8 for names and table memory, 16.
    fn judged(&self) -> Result<(Session, &Setup), u32> {
        let list: &[u64; SESSION_NUMBERS] = self.session.try_into().map_err(|_| 1u32)?;
        let &[golden, previous] = self.names else {
            return Err(1);
        };
        let session = Session::of_list(list);
        if !session.sound() {
            return Err(8);
        }
        let sizes = sizes(&session.fields);
        let planes = self.buffers.map(|buffer| buffer.len() as u64);
        if planes != [sizes.buffer; 3]
            || self.work != work_memory::lengths(&sizes)
            || matches!(self.table.says, Table::OtherLength)
            || self.answers.len() != ANSWER_NUMBERS * self.lengths.len()
        {
            return Err(1);
        }
        let Table::Genuine(setup) = &self.table.says else {
            return Err(8);
        };
        if session.references && (golden >= NO_BUFFER || previous >= NO_BUFFER) {
            return Err(8);
        }
        let wanted: u128 = self.lengths.iter().map(|length| u128::from(*length)).sum();
        match wanted > self.packets.len() as u128 {
            true => Err(16),
            false => Ok((session, setup)),
        }
    }

    /// Applies the packets in order.
    fn play(&self, mut session: Session, decoder: &Decoder, way: Way, left: &mut ShotLeft) {
        let mut rest = self.packets;
        let answers = left.answers.chunks_mut(ANSWER_NUMBERS);
        for (length, answer) in self.lengths.iter().zip(answers) {
            let packet;
            (packet, rest) = rest.split_at(*length as usize);
            let done = decoder.read(session.references, packet);
            let done = done.map_err(|fault| fault.fault).and_then(|read| {
                let past = Fault {
                    number: 17,
                    place: 0,
                };
                Ok((session.after(read.kind).ok_or(past)?, read))
            });
            let (after, read) = match done {
                Ok(done) => done,
                Err(fault) => {
                    answer.copy_from_slice(&refused(fault));
                    continue;
                }
            };
            let [golden, previous] = [left.names[0], left.names[1]];
            let new = (0..3)
                .find(|name| *name != golden && *name != previous)
                .expect("two of three are in use at most");
            let mut made = left.buffers[new as usize].clone();
            // Without references an intra frame looks at neither.
            let of = |name: u64| &left.buffers[(name % 3) as usize];
            decoder.make(way, &read, of(golden), of(previous), &mut made);
            left.buffers[new as usize] = made;
            left.names[1] = new;
            if read.kind == Kind::Intra {
                left.names[0] = new;
            }
            answer.copy_from_slice(&Accepted::of(&read).list());
            session = after;
        }
        // A number that says yes already stays.
        if session.references && left.session[REFERENCES] == 0 {
            left.session[REFERENCES] = 1;
        }
        left.session[KEY_FRAMES] = session.key_frames;
        left.session[OTHERS] = session.others;
    }
}

#[cfg(test)]
mod tests {
    use super::super::session::Fields;
    use super::super::setup::setup;
    use super::super::setup::tests::small;
    use super::super::table_memory::left_by;
    use super::*;

    /// An intra frame with qi 63, in which token 0 ends each block.
    const INTRA: [u8; 4] = [63, 0, 0, 0];

    /// One macro block in 4:2:0, with this reference number; at most three
    /// packets may follow a key frame.
    fn session(references: u64) -> [u64; SESSION_NUMBERS] {
        let fields = Fields {
            kfgshift: 2,
            ..Fields::of_frame(1, 1, 0)
        };
        fields.session(references)
    }

    /// A call with so many numbers for the answers; the buffers are all 10, 20
    /// and 30.
    fn call(
        session: &[u64],
        names: &[u64],
        lengths: &[u64],
        packets: &[u8],
        answers: usize,
    ) -> ShotLeft {
        let header = small();
        let table = TableMemory::new(left_by(header.bytes(), &setup(header.bytes())));
        let lists = ShotLists {
            session,
            names,
            lengths,
            packets,
            table: &table,
            work: [6, 6, 384, 6, 6, 6, 6, 6, 1, 6],
            buffers: [&[10; 384], &[20; 384], &[30; 384]],
            answers: &vec![9; answers],
        };
        let left = lists.call(Way::Second);
        assert_eq!(left, lists.call(Way::First));
        left
    }

    #[test]
    fn packets_in_turn() {
        // Empty without references, intra, empty, no frame packet, empty.
        let packets = [&INTRA[..], &[0x80, 77]].concat();
        let left = call(&session(0), &[8, 9], &[0, 4, 0, 1, 0], &packets, 40);
        let numbers: Vec<u64> = left.answers.chunks(8).map(|answer| answer[0]).collect();
        assert_eq!(numbers, [9, 0, 0, 10, 0]);
        assert_eq!((left.number, left.work), (0, Work::Zero));
        assert_eq!(left.names, [0, 2]);
        assert_eq!(left.session[REFERENCES..], [1, 1, 2]);
        assert_eq!(left.buffers, [(); 3].map(|()| vec![128; 384]));
    }

    #[test]
    fn the_first_free_buffer() {
        for (names, new) in [([0, 0], 1), ([0, 1], 2), ([1, 2], 0), ([2, 0], 1)] {
            let left = call(&session(5), &names, &[0], &[], 8);
            assert_eq!(left.names, [names[0], new]);
            assert_eq!(left.session[REFERENCES], 5);
            let previous = 10 * (names[1] + 1) as u8;
            assert_eq!(left.buffers[new as usize], [previous; 384]);
        }
    }

    #[test]
    fn refusals_in_order() {
        let refused = |session: &[u64], names: &[u64], lengths: &[u64], answers, number| {
            let left = call(session, names, lengths, &INTRA, answers);
            assert_eq!((left.number, left.work), (number, Work::Untouched));
            assert_eq!((&left.session[..], &left.names[..]), (session, names));
            assert_eq!(left.answers, vec![9; answers]);
            assert_eq!(left.buffers.map(|buffer| buffer[0]), [10, 20, 30]);
        };
        let mut unsound = session(1);
        unsound[15] = 1;
        refused(&unsound[1..], &[3, 0], &[5], 7, 1);
        refused(&unsound, &[3], &[5], 7, 1);
        refused(&unsound, &[3, 0], &[5], 7, 8);
        refused(&session(1), &[3, 0], &[5], 7, 1);
        refused(&session(1), &[3, 0], &[5], 8, 8);
        refused(&session(1), &[0, 3], &[5], 8, 8);
        refused(&session(1), &[0, 1], &[5], 8, 16);
        refused(&session(0), &[0, 3], &[5], 8, 16);
        refused(&session(0), &[3, 3], &[u64::MAX; 2], 16, 16);
        refused(&session(0), &[3, 3], &[], 0, 0);
        assert_eq!(call(&session(0), &[3, 3], &[4], &INTRA, 8).number, 0);
    }
}
