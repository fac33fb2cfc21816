//! The frame call, and a recording decoded by it.

use super::bits::Fault;
use super::frame::codebook::{Codebooks, codebooks};
use super::frame::reader::FrameFault;
use super::frame::{FramePacket, Kind, read};
use super::layout::Layout;
use super::samples::ways::{Source, Way, make};
use super::session::{Fields, Session};
use super::setup::Setup;
use super::sizes::{Sizes, sizes};
use super::table_face::Table;
use super::work_memory::{self, SLICES};

/// "An accepted frame answers with its kind (intra, inter, repeat) and the qi list"
#[derive(Clone, Debug, PartialEq, Eq)]
pub struct Accepted {
    /// The kind.
    pub kind: Kind,
    /// The qi list, empty for a repeat.
    pub qis: Vec<usize>,
    /// How many tokens were read.
    pub tokens: u64,
}

/// What a frame call leaves in work memory.
#[derive(Clone, Copy, Debug, PartialEq, Eq)]
pub enum Work {
    /// What was there.
    Untouched,
    /// All zero.
    Zero,
}

/// What a frame call answers and leaves, beside new.
#[derive(Clone, Debug, PartialEq, Eq)]
pub struct Outcome {
    /// The answer; 1, 8 and 17 have place 0.
    pub answer: Result<Accepted, Fault>,
    /// The session afterwards.
    pub session: Session,
    /// Work memory afterwards.
    pub work: Work,
}

/// What a caller lends to a frame call, but new.
#[derive(Clone, Copy)]
pub struct Lent<'a> {
    /// Table memory, looked at once.
    pub table: &'a Table,
    /// The lengths of work memory's slices.
    pub work: [u64; SLICES],
    /// The golden frame.
    pub golden: &'a [u8],
    /// The previous frame.
    pub previous: &'a [u8],
}

/// The frame call: "identification part of 8, then 1, the rest of 8, then the
/// packet", and 17 "after all other checks". Writes new, made in one of the two
/// ways, if the packet is accepted.
pub fn frame_call(
    session: &Session,
    packet: &[u8],
    lent: Lent,
    way: Way,
    new: &mut [u8],
) -> Outcome {
    let outcome = |answer, work| Outcome {
        answer,
        session: session.clone(),
        work,
    };
    let refused = |number| Err(Fault { number, place: 0 });
    if !session.sound() {
        return outcome(refused(8), Work::Untouched);
    }
    if !lengths_are_right(&sizes(&session.fields), lent, new.len()) {
        return outcome(refused(1), Work::Untouched);
    }
    let Table::Genuine(setup) = lent.table else {
        return outcome(refused(8), Work::Zero);
    };
    let decoder = Decoder::new(&session.fields, setup);
    let read = match decoder.read(session.references, packet) {
        Ok(read) => read,
        Err(fault) => return outcome(Err(fault.fault), Work::Zero),
    };
    let Some(after) = session.after(read.kind) else {
        return outcome(refused(17), Work::Zero);
    };
    decoder.make(way, &read, lent.golden, lent.previous, new);
    Outcome {
        session: after,
        ..outcome(Ok(Accepted::of(&read)), Work::Zero)
    }
}

/// Whether every lent length is the published one.
fn lengths_are_right(sizes: &Sizes, lent: Lent, new: usize) -> bool {
    let planes = [lent.golden.len(), lent.previous.len(), new];
    !matches!(lent.table, Table::OtherLength)
        && lent.work == work_memory::lengths(sizes)
        && planes.iter().all(|length| *length as u64 == sizes.buffer)
}

impl Accepted {
    /// The answer to a packet that was read.
    pub fn of(read: &FramePacket) -> Accepted {
        Accepted {
            kind: read.kind,
            qis: read.qis.clone(),
            tokens: read.tokens,
        }
    }
}

/// A sound session's sizes and orders and a genuine table, looked at once for
/// many packets.
pub struct Decoder<'a> {
    /// Sizes and orders.
    pub layout: Layout,
    /// What the setup header says.
    pub setup: &'a Setup,
    /// Its codes.
    pub codebooks: Codebooks,
}

impl<'a> Decoder<'a> {
    /// For these fields, which are sound, and this setup.
    pub fn new(fields: &Fields, setup: &'a Setup) -> Decoder<'a> {
        Decoder {
            layout: Layout::new(fields),
            setup,
            codebooks: codebooks(setup),
        }
    }

    /// Reads a packet.
    pub fn read(&self, references: bool, packet: &[u8]) -> Result<FramePacket, FrameFault> {
        read(&self.layout, &self.codebooks, references, packet)
    }

    /// Makes the frame of a packet.
    pub fn make(
        &self,
        way: Way,
        packet: &FramePacket,
        golden: &[u8],
        previous: &[u8],
        new: &mut [u8],
    ) {
        let source = Source {
            layout: &self.layout,
            setup: self.setup,
            golden,
            previous,
        };
        make(way, source, packet, new);
    }
}

#[cfg(test)]
mod tests {
    use super::super::setup::tests::small;
    use super::super::table_memory::{TABLE_BYTES, left_by};
    use super::*;
    use crate::reference::setup::setup;
    use recording::bit_writer::BitWriter;

    /// One macro block in 4:2:0; at most one packet may follow a key frame.
    fn session(references: bool) -> Session {
        let fields = Fields {
            kfgshift: 1,
            ..Fields::of_frame(1, 1, 0)
        };
        Session {
            references,
            ..Session::fresh(fields)
        }
    }

    /// The session after a packet that is no key frame.
    fn one_more(session: Session) -> Session {
        Session {
            others: session.others + 1,
            ..session
        }
    }

    /// Lone leaves: tree t has token t % 32.
    fn genuine() -> Table {
        let header = small();
        Table::read(&left_by(header.bytes(), &setup(header.bytes())))
    }

    /// An intra frame with qi 63 and these choices at positions 0 and 1, for
    /// luma and chroma.
    fn intra(choices: [u64; 4]) -> Vec<u8> {
        let mut bits = BitWriter::default();
        bits.put(63, 8);
        bits.put(0, 4);
        choices.iter().for_each(|choice| bits.put(*choice, 4));
        bits.bytes().to_vec()
    }

    struct Given {
        session: Session,
        table: Table,
        work: [u64; SLICES],
        lengths: [usize; 3],
    }

    fn given(references: bool) -> Given {
        Given {
            session: session(references),
            table: genuine(),
            work: [6, 6, 384, 6, 6, 6, 6, 6, 1, 6],
            lengths: [384; 3],
        }
    }

    /// The outcome, and new after the call; before it is all 7. Golden is all
    /// 100, previous all 50.
    fn call(given: &Given, packet: &[u8]) -> (Outcome, Vec<u8>) {
        let (golden, previous) = (vec![100; given.lengths[0]], vec![50; given.lengths[1]]);
        let mut new = vec![7; given.lengths[2]];
        let lent = Lent {
            table: &given.table,
            work: given.work,
            golden: &golden,
            previous: &previous,
        };
        let mut other = new.clone();
        let outcome = frame_call(&given.session, packet, lent, Way::First, &mut new);
        let second = frame_call(&given.session, packet, lent, Way::Second, &mut other);
        assert_eq!((&second, &other), (&outcome, &new));
        (outcome, new)
    }

    fn assert_refused(given: &Given, packet: &[u8], number: u32, place: u64, work: Work) {
        let (outcome, new) = call(given, packet);
        assert_eq!(outcome.answer, Err(Fault { number, place }));
        assert_eq!(
            (outcome.session, outcome.work),
            (given.session.clone(), work)
        );
        assert!(new.iter().all(|sample| *sample == 7));
    }

    #[test]
    fn an_intra_frame_makes_references() {
        // A value of 1 in each block, then tokens that need more bits.
        let mut packet = intra([9, 9, 9, 9]);
        packet.extend([0; 40]);
        let (outcome, new) = call(&given(false), &packet);
        let accepted = outcome.answer.unwrap();
        assert_eq!((accepted.kind, accepted.qis), (Kind::Intra, vec![63]));
        let after = outcome.session;
        assert!(after.references && (after.key_frames, after.others) == (1, 0));
        assert_eq!(outcome.work, Work::Zero);
        assert!(new.iter().any(|sample| *sample != 7));
    }

    #[test]
    fn dc_only_frames() {
        // Token 0 ends each block at position 0.
        let (outcome, new) = call(&given(true), &intra([0, 0, 0, 0]));
        assert_eq!(outcome.answer.unwrap().tokens, 6);
        assert_eq!(new, [128; 384]);
    }

    #[test]
    fn an_empty_packet_repeats_previous() {
        let (outcome, new) = call(&given(true), &[]);
        let accepted = outcome.answer.unwrap();
        assert_eq!((accepted.kind, accepted.tokens), (Kind::Repeat, 0));
        assert!(accepted.qis.is_empty());
        assert_eq!(outcome.session, one_more(session(true)));
        assert_eq!(new, [50; 384]);
        assert_refused(&given(false), &[], 9, 0, Work::Zero);
    }

    #[test]
    fn an_inter_frame_without_coded_blocks_is_previous() {
        let mut bits = BitWriter::default();
        bits.put(0x40, 8);
        // One qi; no super block partly, none fully coded; scheme 1.
        [(0, 1), (0b0101, 4), (0b0101, 4), (1, 3), (0, 1), (0, 16)]
            .into_iter()
            .for_each(|(value, width)| bits.put(value, width));
        let (outcome, new) = call(&given(true), bits.bytes());
        assert_eq!(outcome.answer.unwrap().kind, Kind::Inter);
        assert_eq!(outcome.session, one_more(session(true)));
        assert_eq!(new, [50; 384]);
        assert_refused(&given(false), bits.bytes(), 9, 1, Work::Zero);
    }

    #[test]
    fn seventeen_comes_after_all_else() {
        let mut far = given(true);
        far.session.others = 1;
        assert_refused(&far, &[], 17, 0, Work::Zero);
        assert_refused(&far, &[0x40], 4, 8, Work::Zero);
        assert_refused(&far, &[0x80], 10, 0, Work::Zero);
        far.session.references = false;
        assert_refused(&far, &[], 9, 0, Work::Zero);
        far.session.key_frames = u64::MAX;
        let dc_only = intra([0, 0, 0, 0]);
        assert_refused(&far, &dc_only, 17, 0, Work::Zero);
        assert_refused(&far, &dc_only[..2], 4, 16, Work::Zero);
        far.session.key_frames -= 1;
        assert!(call(&far, &dc_only).0.answer.is_ok());
        far.session.others = 2;
        assert_refused(&far, &dc_only, 8, 0, Work::Untouched);
        far.lengths[0] += 1;
        assert_refused(&far, &dc_only, 8, 0, Work::Untouched);
    }

    #[test]
    fn refusals_in_order() {
        let bad_packet = [0x80];
        let zeros = || Table::read(&[0; TABLE_BYTES]);
        assert_refused(&given(true), &bad_packet, 10, 0, Work::Zero);
        let mut wrong = given(true);
        wrong.table = zeros();
        assert_refused(&wrong, &bad_packet, 8, 0, Work::Zero);
        for index in 0..3 {
            let mut short = given(true);
            short.table = zeros();
            short.lengths[index] -= 1;
            assert_refused(&short, &bad_packet, 1, 0, Work::Untouched);
        }
        for index in 0..SLICES {
            let mut long = given(true);
            long.table = zeros();
            long.work[index] += 1;
            assert_refused(&long, &bad_packet, 1, 0, Work::Untouched);
        }
        let mut other = given(true);
        other.table = Table::read(&[0; TABLE_BYTES - 1]);
        assert_refused(&other, &bad_packet, 1, 0, Work::Untouched);
        other.session.fields.pf = 1;
        assert_refused(&other, &bad_packet, 8, 0, Work::Untouched);
    }
}
