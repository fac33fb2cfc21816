//! Frame calls with all that is right, by the independent implementation and
//! by the library.

use crate::frames::{Frame, Made};
use crate::library;
use crate::random::Random;
use crate::reference::bits::Fault;
use crate::reference::decode::{Accepted, Outcome, Work, frame_call};
use crate::reference::frame::reader::FrameFault;
use crate::reference::frame_face::{ANSWER_NUMBERS, Left, Lists, TableMemory};
use crate::reference::samples::ways::Way;
use crate::reference::session::{Fields, SESSION_NUMBERS};
use crate::reference::table_face::Table;
use crate::reference::work_memory::SLICES;
use crate::sessions;
use crate::tables;

/// The right table memory and lengths of the calls of one session and setup.
pub struct Caller {
    /// The identification fields.
    pub fields: Fields,
    /// Table memory.
    pub table: TableMemory,
    /// The lengths of work memory's slices.
    pub work: [u64; SLICES],
}

impl Caller {
    /// For these fields, which are sound, and this setup packet, which is
    /// accepted: as the library's own calls give them.
    pub fn new(fields: &Fields, header: &[u8]) -> Result<Caller, String> {
        Ok(Caller {
            fields: fields.clone(),
            table: TableMemory::new(library::table(header)?),
            work: library::work_lengths(fields)?,
        })
    }

    /// How many bits of the setup packet were read.
    pub fn setup_bits(&self) -> usize {
        match &self.table.says {
            Table::Genuine(setup) => setup.bits as usize,
            _ => unreachable!("the setup packet is accepted"),
        }
    }

    /// The bytes of another table memory.
    pub fn changed_table(&self, random: &mut Random) -> Vec<u8> {
        tables::changed(random, &self.table.bytes, self.setup_bits())
    }

    /// A session's list with references or without (any number that is not 0 says
    /// that there are some), and any numbers of key frames and others.
    pub fn session(&self, random: &mut Random, references: bool) -> [u64; SESSION_NUMBERS] {
        let number = match random.below(4) {
            _ if !references => 0,
            0 => random.any().max(1),
            1 => 1 << random.below(64),
            _ => 1,
        };
        let mut list = self.fields.session(number);
        sessions::count(random, &mut list);
        list
    }

    /// The lists of a call.
    pub fn lists<'a>(
        &'a self,
        frame: &Frame<'a>,
        session: &'a [u64; SESSION_NUMBERS],
        packet: &'a [u8],
        new: &'a [u8],
        answer: &'a [u64],
    ) -> Lists<'a> {
        Lists {
            session,
            packet,
            table: &self.table,
            work: self.work,
            golden: frame.golden,
            previous: frame.previous,
            new,
            answer,
        }
    }
}

/// The frame call of the independent implementation with lists that are right
/// gives what reading and making give, or 17, and the library's call answers and
/// leaves just that. Gives what the library left.
pub fn right(
    random: &mut Random,
    lists: &Lists,
    made: &Result<Made, FrameFault>,
) -> Result<Left, String> {
    let session = lists
        .session()
        .map_err(|number| format!("{number} of right lists"))?;
    let past = Fault {
        number: 17,
        place: 0,
    };
    let done = match made {
        Ok(made) => match session.after(made.packet.kind) {
            Some(after) => Ok((made, after)),
            None => Err(past),
        },
        Err(fault) => Err(fault.fault),
    };
    let wanted = done.as_ref().map_or(lists.new, |(made, _)| &made.new);
    let expected = Outcome {
        answer: match &done {
            Ok((made, _)) => Ok(Accepted::of(&made.packet)),
            Err(fault) => Err(*fault),
        },
        session: match &done {
            Ok((_, after)) => after.clone(),
            Err(_) => session.clone(),
        },
        work: Work::Zero,
    };
    let mut second = lists.new.to_vec();
    let got = frame_call(
        &session,
        lists.packet,
        lists.lent(),
        Way::Second,
        &mut second,
    );
    if got != expected || second != wanted {
        return Err(format!("{expected:?}, the frame call gives {got:?}"));
    }
    library::hold(random, lists, &lists.left(&got, second))
}

/// What an answer's list holds before a call.
pub fn answer(random: &mut Random) -> [u64; ANSWER_NUMBERS] {
    std::array::from_fn(|_| random.any())
}
