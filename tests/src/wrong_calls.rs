//! Frame calls in which something is wrong: lists of wrong lengths, sessions
//! and table memories that may say anything, several of them at once.

use crate::frame_calls::Caller;
use crate::generate::cases::{Case, buffer};
use crate::generate::frame_packets::packet;
use crate::library;
use crate::padding;
use crate::random::Random;
use crate::reference::decode::{Decoder, Work};
use crate::reference::frame_face::{ANSWER_NUMBERS, Left, Lists, TableMemory};
use crate::reference::samples::ways::Way;
use crate::reference::session::{SESSION_NUMBERS, Session};
use crate::reference::table_memory::TABLE_BYTES;
use crate::reference::work_memory::{self, SLICES};
use crate::sessions;
use crate::tables::refused_header;
use std::collections::BTreeMap;
use std::fmt;
use std::ops::Range;

/// How many calls are made for one session and setup.
const CALLS_OF_A_CASE: u64 = 32;

/// The packet of one call out of so many is padded.
const PADDED: u64 = 8;

/// The lists whose lengths are judged: that of the session before its fields,
/// then all others, work memory at their end.
const SESSION: usize = 0;
const ANSWER: usize = 1;
const TABLE: usize = 2;
const GOLDEN: usize = 3;
const PREVIOUS: usize = 4;
const NEW: usize = 5;
const WORK: usize = 6;
const LISTS: usize = WORK + SLICES;

/// A list's name.
fn name(list: usize) -> &'static str {
    const NAMES: [&str; WORK] = ["session", "answer", "table", "golden", "previous", "new"];
    match list.checked_sub(WORK) {
        None => NAMES[list],
        Some(slice) => work_memory::NAMES[slice],
    }
}

/// How a length is wrong.
#[derive(Clone, Copy, Debug, PartialEq, Eq, PartialOrd, Ord)]
enum Wrong {
    Short,
    Long,
    Empty,
    Other,
}

/// What is wrong in a call, in the order in which it is found: the length of
/// the session's list, its fields, the other lengths, the table memory.
const FAULTS: [(u32, Work); 4] = [
    (1, Work::Untouched),
    (8, Work::Untouched),
    (1, Work::Untouched),
    (8, Work::Zero),
];

/// What was tried.
#[derive(Default)]
pub struct Report {
    /// Calls by their answer.
    answers: BTreeMap<u32, u64>,
    /// Calls in which nothing is wrong but the length of one list.
    alone: BTreeMap<(usize, Wrong), u64>,
    /// Calls in which just these of the four faults were brought in.
    together: BTreeMap<[bool; 4], u64>,
    /// Calls with any session and any table memory that were accepted.
    accepted: u64,
    /// Calls whose packets have bytes behind them.
    padded: padding::Counts,
}

/// Tries so many calls.
pub fn compare(random: &mut Random, calls: u64) -> Result<Report, String> {
    let mut report = Report::default();
    for _ in 0..calls.div_ceil(CALLS_OF_A_CASE) {
        let case = Case::small(random);
        let decoder = Decoder::new(&case.fields, &case.setup);
        let caller = Caller::new(&case.fields, &case.header)?;
        for _ in 0..CALLS_OF_A_CASE {
            let references = random.once_in(2);
            let packet = packet(random, &decoder, references);
            let session = caller.session(random, references);
            let call = Call::right(&case, &caller, packet.bytes(), session);
            match random.below(4) {
                0 => report.one_length(random, call)?,
                1 => report.several(random, call)?,
                _ => report.anything(random, call)?,
            }
        }
    }
    Ok(report)
}

impl Report {
    /// A call in which one length is wrong is refused by 1.
    fn one_length(&mut self, random: &mut Random, mut call: Call) -> Result<(), String> {
        let list = random.index(LISTS);
        let wrong = call.spoil_length(random, list);
        *self.alone.entry((list, wrong)).or_default() += 1;
        self.refused(random, &call, (1, Work::Untouched))
    }

    /// A call with one to four faults is refused for the first of them.
    fn several(&mut self, random: &mut Random, mut call: Call) -> Result<(), String> {
        let chosen = 1 + random.below(15);
        let faults = [1, 2, 4, 8].map(|bit| chosen & bit != 0);
        if faults[0] {
            call.spoil_lengths(random, SESSION..ANSWER);
        }
        if faults[1] {
            while Session::of_list(&call.session).sound() {
                sessions::change(random, &mut call.session);
            }
        }
        if faults[2] {
            call.spoil_lengths(random, ANSWER..LISTS);
        }
        if faults[3] {
            call.table = Some(no_table(random, call.caller));
        }
        *self.together.entry(faults).or_default() += 1;
        let first = faults.iter().position(|fault| *fault);
        self.refused(random, &call, FAULTS[first.expect("there is one")])
    }

    /// A call with any session, any table memory and, now and then, any
    /// lengths, which may well be accepted.
    fn anything(&mut self, random: &mut Random, mut call: Call) -> Result<(), String> {
        if !random.once_in(4) {
            call.any_session(random);
        }
        if random.once_in(4) {
            let table = call.caller.changed_table(random);
            call.lengths[TABLE] = table.len();
            call.table = Some(table);
        }
        if random.once_in(8) {
            call.spoil_lengths(random, 0..LISTS);
        }
        let left = self.made(random, &call)?;
        self.accepted += u64::from(left.number == 0);
        Ok(())
    }

    /// Makes a call that must be refused like this.
    fn refused(
        &mut self,
        random: &mut Random,
        call: &Call,
        (number, work): (u32, Work),
    ) -> Result<(), String> {
        let left = self.made(random, call)?;
        match left.number == number && left.work == work {
            true => Ok(()),
            false => Err(format!("the first fault is {number}, {work:?}: {left:?}")),
        }
    }

    /// Makes a call by the independent implementation and by the library.
    fn made(&mut self, random: &mut Random, call: &Call) -> Result<Left, String> {
        let lengths = call.lengths;
        let other = call.other_table();
        let lists = Lists {
            session: &resized(&call.session, lengths[SESSION]),
            packet: call.packet,
            table: other.as_ref().unwrap_or(&call.caller.table),
            work: std::array::from_fn(|slice| lengths[WORK + slice] as u64),
            golden: &resized(&call.case.golden, lengths[GOLDEN]),
            previous: &resized(&call.case.previous, lengths[PREVIOUS]),
            new: &buffer(random, lengths[NEW]),
            answer: &(0..lengths[ANSWER])
                .map(|_| random.any())
                .collect::<Vec<_>>(),
        };
        let left = library::hold(random, &lists, &lists.call(Way::Second))?;
        *self.answers.entry(left.number).or_default() += 1;
        if random.once_in(PADDED) {
            self.padded.any_call(random, &lists, &left)?;
        }
        Ok(left)
    }

    /// What none of the calls tried.
    pub fn missed(&self) -> Vec<String> {
        let ways = [Wrong::Short, Wrong::Long, Wrong::Empty, Wrong::Other];
        let alone = (0..LISTS)
            .flat_map(|list| ways.map(|wrong| (list, wrong)))
            .filter(|kind| !self.alone.contains_key(kind))
            .map(|(list, wrong)| format!("no {} {wrong:?} alone", name(list)));
        let together = 15_usize.saturating_sub(self.together.len());
        let together = (together > 0).then(|| format!("{together} sets of faults"));
        let accepted = (self.accepted == 0).then(|| "no call accepted".to_string());
        let padded = self.padded.missed_numbers(padding::OF_LISTS);
        let others = together.into_iter().chain(accepted).chain(padded);
        alone.chain(others).collect()
    }
}

/// A call: at first all is right.
struct Call<'a> {
    case: &'a Case,
    caller: &'a Caller,
    packet: &'a [u8],
    session: [u64; SESSION_NUMBERS],
    /// The bytes of table memory, if they are not the right ones.
    table: Option<Vec<u8>>,
    lengths: [usize; LISTS],
}

impl<'a> Call<'a> {
    fn right(
        case: &'a Case,
        caller: &'a Caller,
        packet: &'a [u8],
        session: [u64; SESSION_NUMBERS],
    ) -> Call<'a> {
        let mut lengths = [case.golden.len(); LISTS];
        lengths[SESSION] = SESSION_NUMBERS;
        lengths[ANSWER] = ANSWER_NUMBERS;
        lengths[TABLE] = TABLE_BYTES;
        for (length, right) in lengths[WORK..].iter_mut().zip(caller.work) {
            *length = right as usize;
        }
        Call {
            case,
            caller,
            packet,
            session,
            table: None,
            lengths,
        }
    }

    /// Gives a list another length.
    fn spoil_length(&mut self, random: &mut Random, list: usize) -> Wrong {
        let right = self.lengths[list];
        let other = random.index(2 * right + 9);
        let length = random.pick(&[right.saturating_sub(1), right + 1, 0, other]);
        self.lengths[list] = length;
        match length {
            _ if length == right => self.spoil_length(random, list),
            0 => Wrong::Empty,
            _ if length + 1 == right => Wrong::Short,
            _ if length == right + 1 => Wrong::Long,
            _ => Wrong::Other,
        }
    }

    /// Gives one or two of these lists another length.
    fn spoil_lengths(&mut self, random: &mut Random, lists: Range<usize>) {
        let first = lists.start + random.index(lists.len());
        self.spoil_length(random, first);
        let second = lists.start + random.index(lists.len());
        if second != first && random.once_in(2) {
            self.spoil_length(random, second);
        }
    }

    /// Makes the session any: changed in a field or two, made of other fields,
    /// or with the sides of the frame exchanged, so that most lengths are right.
    fn any_session(&mut self, random: &mut Random) {
        match random.below(4) {
            0 => [(1, 2), (3, 4), (5, 6)]
                .into_iter()
                .for_each(|(across, up)| self.session.swap(across, up)),
            1 => self.session = sessions::session(random),
            _ => (0..1 + random.below(2)).for_each(|_| sessions::change(random, &mut self.session)),
        }
    }

    /// Table memory, if it is not the right one.
    fn other_table(&self) -> Option<TableMemory> {
        let bytes = self.table.as_ref().unwrap_or(&self.caller.table.bytes);
        let length = self.lengths[TABLE];
        let right = self.table.is_none() && length == TABLE_BYTES;
        (!right).then(|| TableMemory::new(resized(bytes, length)))
    }
}

/// The elements in so many places, the last ones 0 if there are more.
fn resized<T: Copy + Default>(list: &[T], length: usize) -> Vec<T> {
    let mut list = list.to_vec();
    list.resize(length, T::default());
    list
}

/// The bytes of a table memory that no accepted setup packet leaves.
fn no_table(random: &mut Random, caller: &Caller) -> Vec<u8> {
    let mut bytes = caller.table.bytes.clone();
    let bits = caller.setup_bits();
    match random.below(4) {
        0 => bytes.fill(0),
        1 => {
            // A bit behind the end.
            let bit = bits + random.index(8 * TABLE_BYTES - bits);
            bytes[bit / 8] |= 0x80 >> (bit % 8);
        }
        2 => bytes = refused_header(random),
        // A byte of the packet type or of "theora".
        _ => bytes[random.index(7)] ^= 1 << random.below(8),
    }
    bytes
}

impl fmt::Display for Report {
    fn fmt(&self, f: &mut fmt::Formatter<'_>) -> fmt::Result {
        let alone: u64 = self.alone.values().sum();
        let together: u64 = self.together.values().sum();
        writeln!(f, "  by answer {:?}", self.answers)?;
        writeln!(
            f,
            "  one wrong length {alone}, one to four faults {together}, accepted with any session, table memory and lengths {}",
            self.accepted
        )?;
        write!(f, "{}", self.padded)
    }
}
