//! Whole shots in one call, by both ways of the independent implementation and by
//! the library: refused and empty packets among the others, all pairs of names,
//! shots cut in two at each packet, lists of wrong lengths, several faults at once.

use crate::frame_calls::Caller;
use crate::generate::cases::{Case, buffer};
use crate::generate::frame_packets::packet;
use crate::random::Random;
use crate::reference::decode::{Decoder, Work};
use crate::reference::frame::Kind;
use crate::reference::frame_face::{ANSWER_NUMBERS, TableMemory};
use crate::reference::samples::ways::Way;
use crate::reference::session::{REFERENCES, Session};
use crate::reference::shot_face::{NO_BUFFER, ShotLeft, ShotLists};
use crate::reference::work_memory::SLICES;
use crate::sessions;
use crate::shot_calls::{hold, made};
use std::collections::BTreeMap;
use std::fmt;
use std::rc::Rc;

/// How many shots are played of one session and setup, and the most packets of
/// one.
const SHOTS_OF_A_CASE: u64 = 8;
const PACKETS: u64 = 10;

/// One shot out of so many is cut at each packet.
const CUT: u64 = 4;

/// The lists whose lengths are judged: those of the session and the names before
/// the session's fields, then all others, work memory at their end.
const SESSION: usize = 0;
const NAMES: usize = 1;
const TABLE: usize = 2;
const ANSWERS: usize = 3;
const BUFFERS: usize = 4;
const WORK: usize = BUFFERS + 3;
const LISTS: usize = WORK + SLICES;

/// What may be wrong in a shot, in the order in which it is found, by its number:
/// the first two lengths, the session's fields, the other lengths, a name or table
/// memory, the lengths of the packets.
const FAULTS: [u32; 5] = [1, 8, 1, 8, 16];

/// What was compared.
#[derive(Default)]
pub struct Report {
    /// Shots by their answer, and packets by theirs.
    shots: BTreeMap<u32, u64>,
    packets: BTreeMap<u64, u64>,
    /// Played shots by the names that were lent with references.
    pairs: BTreeMap<(u64, u64), u64>,
    /// Shots without packets, and cuts of shots.
    empty: u64,
    cuts: u64,
    /// Shots in which just these faults were brought in.
    together: BTreeMap<[bool; 5], u64>,
    /// Whole recordings in one call.
    pub recordings: u64,
}

/// Compares about so many shots, and as many again in which something is wrong.
pub fn compare(random: &mut Random, shots: u64) -> Result<Report, String> {
    let mut report = Report::default();
    for _ in 0..shots.div_ceil(SHOTS_OF_A_CASE) {
        let mut case = Case::small(random);
        if !random.once_in(4) {
            case.fields.kfgshift = random.below(4);
        }
        let decoder = Decoder::new(&case.fields, &case.setup);
        let caller = Caller::new(&case.fields, &case.header)?;
        for _ in 0..SHOTS_OF_A_CASE {
            let shot = Shot::any(random, &decoder, &caller);
            report.played(random, &shot)?;
            report.several(random, shot)?;
        }
        let shot = Shot::any(random, &decoder, &caller);
        report.every_length(random, &shot)?;
        report.past_64_bits(random, shot)?;
    }
    Ok(report)
}

impl Report {
    /// A shot in which all is right.
    fn played(&mut self, random: &mut Random, shot: &Shot) -> Result<(), String> {
        let left = self.held(random, shot, 0)?;
        for answer in left.answers.chunks(ANSWER_NUMBERS) {
            *self.packets.entry(answer[0]).or_default() += 1;
        }
        if shot.session[REFERENCES] != 0 {
            let pair = (shot.names[0], shot.names[1]);
            *self.pairs.entry(pair).or_default() += 1;
        }
        self.empty += u64::from(shot.lengths.is_empty());
        match random.once_in(CUT) {
            true => self.cut(random, shot, &left),
            false => Ok(()),
        }
    }

    /// A shot cut in two at each packet leaves the same.
    fn cut(&mut self, random: &mut Random, shot: &Shot, whole: &ShotLeft) -> Result<(), String> {
        for cut in 0..=shot.lengths.len() {
            let first = made(random, &shot.lists_to(cut), work_after(cut))?;
            let rest = shot.behind(cut, &first);
            let after = work_after(rest.lengths.len());
            let second = made(random, &rest.lists(), after)?;
            let both = ShotLeft {
                answers: [first.answers, second.answers].concat(),
                number: first.number.max(second.number),
                work: whole.work,
                ..second
            };
            if both != *whole {
                return Err(format!("cut at {cut}: {both:?}, whole {whole:?}"));
            }
            self.cuts += 1;
        }
        Ok(())
    }

    /// Each list once too short and once too long by one: refused by 1.
    fn every_length(&mut self, random: &mut Random, shot: &Shot) -> Result<(), String> {
        for list in 0..LISTS {
            for long in [false, true] {
                let mut wrong = shot.clone();
                if list == ANSWERS && shot.lengths.is_empty() && !long {
                    continue;
                }
                wrong.spoil_length(list, long);
                self.held(random, &wrong, 1)?;
            }
        }
        Ok(())
    }

    /// Lengths whose sum passes 64 bits: refused by 16.
    fn past_64_bits(&mut self, random: &mut Random, mut shot: Shot) -> Result<(), String> {
        let most = u64::MAX;
        for lengths in [
            &[most, most][..],
            &[most, most, 2],
            &[most, 1],
            &[1 << 63; 2],
        ] {
            shot.lengths = lengths.to_vec();
            shot.answers = vec![random.any(); ANSWER_NUMBERS * lengths.len()];
            self.held(random, &shot, 16)?;
        }
        Ok(())
    }

    /// A shot with one to five faults is refused for the first of them.
    fn several(&mut self, random: &mut Random, mut shot: Shot) -> Result<(), String> {
        let chosen = 1 + random.below(31);
        let faults = [1, 2, 4, 8, 16].map(|bit| chosen & bit != 0);
        if faults[4] {
            // One byte more than there are.
            let there: u64 = shot.lengths.iter().sum();
            shot.lengths.push(shot.packets.len() as u64 - there + 1);
            shot.answers.extend([random.any(); ANSWER_NUMBERS]);
        }
        if faults[3] {
            shot.spoil_names_or_table(random);
        }
        if faults[2] {
            let list = TABLE + random.index(LISTS - TABLE);
            shot.spoil_length(list, list == ANSWERS || random.once_in(2));
        }
        if faults[1] {
            shot.spoil_session(random);
        }
        if faults[0] {
            shot.spoil_length(random.index(TABLE), random.once_in(2));
        }
        *self.together.entry(faults).or_default() += 1;
        let first = faults.iter().position(|fault| *fault);
        self.held(random, &shot, FAULTS[first.expect("there is one")])?;
        Ok(())
    }

    /// Makes a call that must be answered by this number, in both ways of the
    /// independent implementation and by the library.
    fn held(&mut self, random: &mut Random, shot: &Shot, number: u32) -> Result<ShotLeft, String> {
        let lists = shot.lists();
        let expected = lists.call(Way::First);
        if expected != lists.call(Way::Second) {
            return Err("the ways differ".to_string());
        }
        hold(random, &lists, &expected)?;
        *self.shots.entry(number).or_default() += 1;
        match expected.number == number {
            true => Ok(expected),
            false => Err(format!("{number} is due: {expected:?}")),
        }
    }

    /// A whole recording in one call, with anything in the buffers: the answers of
    /// one frame call for each packet, and the session, golden and previous that
    /// these left.
    pub fn of_recording(
        &mut self,
        random: &mut Random,
        caller: &Caller,
        packets: &[Vec<u8>],
        by_frames: &ByFrames,
    ) -> Result<(), String> {
        let shot = Shot {
            caller,
            session: caller.fields.session(0).to_vec(),
            names: vec![random.any(), random.any()],
            lengths: packets.iter().map(|packet| packet.len() as u64).collect(),
            packets: packets.concat(),
            table: None,
            work: caller.work,
            buffers: any_buffers(random, caller),
            answers: vec![random.any(); ANSWER_NUMBERS * packets.len()],
        };
        let left = made(random, &shot.lists(), work_after(packets.len()))?;
        let [golden, previous] = [0, 1].map(|i| left.buffers.get(left.names[i] as usize));
        let same = left.number == 0
            && left.answers == by_frames.answers
            && left.session == by_frames.session
            && golden.is_some_and(|planes| planes == by_frames.golden)
            && previous.is_some_and(|planes| planes == by_frames.previous);
        self.recordings += 1;
        match same {
            true => Ok(()),
            false => Err("the whole recording in one call differs".to_string()),
        }
    }

    /// What none of the shots tried.
    pub fn missed(&self) -> Vec<String> {
        let pairs = 9_usize.saturating_sub(self.pairs.len());
        let sets = 31_usize.saturating_sub(self.together.len());
        let packets = [0, 4, 9, 10, 11, 12, 13, 17]
            .into_iter()
            .filter(|number| !self.packets.contains_key(number))
            .map(|number| format!("no packet of a shot answered by {number}"));
        let counted = [
            (pairs > 0, "pairs of names"),
            (sets > 0, "sets of faults of shots"),
            (self.empty == 0, "no shot without packets"),
            (self.cuts == 0, "no shot cut"),
        ];
        let counted = counted.into_iter().filter(|(missed, _)| *missed);
        packets
            .chain(counted.map(|(_, name)| name.to_string()))
            .collect()
    }
}

/// What one frame call for each packet of a recording answered and left.
pub struct ByFrames<'a> {
    /// The answers, one after the other.
    pub answers: &'a [u64],
    /// The session.
    pub session: &'a [u64],
    /// The golden frame.
    pub golden: &'a [u8],
    /// The previous frame.
    pub previous: &'a [u8],
}

/// Work memory after a shot of so many packets.
fn work_after(packets: usize) -> Work {
    match packets {
        0 => Work::Untouched,
        _ => Work::Zero,
    }
}

fn any_buffers(random: &mut Random, caller: &Caller) -> [Vec<u8>; 3] {
    let length = 64 * caller.work[0] as usize;
    [(); 3].map(|()| buffer(random, length))
}

/// What is lent to a call: at first all is right.
#[derive(Clone)]
struct Shot<'a> {
    caller: &'a Caller,
    session: Vec<u64>,
    names: Vec<u64>,
    lengths: Vec<u64>,
    packets: Vec<u8>,
    /// Table memory, if it is not the right one.
    table: Option<Rc<TableMemory>>,
    work: [u64; SLICES],
    buffers: [Vec<u8>; 3],
    answers: Vec<u64>,
}

impl<'a> Shot<'a> {
    /// Any packets, with or without references before, and with bytes behind the
    /// last packet now and then.
    fn any(random: &mut Random, decoder: &Decoder, caller: &'a Caller) -> Shot<'a> {
        let mut references = random.once_in(2);
        let session = caller.session(random, references).to_vec();
        let names = match references {
            true => [random.below(NO_BUFFER), random.below(NO_BUFFER)],
            false => [random.any(), random.below(5)],
        };
        let (mut lengths, mut packets) = (Vec::new(), Vec::new());
        for _ in 0..random.below(PACKETS + 1) {
            let mut bytes = Vec::new();
            if !random.once_in(6) {
                bytes = packet(random, decoder, references).bytes().to_vec();
            }
            let read = decoder.read(references, &bytes);
            references |= read.is_ok_and(|read| read.kind == Kind::Intra);
            lengths.push(bytes.len() as u64);
            packets.extend(bytes);
        }
        packets.extend((0..random.below(3)).map(|_| random.byte()));
        Shot {
            caller,
            session,
            names: names.to_vec(),
            answers: vec![random.any(); ANSWER_NUMBERS * lengths.len()],
            lengths,
            packets,
            table: None,
            work: caller.work,
            buffers: any_buffers(random, caller),
        }
    }

    fn lists(&self) -> ShotLists<'_> {
        self.lists_to(self.lengths.len())
    }

    /// The same with so many of the packets; the others are bytes behind them.
    fn lists_to(&self, packets: usize) -> ShotLists<'_> {
        let cut = packets < self.lengths.len();
        ShotLists {
            session: &self.session,
            names: &self.names,
            lengths: &self.lengths[..packets],
            packets: &self.packets,
            table: self.table.as_deref().unwrap_or(&self.caller.table),
            work: self.work,
            buffers: self.buffers.each_ref().map(Vec::as_slice),
            answers: match cut {
                true => &self.answers[..ANSWER_NUMBERS * packets],
                false => &self.answers,
            },
        }
    }

    /// The packets behind the first ones, going on with what these left.
    fn behind(&self, packets: usize, left: &ShotLeft) -> Shot<'a> {
        let bytes: u64 = self.lengths[..packets].iter().sum();
        Shot {
            session: left.session.clone(),
            names: left.names.clone(),
            lengths: self.lengths[packets..].to_vec(),
            packets: self.packets[bytes as usize..].to_vec(),
            buffers: left.buffers.clone(),
            answers: self.answers[ANSWER_NUMBERS * packets..].to_vec(),
            ..self.clone()
        }
    }

    /// Makes a list too long or too short by one.
    fn spoil_length(&mut self, list: usize, long: bool) {
        match list {
            SESSION => by_one(&mut self.session, long),
            NAMES => by_one(&mut self.names, long),
            TABLE => {
                let table = self.table.as_deref().unwrap_or(&self.caller.table);
                let mut bytes = table.bytes.clone();
                by_one(&mut bytes, long);
                self.table = Some(TableMemory::new(bytes).into());
            }
            ANSWERS => by_one(&mut self.answers, long),
            BUFFERS..WORK => by_one(&mut self.buffers[list - BUFFERS], long),
            _ => {
                let length = &mut self.work[list - WORK];
                *length = if long { *length + 1 } else { *length - 1 };
            }
        }
    }

    /// Makes a name wrong, where names are looked at, or table memory.
    fn spoil_names_or_table(&mut self, random: &mut Random) {
        if self.session[REFERENCES] != 0 && random.once_in(2) {
            let wrong = [NO_BUFFER, 4, 1 << 32, u64::MAX];
            self.names[random.index(2)] = random.pick(&wrong);
            return;
        }
        // A byte of the packet type or of "theora".
        let mut bytes = self.caller.table.bytes.clone();
        bytes[random.index(7)] ^= 1 << random.below(8);
        self.table = Some(TableMemory::new(bytes).into());
    }

    /// Makes the session's fields wrong.
    fn spoil_session(&mut self, random: &mut Random) {
        let mut list = self.caller.fields.session(self.session[REFERENCES]);
        while Session::of_list(&list).sound() {
            sessions::change(random, &mut list);
        }
        self.session = list.to_vec();
    }
}

/// One element more or less.
fn by_one<T: Clone + Default>(list: &mut Vec<T>, long: bool) {
    match long {
        true => list.push(T::default()),
        false => drop(list.pop()),
    }
}

impl fmt::Display for Report {
    fn fmt(&self, f: &mut fmt::Formatter<'_>) -> fmt::Result {
        writeln!(f, "  shots by answer {:?}", self.shots)?;
        writeln!(f, "  packets of played shots by answer {:?}", self.packets)?;
        writeln!(
            f,
            "  without packets {}, cuts {}, by the names before {:?}",
            self.empty, self.cuts, self.pairs
        )
    }
}
