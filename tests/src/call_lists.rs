//! Lists of frame calls, each of which gets what the one before handed on: by
//! both ways of the independent implementation and by the library.

use crate::frame_calls::{Caller, answer};
use crate::generate::cases::{Case, buffer};
use crate::generate::frame_packets::{packet, variant};
use crate::library;
use crate::random::Random;
use crate::reference::decode::Decoder;
use crate::reference::frame_face::{KIND, Left, Lists, TableMemory};
use crate::reference::samples::ways::Way;
use crate::reference::session::{REFERENCES, SESSION_NUMBERS};
use std::collections::BTreeMap;
use std::fmt;

/// The most calls of a random list.
const CALLS: u64 = 24;

/// About how many blocks the calls of a recording's list have together, at most.
const BLOCKS_OF_A_LIST: u64 = 200_000;

/// What was compared.
#[derive(Default)]
pub struct Report {
    lists: u64,
    /// Calls by their answer.
    answers: BTreeMap<u32, u64>,
    /// Accepted calls behind a refused one, by the refusal's number.
    behind: BTreeMap<u32, u64>,
}

/// What is kept from call to call.
#[derive(Clone, PartialEq, Eq)]
pub struct State {
    /// The session.
    pub session: Vec<u64>,
    /// The golden frame.
    pub golden: Vec<u8>,
    /// The previous frame.
    pub previous: Vec<u8>,
}

/// What a call brings.
pub struct Brought<'a> {
    /// The packet.
    pub packet: &'a [u8],
    /// Table memory.
    pub table: &'a TableMemory,
    /// The new frame, before the call.
    pub new: &'a [u8],
    /// The answer, before the call.
    pub answer: &'a [u64],
}

impl State {
    /// "At first golden and previous are any".
    pub fn fresh(random: &mut Random, session: &[u64; SESSION_NUMBERS], length: usize) -> State {
        State {
            session: session.to_vec(),
            golden: buffer(random, length),
            previous: buffer(random, length),
        }
    }

    /// The lists of a call.
    pub fn lists<'a>(&'a self, caller: &Caller, brought: &Brought<'a>) -> Lists<'a> {
        Lists {
            session: &self.session,
            packet: brought.packet,
            table: brought.table,
            work: caller.work,
            golden: &self.golden,
            previous: &self.previous,
            new: brought.new,
            answer: brought.answer,
        }
    }

    /// "After an accepted intra frame new becomes golden and previous, after
    /// another accepted packet previous; after a refusal all stay."
    pub fn hand_on(&mut self, left: Left) {
        self.session = left.session;
        if left.number == 0 {
            if left.answer[KIND] == 0 {
                self.golden.clone_from(&left.new);
            }
            self.previous = left.new;
        }
    }
}

/// The states of a list: by both ways and by the library.
struct CallList<'a> {
    caller: &'a Caller,
    first: State,
    second: State,
    library: State,
    /// The number of the last refusal, if no call was accepted since.
    refused: Option<u32>,
}

impl<'a> CallList<'a> {
    fn fresh(random: &mut Random, caller: &'a Caller) -> CallList<'a> {
        let length = 64 * caller.work[0] as usize;
        let state = State::fresh(random, &caller.fields.session(0), length);
        CallList {
            caller,
            first: state.clone(),
            second: state.clone(),
            library: state,
            refused: None,
        }
    }

    /// Whether references exist.
    fn references(&self) -> bool {
        self.first.session[REFERENCES] != 0
    }

    /// Makes the next call in all three ways. They must answer and leave the
    /// same, and hand on the same.
    fn call(
        &mut self,
        random: &mut Random,
        report: &mut Report,
        brought: &Brought,
    ) -> Result<(), String> {
        let first = self.first.lists(self.caller, brought).call(Way::First);
        let second = self.second.lists(self.caller, brought).call(Way::Second);
        let lists = self.library.lists(self.caller, brought);
        let library = library::hold(random, &lists, &first)?;
        let number = first.number;
        let same = first == second;
        self.first.hand_on(first);
        self.second.hand_on(second);
        self.library.hand_on(library);
        if !same || self.first != self.second || self.first != self.library {
            return Err(format!("packet {:02x?}: the ways differ", brought.packet));
        }
        report.count(number, &mut self.refused);
        Ok(())
    }

    /// Makes the next call with this packet, anything in new, and mostly with
    /// the right table memory and length of new.
    fn any_call(
        &mut self,
        random: &mut Random,
        report: &mut Report,
        packet: &[u8],
    ) -> Result<(), String> {
        let other = match random.below(16) {
            0 => Some(TableMemory::new(self.caller.changed_table(random))),
            _ => None,
        };
        let mut length = self.first.previous.len();
        if random.once_in(32) {
            length = random.pick(&[0, length - 1, length + 1]);
        }
        let brought = Brought {
            packet,
            table: other.as_ref().unwrap_or(&self.caller.table),
            new: &buffer(random, length),
            answer: &answer(random),
        };
        self.call(random, report, &brought)
    }
}

/// Compares so many lists of calls on small frames.
pub fn compare(random: &mut Random, lists: u64) -> Result<Report, String> {
    let mut report = Report::default();
    for _ in 0..lists {
        let mut case = Case::small(random);
        if !random.once_in(4) {
            case.fields.kfgshift = random.below(4);
        }
        let decoder = Decoder::new(&case.fields, &case.setup);
        let caller = Caller::new(&case.fields, &case.header)?;
        let mut list = CallList::fresh(random, &caller);
        for _ in 0..1 + random.below(CALLS) {
            let packet = packet(random, &decoder, list.references());
            list.any_call(random, &mut report, packet.bytes())?;
        }
        report.lists += 1;
    }
    Ok(report)
}

impl Report {
    /// Compares a list of a recording's packets, with other calls among them:
    /// damaged packets, packets of another place, empty ones.
    pub fn of_recording(
        &mut self,
        random: &mut Random,
        caller: &Caller,
        packets: &[Vec<u8>],
    ) -> Result<(), String> {
        let mut list = CallList::fresh(random, caller);
        let calls = 12 + BLOCKS_OF_A_LIST / caller.work[0];
        let mut next = packets.iter();
        for _ in 0..calls {
            match random.below(8) {
                0 => list.any_call(random, self, &[])?,
                1 | 2 => {
                    let other = &packets[random.index(packets.len())];
                    let other = variant(random, other);
                    list.any_call(random, self, other.bytes())?;
                }
                _ => match next.next() {
                    Some(packet) => list.any_call(random, self, packet)?,
                    None => break,
                },
            }
        }
        self.lists += 1;
        Ok(())
    }

    /// Counts a call, given the refusal before it.
    fn count(&mut self, number: u32, refused: &mut Option<u32>) {
        *self.answers.entry(number).or_default() += 1;
        match number {
            0 => {
                if let Some(number) = refused.take() {
                    *self.behind.entry(number).or_default() += 1;
                }
            }
            _ => *refused = Some(number),
        }
    }

    /// The refusals behind which no call was accepted.
    pub fn missed(&self) -> Vec<String> {
        [1, 4, 8, 9, 10, 11, 12, 13, 17]
            .into_iter()
            .filter(|number| !self.behind.contains_key(number))
            .map(|number| format!("no frame behind a refusal by {number}"))
            .collect()
    }
}

impl fmt::Display for Report {
    fn fmt(&self, f: &mut fmt::Formatter<'_>) -> fmt::Result {
        let calls: u64 = self.answers.values().sum();
        writeln!(
            f,
            "  lists {}, calls {calls}, by answer {:?}",
            self.lists, self.answers
        )?;
        writeln!(
            f,
            "  accepted just behind a refused one, by its number {:?}",
            self.behind
        )
    }
}
