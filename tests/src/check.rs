//! One call to the library, held to the expected answer.

use crate::reference::face::{Answer, Call, IDENTIFICATION, Identified, KINDS};
use crate::reference::session::NAMES;
use crate::reference::table_face::TableCall;
use std::fmt::{self, Write};
use wedgepetal::lists;

/// Numbers before and after the lent list, which no call may touch.
const GUARD: usize = 4;

/// The longest list that is lent to be written.
const LONGEST: usize = 66;

/// How many bytes of a packet are printed; longer packets go on with zeros.
const SHOWN: usize = 256;

/// The calls that have to do with table memory; they follow on `KINDS`.
const TABLE_KINDS: [&str; 4] = ["setup", "table", "loop_limit", "matrix"];

/// The index of the setup call.
pub const SETUP: usize = KINDS.len();

/// How many calls there are.
const CALLS: usize = KINDS.len() + TABLE_KINDS.len();

/// What lies in lent memory before a call.
const PATTERN: [u64; LONGEST + 2 * GUARD] = {
    let mut pattern = [0; LONGEST + 2 * GUARD];
    let mut i = 0;
    while i < pattern.len() {
        pattern[i] = 0xA5C3_0FF0_5A3C_1800 + i as u64;
        i += 1;
    }
    pattern
};

/// A call whose answer or written memory is not the expected one.
pub struct Difference(String);

impl fmt::Display for Difference {
    fn fmt(&self, f: &mut fmt::Formatter<'_>) -> fmt::Result {
        f.write_str(&self.0)
    }
}

impl Difference {
    /// A difference of a call, given what it was called with and what came of it.
    pub fn new(given: &str, came: &str) -> Difference {
        Difference(format!("{given}{came}"))
    }
}

/// How often each call gave each answer.
pub struct Tally([[u64; 256]; CALLS]);

impl Tally {
    /// Nothing counted yet.
    pub fn new() -> Tally {
        Tally([[0; 256]; CALLS])
    }

    /// How often a call was answered by this number.
    pub fn of(&self, kind: usize, number: u32) -> u64 {
        self.0[kind][number as usize]
    }

    /// Counts an answer.
    pub fn count(&mut self, kind: usize, number: u32) {
        self.0[kind][number as usize] += 1;
    }

    /// Calls the library and compares all that it leaves with what is expected.
    pub fn check(
        &mut self,
        call: Call,
        session: &[u64],
        output_length: usize,
        expected: &Answer,
    ) -> Result<(), Difference> {
        let number = hold(output_length, expected, |output| run(call, session, output))
            .map_err(|came| Difference::new(&describe(call, session), &came))?;
        self.count(call.kind(), number);
        Ok(())
    }

    /// The same of the identification call, with lists of these lengths for the
    /// session and the place.
    pub fn check_identification(
        &mut self,
        packet: &[u8],
        [session_length, place_length]: [usize; 2],
        expected: &Identified,
    ) -> Result<(), Difference> {
        let mut session = List::new(session_length);
        let mut place = List::new(place_length);
        let number = lists::identification(packet, session.lent(), place.lent());
        let wanted_session = expected.session.as_ref().map(|list| &list[..]);
        let wanted_place = expected.place.map(|place| [place]);
        let wanted_place = wanted_place.as_ref().map(|list| &list[..]);
        let same = session.holds(wanted_session) && place.holds(wanted_place);
        if number != expected.number || !same {
            let given = describe_packet("identification", packet);
            let came = format!(
                "lent:     session {session_length} numbers, place {place_length}\n\
                 expected: {expected:?}\n\
                 got:      {number}, session {}, place {}\n",
                session.changes(),
                place.changes()
            );
            return Err(Difference::new(&given, &came));
        }
        self.count(IDENTIFICATION, number);
        Ok(())
    }

    /// The same of a call on table memory.
    pub fn check_table(
        &mut self,
        call: TableCall,
        table: &[u8],
        output_length: usize,
        expected: &Answer,
    ) -> Result<(), Difference> {
        let run = |output: &mut [u64]| run_table(call, table, output);
        let number = hold(output_length, expected, run)
            .map_err(|came| Difference::new(&describe_table(call, table), &came))?;
        self.count(table_kind(call), number);
        Ok(())
    }
}

/// Lends a list and compares the answer, the list and what lies around it with
/// what is expected. Gives the answer's number, or what came of the call.
fn hold(
    output_length: usize,
    expected: &Answer,
    run: impl FnOnce(&mut [u64]) -> u32,
) -> Result<u32, String> {
    let mut list = List::new(output_length);
    let number = run(list.lent());
    let wanted = match expected {
        Answer::Accepted(numbers) => Some(&numbers[..]),
        Answer::Refused(_) => None,
    };
    if number != expected.number() || !list.holds(wanted) {
        return Err(outcome(expected, number, &list));
    }
    Ok(number)
}

/// A lent list of numbers and what lies around it.
pub struct List {
    memory: [u64; LONGEST + 2 * GUARD],
    length: usize,
}

impl List {
    /// A list of this length that holds the pattern.
    pub fn new(length: usize) -> List {
        List {
            memory: PATTERN,
            length,
        }
    }

    /// The list, to be lent.
    pub fn lent(&mut self) -> &mut [u64] {
        &mut self.memory[GUARD..GUARD + self.length]
    }

    /// Whether just these numbers were written to it, or nothing.
    pub fn holds(&self, numbers: Option<&[u64]>) -> bool {
        let mut wanted = PATTERN;
        if let Some(numbers) = numbers {
            wanted[GUARD..GUARD + self.length].copy_from_slice(numbers);
        }
        self.memory == wanted
    }

    /// What a call changed in the list and around it.
    pub fn changes(&self) -> String {
        let mut text = String::new();
        for (i, (after, before)) in self.memory.iter().zip(PATTERN).enumerate() {
            if *after != before {
                let place = i as i64 - GUARD as i64;
                let outside = !(GUARD..GUARD + self.length).contains(&i);
                let note = if outside { " (OUTSIDE)" } else { "" };
                let _ = write!(text, " [{place}]{note} = {after}");
            }
        }
        match text.is_empty() {
            true => "writes nothing".to_string(),
            false => format!("writes{text}"),
        }
    }
}

impl fmt::Display for Tally {
    fn fmt(&self, f: &mut fmt::Formatter<'_>) -> fmt::Result {
        for (name, counts) in KINDS.iter().chain(&TABLE_KINDS).zip(&self.0) {
            let total: u64 = counts.iter().sum();
            if total == 0 {
                continue;
            }
            write!(f, "  {name:18} {total:>10}:")?;
            for (number, count) in counts.iter().enumerate() {
                match (number, count) {
                    (_, 0) => {}
                    (0, count) => write!(f, " accepted {count}")?,
                    (number, count) => write!(f, ", {number}: {count}")?,
                }
            }
            writeln!(f)?;
        }
        Ok(())
    }
}

/// Calls the library.
fn run(call: Call, session: &[u64], output: &mut [u64]) -> u32 {
    match call {
        Call::Sizes => lists::sizes(session, output),
        Call::BlockAt { number } => lists::block_at(session, number, output),
        Call::BlockNumber {
            block: (plane, (x, y)),
        } => lists::block_number(session, plane, x, y, output),
        Call::MacroBlockAt { number } => lists::macro_block_at(session, number, output),
        Call::MacroBlockNumber { place: (x, y) } => {
            lists::macro_block_number(session, x, y, output)
        }
        Call::MacroBlockOf {
            block: (plane, (x, y)),
        } => lists::macro_block_of(session, plane, x, y, output),
        Call::SampleOffset {
            block: (plane, (x, y)),
            column,
            row,
        } => lists::sample_offset(session, plane, x, y, column, row, output),
        Call::WorkLengths => lists::work_lengths(session, output),
    }
}

/// Calls the library on table memory.
fn run_table(call: TableCall, table: &[u8], output: &mut [u64]) -> u32 {
    match call {
        TableCall::Table => lists::table(table),
        TableCall::LoopLimit { qi } => lists::loop_limit(table, qi, output),
        TableCall::Matrix { kind, plane, qi } => lists::matrix(table, kind, plane, qi, output),
    }
}

/// The index of a call on table memory.
fn table_kind(call: TableCall) -> usize {
    match call {
        TableCall::Table => SETUP + 1,
        TableCall::LoopLimit { .. } => SETUP + 2,
        TableCall::Matrix { .. } => SETUP + 3,
    }
}

/// All that is needed to repeat a call on a packet.
fn describe_packet(name: &str, packet: &[u8]) -> String {
    let shown = &packet[..packet.len().min(SHOWN)];
    format!(
        "call:     wedgepetal_{name}\npacket:   {} bytes: {}\n",
        packet.len(),
        hex(shown)
    )
}

/// All that is needed to repeat a call.
fn describe(call: Call, session: &[u64]) -> String {
    let mut text = format!("call:     wedgepetal_{}\n", KINDS[call.kind()]);
    let _ = writeln!(text, "given:    {call:?}");
    let _ = writeln!(text, "session:  {} numbers: {session:?}", session.len());
    for (name, value) in NAMES.iter().zip(session) {
        let _ = writeln!(text, "          {name} = {value}");
    }
    text
}

/// All that is needed to repeat a call on table memory.
fn describe_table(call: TableCall, table: &[u8]) -> String {
    let mut text = format!(
        "call:     wedgepetal_{}\n",
        TABLE_KINDS[table_kind(call) - SETUP]
    );
    let _ = writeln!(text, "given:    {call:?}");
    let _ = writeln!(text, "table:    {}", long_hex(table));
    text
}

/// What was lent, what was expected, and what came of a call.
fn outcome(expected: &Answer, number: u32, list: &List) -> String {
    let mut text = format!("output:   {} numbers lent\n", list.length);
    match expected {
        Answer::Accepted(numbers) => {
            let _ = writeln!(text, "expected: 0, writes {numbers:?}");
        }
        Answer::Refused(number) => {
            let _ = writeln!(text, "expected: {number}, writes nothing");
        }
    }
    let _ = writeln!(text, "got:      {number}, {}", list.changes());
    text
}

/// Bytes in hex.
pub fn hex(bytes: &[u8]) -> String {
    bytes.iter().map(|byte| format!("{byte:02x}")).collect()
}

/// Bytes in hex without the zeros at their end, and how many there are.
pub fn long_hex(bytes: &[u8]) -> String {
    let shown = bytes
        .iter()
        .rposition(|byte| *byte != 0)
        .map_or(0, |i| i + 1);
    let length = bytes.len();
    format!("{length} bytes, zeros after: {}", hex(&bytes[..shown]))
}
