//! The library's frame call: lent memory that holds anything, and all that the
//! call returns and leaves.

use crate::check::{hex, long_hex};
use crate::lent::{Slice, WorkMemory};
use crate::random::Random;
use crate::reference::decode::Work;
use crate::reference::frame_face::{Left, Lists};
use crate::reference::identification::identification;
use crate::reference::session::{Fields, NAMES, SESSION_NUMBERS};
use crate::reference::setup::setup;
use crate::reference::sizes::sizes;
use crate::reference::table_memory::{TABLE_BYTES, left_by};
use crate::reference::work_memory::{self, SLICES};
use recording::hash::hash;
use std::fmt::Write;
use wedgepetal::lists::{self, Buffers, LENGTH_NUMBERS};

/// How many bytes of a buffer are printed; of a longer one its hash.
const SHOWN: usize = 20_000;

/// The fresh session that the library gives of an identification header that
/// is accepted.
pub fn session(header: &[u8]) -> Result<[u64; SESSION_NUMBERS], String> {
    let (mut list, mut place) = ([0xA5; SESSION_NUMBERS], [0xA5]);
    let number = lists::identification(header, &mut list, &mut place);
    let expected = identification(header).map(|fields| fields.session(0));
    match number == 0 && place == [0] && expected == Ok(list) {
        true => Ok(list),
        false => Err(format!("{}: {number}, session {list:?}", hex(header))),
    }
}

/// The lengths of work memory that the library gives for sound fields. They
/// must be the published ones.
pub fn work_lengths(fields: &Fields) -> Result<[u64; SLICES], String> {
    let mut list = [0; LENGTH_NUMBERS];
    let number = lists::work_lengths(&fields.session(0), &mut list);
    let sizes = sizes(fields);
    let published = work_memory::lengths(&sizes);
    let (lengths, bytes) = list.split_at(SLICES);
    match number == 0 && lengths == published && bytes == [work_memory::bytes(&sizes)] {
        true => Ok(published),
        false => Err(format!(
            "work lengths of {fields:?}: {number}, {list:?}, published {published:?}"
        )),
    }
}

/// The table memory that the library's setup call leaves of a packet that is
/// accepted.
pub fn table(header: &[u8]) -> Result<Vec<u8>, String> {
    let (mut table, mut place) = (vec![0xA5; TABLE_BYTES], [0xA5]);
    let number = lists::setup(header, &mut table, &mut place);
    match number == 0 && place == [0] && table == left_by(header, &setup(header)) {
        true => Ok(table),
        false => Err(format!(
            "setup packet {}: {number}, table memory {}",
            hex(header),
            long_hex(&table)
        )),
    }
}

/// Makes the library's call and compares all that it returns and leaves with
/// what is expected. Gives what the library left.
pub fn hold(random: &mut Random, lists: &Lists, expected: &Left) -> Result<Left, String> {
    let mut lent = Memory::new(random, lists);
    let number = lent.call(lists.packet);
    let left = Left {
        number,
        session: lent.session.inner().to_vec(),
        answer: lent.answer.inner().to_vec(),
        new: lent.new.inner().to_vec(),
        work: expected.work,
    };
    let spoiled = lent.spoiled(expected.work);
    match left == *expected && spoiled.is_empty() {
        true => Ok(left),
        false => Err(describe(lists) + &differences(expected, &left, &spoiled)),
    }
}

/// All that is lent to a call but the packet.
struct Memory {
    session: Slice<u64>,
    table: Slice<u8>,
    work: WorkMemory,
    golden: Slice<u8>,
    /// None: golden is lent for previous too.
    previous: Option<Slice<u8>>,
    new: Slice<u8>,
    answer: Slice<u64>,
}

impl Memory {
    fn new(random: &mut Random, lists: &Lists) -> Memory {
        let one_buffer = lists.golden == lists.previous && random.once_in(2);
        Memory {
            session: Slice::of(random, lists.session),
            table: Slice::of(random, &lists.table.bytes),
            work: WorkMemory::new(random, lists.work),
            golden: Slice::of(random, lists.golden),
            previous: (!one_buffer).then(|| Slice::of(random, lists.previous)),
            new: Slice::of(random, lists.new),
            answer: Slice::of(random, lists.answer),
        }
    }

    /// Calls the library.
    fn call(&mut self, packet: &[u8]) -> u32 {
        let buffers = Buffers {
            golden: self.golden.inner(),
            previous: self.previous.as_ref().unwrap_or(&self.golden).inner(),
            new: self.new.lent(),
        };
        lists::frame(
            self.session.lent(),
            packet,
            self.table.inner(),
            self.work.slices(),
            buffers,
            self.answer.lent(),
        )
    }

    /// What is not as every call leaves it, given how work memory should be.
    fn spoiled(&self, work: Work) -> Vec<&'static str> {
        let others = [
            ("table", self.table.untouched()),
            ("golden", self.golden.untouched()),
            (
                "previous",
                self.previous.as_ref().is_none_or(Slice::untouched),
            ),
            ("around session", self.session.kept_around()),
            ("around answer", self.answer.kept_around()),
            ("around new", self.new.kept_around()),
        ];
        let slices = self.work.are(work);
        let all = work_memory::NAMES.into_iter().zip(slices).chain(others);
        all.filter(|(_, good)| !good)
            .map(|(name, _)| name)
            .collect()
    }
}

/// All that is needed to repeat a call; work memory may hold anything.
fn describe(lists: &Lists) -> String {
    let mut text = "call:     wedgepetal_frame\n".to_string();
    let session = lists.session;
    let _ = writeln!(text, "session:  {} numbers: {session:?}", session.len());
    for (name, value) in NAMES.iter().zip(session) {
        let _ = writeln!(text, "          {name} = {value}");
    }
    let _ = writeln!(text, "packet:   {}", long_hex(lists.packet));
    let _ = writeln!(text, "table:    {}", long_hex(&lists.table.bytes));
    let work: Vec<String> = work_memory::NAMES
        .iter()
        .zip(lists.work)
        .map(|(name, length)| format!("{name} {length}"))
        .collect();
    let _ = writeln!(text, "work:     {}", work.join(", "));
    for (name, buffer) in [
        ("golden", lists.golden),
        ("previous", lists.previous),
        ("new", lists.new),
    ] {
        let _ = writeln!(text, "{:9} {}", format!("{name}:"), shown(buffer));
    }
    let _ = writeln!(text, "answer:   {:?}", lists.answer);
    text
}

/// A buffer in hex, or its hash.
pub fn shown(buffer: &[u8]) -> String {
    let length = buffer.len();
    match length <= SHOWN {
        true => format!("{length} bytes: {}", hex(buffer)),
        false => format!("{length} bytes with the hash {:016x}", hash(buffer)),
    }
}

/// What was expected and what came.
fn differences(expected: &Left, left: &Left, spoiled: &[&str]) -> String {
    let mut text = String::new();
    for (name, left) in [("expected:", expected), ("library:", left)] {
        let Left {
            number,
            session,
            answer,
            ..
        } = left;
        let _ = writeln!(
            text,
            "{name:9} {number}, session {session:?}, answer {answer:?}"
        );
    }
    let pairs = expected.new.iter().zip(&left.new);
    let others: Vec<usize> = pairs
        .enumerate()
        .filter(|(_, (wanted, got))| wanted != got)
        .map(|(i, _)| i)
        .collect();
    if let Some(first) = others.first() {
        let _ = writeln!(
            text,
            "new:      {} bytes differ; the first is {first}: {}, by the library {}",
            others.len(),
            expected.new[*first],
            left.new[*first]
        );
    }
    if !spoiled.is_empty() {
        let _ = writeln!(
            text,
            "spoiled:  {} (work memory should be {:?})",
            spoiled.join(", "),
            expected.work
        );
    }
    text
}
