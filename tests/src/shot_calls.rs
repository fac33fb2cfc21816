//! The library's call for a whole shot: lent memory that holds anything, and all
//! that the call returns and leaves.

use crate::check::long_hex;
use crate::lent::{Slice, WorkMemory};
use crate::library::shown;
use crate::random::Random;
use crate::reference::decode::Work;
use crate::reference::shot_face::{ShotLeft, ShotLists};
use crate::reference::work_memory;
use std::fmt::Write;
use wedgepetal::lists;

/// Makes the library's call and compares all that it returns and leaves with
/// what is expected.
pub fn hold(random: &mut Random, lists: &ShotLists, expected: &ShotLeft) -> Result<(), String> {
    let left = made(random, lists, expected.work)?;
    match left == *expected {
        true => Ok(()),
        false => Err(describe(lists) + &differences(expected, &left)),
    }
}

/// Makes the library's call, which must leave work memory like this. Gives what it
/// left.
pub fn made(random: &mut Random, lists: &ShotLists, work: Work) -> Result<ShotLeft, String> {
    let mut lent = Memory::new(random, lists);
    let number = lent.call();
    let spoiled = lent.spoiled(work);
    if !spoiled.is_empty() {
        let spoiled = spoiled.join(", ");
        let text = format!("library:  {number}\nspoiled:  {spoiled} (work memory: {work:?})\n");
        return Err(describe(lists) + &text);
    }
    Ok(ShotLeft {
        number,
        session: lent.session.inner().to_vec(),
        names: lent.names.inner().to_vec(),
        buffers: lent.buffers.each_ref().map(|x| x.inner().to_vec()),
        answers: lent.answers.inner().to_vec(),
        work,
    })
}

/// All that is lent to a call.
struct Memory {
    session: Slice<u64>,
    names: Slice<u64>,
    lengths: Slice<u64>,
    packets: Slice<u8>,
    table: Slice<u8>,
    work: WorkMemory,
    buffers: [Slice<u8>; 3],
    answers: Slice<u64>,
}

impl Memory {
    fn new(random: &mut Random, lists: &ShotLists) -> Memory {
        Memory {
            session: Slice::of(random, lists.session),
            names: Slice::of(random, lists.names),
            lengths: Slice::of(random, lists.lengths),
            packets: Slice::of(random, lists.packets),
            table: Slice::of(random, &lists.table.bytes),
            work: WorkMemory::new(random, lists.work),
            buffers: lists.buffers.map(|buffer| Slice::of(random, buffer)),
            answers: Slice::of(random, lists.answers),
        }
    }

    /// Calls the library.
    fn call(&mut self) -> u32 {
        lists::shot(
            self.session.lent(),
            self.names.lent(),
            self.lengths.inner(),
            self.packets.inner(),
            self.table.inner(),
            self.work.slices(),
            self.buffers.each_mut().map(Slice::lent),
            self.answers.lent(),
        )
    }

    /// What is not as every call leaves it, given how work memory should be.
    fn spoiled(&self, work: Work) -> Vec<&'static str> {
        let others = [
            ("lengths", self.lengths.untouched()),
            ("packets", self.packets.untouched()),
            ("table", self.table.untouched()),
            ("around session", self.session.kept_around()),
            ("around names", self.names.kept_around()),
            (
                "around a buffer",
                self.buffers.iter().all(Slice::kept_around),
            ),
            ("around answers", self.answers.kept_around()),
        ];
        let slices = self.work.are(work);
        let all = work_memory::NAMES.into_iter().zip(slices).chain(others);
        all.filter(|(_, good)| !good)
            .map(|(name, _)| name)
            .collect()
    }
}

/// All that is needed to repeat a call; work memory may hold anything.
fn describe(lists: &ShotLists) -> String {
    let mut text = "call:     wedgepetal_shot\n".to_string();
    let _ = writeln!(text, "session:  {:?}", lists.session);
    let _ = writeln!(text, "names:    {:?}", lists.names);
    let _ = writeln!(text, "lengths:  {:?}", lists.lengths);
    let _ = writeln!(text, "packets:  {}", long_hex(lists.packets));
    let _ = writeln!(text, "table:    {}", long_hex(&lists.table.bytes));
    let _ = writeln!(text, "work:     {:?}", lists.work);
    for (name, buffer) in lists.buffers.iter().enumerate() {
        let _ = writeln!(text, "buffer {name}: {}", shown(buffer));
    }
    let _ = writeln!(text, "answers:  {} numbers", lists.answers.len());
    text
}

/// What was expected and what came.
fn differences(expected: &ShotLeft, left: &ShotLeft) -> String {
    let mut text = String::new();
    for (name, left) in [("expected:", expected), ("library:", left)] {
        let ShotLeft {
            number,
            session,
            names,
            answers,
            ..
        } = left;
        let _ = writeln!(
            text,
            "{name:9} {number}, session {session:?}, names {names:?}, answers {answers:?}"
        );
    }
    let buffers = expected.buffers.iter().zip(&left.buffers).enumerate();
    for (name, _) in buffers.filter(|(_, (wanted, got))| wanted != got) {
        let _ = writeln!(text, "buffer {name} differs");
    }
    text
}
