//! The Theora streams of a recording, each with all its packets.

use crate::Failure;
use crate::input::Input;
use crate::left;
use recording::part::{End, Part};
use recording::{Choice, Parts};
use std::collections::BTreeMap;

/// A stream, up to its end or to where it does not go on as it should.
#[derive(Debug, Default, PartialEq, Eq)]
pub struct Whole {
    /// The headers and the frame packets.
    pub packets: Vec<Vec<u8>>,
    /// Why it is not whole.
    pub fault: Option<String>,
    /// Whether packets are missing, or bytes of the last.
    pub lost: bool,
}

/// What a recording holds.
#[derive(Debug, Default)]
pub struct Streams {
    /// Its Theora streams by their numbers.
    pub streams: BTreeMap<u64, Whole>,
    /// What else there is.
    pub others: Vec<String>,
    /// What is damaged or belongs to no stream.
    pub left: Vec<String>,
}

/// Reads the chosen streams of a recording. Behind a gap a stream is not read.
pub fn read(input: Input, choice: Choice) -> Result<Streams, Failure> {
    let failed = |fault| Failure::of_fault(&input.name, &fault);
    let mut all = Streams::default();
    for part in Parts::new(input.reader, choice).map_err(failed)? {
        match part.map_err(failed)? {
            Part::Begin(stream) => {
                all.streams.insert(stream.number, Whole::default());
            }
            Part::Packet(packet) => {
                let stream = all.streams.entry(packet.stream).or_default();
                if stream.fault.is_none() {
                    stream.packets.push(packet.bytes);
                }
            }
            Part::Gap(gap) => all.fault(gap.stream, gap.to_string(), true),
            Part::End { stream, end } => match end {
                End::Whole => {}
                End::NoLastPage => all.fault(stream, end.to_string(), false),
                End::InPacket(_) => all.fault(stream, end.to_string(), true),
            },
            Part::Beside(stream) => all.others.push(left::named(&stream)),
            Part::Other { holds, .. } => all.others.push(holds.to_string()),
            part => all.left.extend(left::unread(&part)),
        }
    }
    Ok(all)
}

impl Streams {
    /// A stream is not whole. The first fault is the one that is said.
    fn fault(&mut self, stream: u64, what: String, lost: bool) {
        let stream = self.streams.entry(stream).or_default();
        stream.fault.get_or_insert(what);
        stream.lost |= lost;
    }

    /// That there is no stream, and what there is.
    pub fn none(&self) -> String {
        match &self.others[..] {
            [] => "there is no such Theora stream".to_string(),
            others => format!(
                "there is no such Theora stream; there is {}",
                others.join(", ")
            ),
        }
    }
}
