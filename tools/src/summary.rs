//! What became of a recording's packets, as text and as JSON.

use crate::clock::Time;
use crate::json::Json;
use recording::part::{End, Stream};
use std::collections::BTreeMap;
use std::fmt;
use wedgepetal::{FrameAnswer, Kind, Refusal};

/// What became of a recording.
#[derive(Default)]
pub struct Summary {
    /// Its streams that were read.
    pub streams: Vec<StreamSummary>,
    /// What was not read, or is damaged.
    pub left: Vec<String>,
    /// What other streams there are.
    pub others: Vec<String>,
    /// What the output has to say of the frames, in words and as JSON.
    pub said: Option<(String, Json)>,
}

/// What became of a stream.
pub struct StreamSummary {
    /// The stream.
    pub stream: Stream,
    intra: u64,
    inter: u64,
    repeat: u64,
    /// How many tokens all frames have together.
    tokens: u64,
    /// What was refused by each number.
    refused: BTreeMap<u32, Refused>,
    /// Where it does not go on as it should.
    pub gaps: Vec<GapSummary>,
    /// Why it was not read, or not to its end.
    pub stop: Option<String>,
    /// How it ends, if it was read so far.
    pub end: Option<End>,
}

/// What was refused by a number.
struct Refused {
    /// How many packets.
    packets: u64,
    /// The first of them, and where in it.
    first: (u64, Refusal),
}

/// What became of a gap.
pub struct GapSummary {
    /// What is wrong.
    pub what: String,
    /// The time up to which all is there.
    pub from: Time,
    /// How many packets are lost, and the time from which on they come again.
    pub lost: Option<(u64, Time)>,
    /// How many packets behind it were left out, up to the next key frame.
    pub left_out: u64,
}

impl StreamSummary {
    /// A stream that begins.
    pub fn new(stream: Stream) -> StreamSummary {
        StreamSummary {
            stream,
            intra: 0,
            inter: 0,
            repeat: 0,
            tokens: 0,
            refused: BTreeMap::new(),
            gaps: Vec::new(),
            stop: None,
            end: None,
        }
    }

    /// Counts the answer to the packet of this number.
    pub fn count(&mut self, packet: u64, answer: &Result<FrameAnswer, Refusal>) {
        match answer {
            Ok(FrameAnswer { kind, tokens, .. }) => {
                match kind {
                    Kind::Intra => self.intra += 1,
                    Kind::Inter => self.inter += 1,
                    Kind::Repeat => self.repeat += 1,
                }
                self.tokens += tokens;
            }
            Err(refusal) => {
                let first = Refused {
                    packets: 0,
                    first: (packet, *refusal),
                };
                self.refused.entry(refusal.number).or_insert(first).packets += 1;
            }
        }
    }

    /// How many frames it gave.
    pub fn frames(&self) -> u64 {
        self.intra + self.inter + self.repeat
    }

    /// How many packets were refused.
    pub fn refused(&self) -> u64 {
        self.refused.values().map(|refused| refused.packets).sum()
    }

    /// Whether all of it was read and accepted.
    fn is_clean(&self) -> bool {
        self.refused.is_empty()
            && self.gaps.is_empty()
            && self.stop.is_none()
            && matches!(self.end, None | Some(End::Whole))
    }

    fn json(&self) -> Json {
        let refused = self.refused.values().map(|refused| {
            let (packet, refusal) = refused.first;
            Json::Object(vec![
                ("refusal", Json::Number(u64::from(refusal.number))),
                ("meaning", Json::text(refusal.meaning())),
                ("packets", Json::Number(refused.packets)),
                ("first_packet", Json::Number(packet)),
                ("first_bit", Json::Number(refusal.place)),
            ])
        });
        Json::Object(vec![
            ("stream", Json::Number(self.stream.number)),
            ("serial", Json::maybe(self.stream.serial.map(u64::from))),
            ("frames", Json::Number(self.frames())),
            ("intra", Json::Number(self.intra)),
            ("inter", Json::Number(self.inter)),
            ("repeat", Json::Number(self.repeat)),
            ("tokens", Json::Number(self.tokens)),
            ("refused", Json::List(refused.collect())),
            (
                "gaps",
                Json::List(self.gaps.iter().map(GapSummary::json).collect()),
            ),
            ("stop", self.stop.as_ref().map_or(Json::Null, Json::text)),
            ("end", self.end.as_ref().map_or(Json::Null, Json::text)),
        ])
    }
}

impl fmt::Display for StreamSummary {
    fn fmt(&self, f: &mut fmt::Formatter<'_>) -> fmt::Result {
        write!(
            f,
            "{} frames ({} intra, {} inter, {} repeat)",
            self.frames(),
            self.intra,
            self.inter,
            self.repeat
        )?;
        match self.refused() {
            0 => writeln!(f, ", no packet refused")?,
            refused => writeln!(f, ", packets refused: {refused}")?,
        }
        for Refused { packets, first } in self.refused.values() {
            let (packet, refusal) = first;
            let (number, meaning) = (refusal.number, refusal.meaning());
            writeln!(
                f,
                "  {packets} by {number}, {meaning}; the first is packet {packet}"
            )?;
        }
        for gap in &self.gaps {
            writeln!(f, "  {gap}")?;
        }
        if let Some(why) = &self.stop {
            writeln!(f, "  {why}")?;
        }
        match &self.end {
            Some(End::Whole) | None => Ok(()),
            Some(end) => writeln!(f, "  {end}"),
        }
    }
}

impl GapSummary {
    fn json(&self) -> Json {
        let lost = self.lost.as_ref();
        Json::Object(vec![
            ("what", Json::text(&self.what)),
            ("from_s", Json::Decimal(self.from.to_string())),
            (
                "until_s",
                lost.map_or(Json::Null, |(_, time)| Json::Decimal(time.to_string())),
            ),
            ("lost", Json::maybe(lost.map(|(packets, _)| *packets))),
            ("left_out", Json::Number(self.left_out)),
        ])
    }
}

impl fmt::Display for GapSummary {
    fn fmt(&self, f: &mut fmt::Formatter<'_>) -> fmt::Result {
        write!(f, "{}: ", self.what)?;
        match &self.lost {
            Some((0, _)) => write!(f, "no packet lost, at {} s", self.from)?,
            Some((lost, until)) => {
                write!(f, "packets lost: {lost}, from {} s to {until} s", self.from)?;
            }
            None => write!(f, "at {} s", self.from)?,
        }
        match self.left_out {
            0 => Ok(()),
            count => write!(f, "; left out up to the next key frame: {count}"),
        }
    }
}

impl Summary {
    /// Whether all was read and accepted.
    pub fn is_clean(&self) -> bool {
        self.left.is_empty() && self.streams.iter().all(StreamSummary::is_clean)
    }

    /// What is wrong and was not said at once: a line each, for a recording of
    /// this name.
    pub fn faults(&self, name: &str) -> String {
        let mut lines = self.left.clone();
        for stream in &self.streams {
            let number = stream.stream.number;
            let end = stream.end.iter().filter(|end| **end != End::Whole);
            let faults = stream.stop.iter().cloned().chain(end.map(End::to_string));
            lines.extend(faults.map(|fault| format!("stream {number}: {fault}")));
        }
        lines
            .iter()
            .map(|line| format!("{name}: {line}\n"))
            .collect()
    }

    /// The text for a recording of this name: a line for each stream, each with
    /// what is wrong behind it.
    pub fn text(&self, name: &str) -> String {
        let mut text = String::new();
        for stream in &self.streams {
            let number = match self.streams.len() {
                1 => String::new(),
                _ => format!("stream {}: ", stream.stream.number),
            };
            text += &format!("{name}: {number}{stream}");
        }
        text += self.said.as_ref().map_or("", |(words, _)| words);
        for left in &self.left {
            text += &format!("{name}: {left}\n");
        }
        text
    }

    /// The same as JSON.
    pub fn json(&self, name: &str) -> Json {
        let mut fields = vec![
            ("recording", Json::text(name)),
            ("clean", Json::Bool(self.is_clean())),
            (
                "streams",
                Json::List(self.streams.iter().map(StreamSummary::json).collect()),
            ),
            ("left", Json::texts(&self.left)),
        ];
        if let Some((_, json)) = &self.said {
            fields.push(("tiles", json.clone()));
        }
        Json::Object(fields)
    }
}
