//! All frames of a recording, decoded into an output.

use crate::Failure;
use crate::clock::Clock;
use crate::index::Index;
use crate::input::Input;
use crate::left;
use crate::memory::Limit;
use crate::output::{Answer, Output, Trouble};
use crate::progress::Progress;
use crate::summary::{GapSummary, StreamSummary, Summary};
use recording::part::{Gap, Packet, Part, Stream};
use recording::{Choice, Parts};
use wedgepetal::{FrameAnswer, Player, Refusal, identification, setup};

/// What is done behind a gap.
#[derive(Clone, Copy, Debug, PartialEq, Eq)]
pub enum AfterGap {
    /// Nothing more is read.
    Stop,
    /// Decoding goes on at the next key frame.
    KeyFrame,
}

impl AfterGap {
    /// The choice of this name.
    pub fn parse(name: &str) -> Option<AfterGap> {
        match name {
            "stop" => Some(AfterGap::Stop),
            "key-frame" => Some(AfterGap::KeyFrame),
            _ => None,
        }
    }
}

/// How a recording is to be decoded.
pub struct Request {
    /// Which streams.
    pub choice: Choice,
    /// What is done behind a gap.
    pub after_gap: AfterGap,
    /// The most memory that frames may take.
    pub limit: Limit,
    /// What is made of the frames.
    pub output: Output,
    /// A table of all packets.
    pub index: Option<Index>,
}

/// How many refusals of a stream are said at once. All are counted, and the
/// index has them.
const SAID_MOST: u64 = 10;

/// Whether there is more to do.
#[derive(PartialEq, Eq)]
enum Flow {
    On,
    Stop,
}

/// Decodes a recording. Each refusal and each gap is said at once.
pub fn decode(input: Input, request: Request) -> Result<Summary, Failure> {
    let Input {
        name,
        reader,
        progress,
    } = input;
    let failed = |fault: recording::Fault| Failure::of_fault(&name, &fault);
    let parts = Parts::new(reader, request.choice).map_err(failed)?;
    let mut decoder = Decoder {
        name: &name,
        request,
        progress,
        packets: 0,
        frames: 0,
        playing: None,
        summary: Summary::default(),
    };
    for part in parts {
        if decoder.take(part.map_err(failed)?)? == Flow::Stop {
            break;
        }
    }
    decoder.progress.clear();
    decoder.finish()
}

/// A recording that is being decoded.
struct Decoder<'a> {
    name: &'a str,
    request: Request,
    progress: Progress,
    /// How many packets and frames there were, of all streams.
    packets: u64,
    frames: u64,
    /// The stream that is being read.
    playing: Option<Playing>,
    summary: Summary,
}

/// A stream that is being decoded.
struct Playing {
    /// How many packets there were.
    packets: u64,
    stage: Stage,
    summary: StreamSummary,
    /// The gap behind which packets are left out, up to the next key frame.
    gap: Option<usize>,
    /// The position from which on packets are lost, until the next packet.
    lost_from: Option<u64>,
}

/// How far a stream has come.
enum Stage {
    /// Its headers are read; these are the ones so far.
    Headers(Vec<Vec<u8>>),
    /// Its frames are decoded.
    Frames(Box<Player>, Clock),
    /// It cannot be decoded.
    Refused,
}

impl Decoder<'_> {
    /// Takes a part of the recording.
    fn take(&mut self, part: Part) -> Result<Flow, Failure> {
        match part {
            Part::Begin(stream) => self.begin(stream),
            Part::Packet(packet) => return self.packet(&packet),
            Part::Gap(gap) => return self.gap(&gap),
            Part::End { end, .. } => {
                if let Some(mut playing) = self.playing.take() {
                    playing.summary.end = Some(end);
                    self.close(playing);
                }
            }
            Part::Beside(stream) if self.request.choice == Choice::Joined => {
                self.summary.left.push(left::beside(&stream));
            }
            Part::Beside(stream) => self.summary.others.push(left::named(&stream)),
            Part::Other { holds, .. } => self.summary.others.push(holds.to_string()),
            Part::NoPage(_) | Part::Stray { .. } => {
                self.summary.left.extend(left::unread(&part));
            }
        }
        Ok(Flow::On)
    }

    /// A stream begins.
    fn begin(&mut self, stream: Stream) {
        self.playing = Some(Playing {
            packets: 0,
            stage: Stage::Headers(Vec::new()),
            summary: StreamSummary::new(stream),
            gap: None,
            lost_from: None,
        });
    }

    /// A packet of the stream.
    fn packet(&mut self, packet: &Packet) -> Result<Flow, Failure> {
        let Some(mut playing) = self.playing.take() else {
            return Ok(Flow::On);
        };
        let number = playing.packets;
        playing.packets += 1;
        let flow = match &mut playing.stage {
            Stage::Headers(headers) => {
                headers.push(packet.bytes.clone());
                match headers.len() {
                    3 => self.start(&mut playing),
                    _ => Ok(Flow::On),
                }
            }
            Stage::Frames(..) => self.frame(&mut playing, number, packet),
            Stage::Refused => Ok(Flow::On),
        };
        self.playing = Some(playing);
        self.packets += 1;
        self.progress.packet(self.packets);
        flow
    }

    /// The three headers of a stream are there.
    fn start(&mut self, playing: &mut Playing) -> Result<Flow, Failure> {
        let Stage::Headers(headers) = &playing.stage else {
            return Ok(Flow::On);
        };
        let player = match player(headers, &self.request) {
            Ok(player) => player,
            Err(why) => {
                playing.refuse(why);
                return Ok(Flow::On);
            }
        };
        match self
            .request
            .output
            .begin(playing.summary.stream.number, &player)
        {
            Ok(()) => {}
            Err(Trouble::Failed(text)) => return Err(Failure::File(text)),
            Err(Trouble::Unfit(text)) => {
                let stream = left::named(&playing.summary.stream);
                playing.refuse(format!("{text} ({stream}; --stream chooses one)"));
                return Ok(Flow::Stop);
            }
        }
        if let Some(index) = &mut self.request.index {
            index.begin().map_err(Failure::File)?;
        }
        let clock = Clock::of(player.session());
        playing.stage = Stage::Frames(Box::new(player), clock);
        Ok(Flow::On)
    }

    /// A frame packet of a stream.
    fn frame(
        &mut self,
        playing: &mut Playing,
        number: u64,
        packet: &Packet,
    ) -> Result<Flow, Failure> {
        let Stage::Frames(player, clock) = &mut playing.stage else {
            return Ok(Flow::On);
        };
        let position = clock.tick(packet.granule);
        let time = clock.time(position);
        if let (Some(gap), Some(from)) = (playing.gap, playing.lost_from.take()) {
            let lost = position.checked_sub(from).map(|lost| (lost, time));
            playing.summary.gaps[gap].lost = lost;
        }
        let answer = self.request.output.decode(player, &packet.bytes);
        playing.gap = playing.gap.filter(|_| answer.is_err());
        let no_references = |refusal: Refusal| refusal.number == Refusal::NO_REFERENCES.number;
        let left_out = playing.gap.is_some() && answer.is_err_and(no_references);
        let answer = Answer {
            packet: number,
            number: self.frames,
            answer,
            player,
            time,
        };
        let output = &mut self.request.output;
        output.take(&answer).map_err(Failure::of_trouble)?;
        if let Some(index) = &mut self.request.index {
            let stream = playing.summary.stream.number;
            let written = index.packet(stream, &answer, left_out, time);
            written.map_err(Failure::File)?;
        }
        let answer = answer.answer;
        self.count(playing, number, packet.bytes.len(), answer, left_out);
        self.flow()
    }

    /// Counts the answer to a packet of so many bytes, and says a refusal.
    fn count(
        &mut self,
        playing: &mut Playing,
        number: u64,
        bytes: usize,
        answer: Result<FrameAnswer, Refusal>,
        left_out: bool,
    ) {
        match playing.gap {
            Some(gap) if left_out => playing.summary.gaps[gap].left_out += 1,
            _ => playing.summary.count(number, &answer),
        }
        match answer {
            Ok(_) => self.frames += 1,
            Err(refusal) if !left_out => {
                let refusal = refusal.in_packet(bytes);
                let text = format!("{}: packet {number}: {refusal}", self.name);
                match playing.summary.refused() {
                    0..SAID_MOST => self.progress.say(&text),
                    SAID_MOST => self
                        .progress
                        .say(&format!("{text}; more are counted, --index lists them")),
                    _ => {}
                }
            }
            Err(_) => {}
        }
    }

    /// Whether someone wants more frames.
    fn flow(&self) -> Result<Flow, Failure> {
        let output = &self.request.output;
        match (output.is_unread(), &self.request.index) {
            (true, None) => Err(Failure::Unread),
            _ if output.is_done() => Ok(Flow::Stop),
            _ => Ok(Flow::On),
        }
    }

    /// The stream does not go on as it should.
    fn gap(&mut self, gap: &Gap) -> Result<Flow, Failure> {
        let Some(mut playing) = self.playing.take() else {
            return Ok(Flow::On);
        };
        self.progress.say(&format!("{}: {gap}", self.name));
        let stops = self.request.after_gap == AfterGap::Stop;
        match &mut playing.stage {
            Stage::Headers(_) => playing.refuse(format!("{gap}: its headers are not whole")),
            Stage::Frames(player, clock) => {
                let from = clock.time(clock.next());
                if let Some(index) = &mut self.request.index {
                    let written = index.gap(gap.stream, &gap.to_string(), from);
                    written.map_err(Failure::File)?;
                }
                if gap.loses_packets() {
                    player.restart();
                    playing.gap = Some(playing.summary.gaps.len());
                    playing.lost_from = Some(clock.next());
                }
                playing.summary.gaps.push(GapSummary {
                    what: gap.to_string(),
                    from,
                    lost: None,
                    left_out: 0,
                });
            }
            Stage::Refused => {}
        }
        if stops {
            let text = "reading stops there; --after-gap key-frame goes on at the next key frame";
            playing.summary.stop.get_or_insert(text.to_string());
        }
        self.playing = Some(playing);
        Ok(if stops { Flow::Stop } else { Flow::On })
    }

    /// A stream is at its end, or is left.
    fn close(&mut self, mut playing: Playing) {
        if let Stage::Headers(_) = playing.stage {
            playing.refuse("it ends before its first frame".to_string());
        }
        self.summary.streams.push(playing.summary);
    }

    /// All is read.
    fn finish(mut self) -> Result<Summary, Failure> {
        if let Some(playing) = self.playing.take() {
            self.close(playing);
        }
        let Request {
            output,
            index,
            choice,
            ..
        } = &mut self.request;
        if let Some(why) = why_nothing(&self.summary, *choice) {
            return Err(Failure::Refused(format!("{}: {why}", self.name)));
        }
        if let Some(frame) = output.missing() {
            let count = self.frames;
            let text = format!("{}: there is no frame {frame}; frames: {count}", self.name);
            return Err(Failure::Refused(text));
        }
        // Neither takes its name unless both are whole.
        output.flush(self.name).map_err(Failure::File)?;
        if let Some(index) = index {
            index.flush().map_err(Failure::File)?;
            index.finish().map_err(Failure::File)?;
        }
        output.finish().map_err(Failure::File)?;
        self.summary.said = output.said();
        match output.is_unread() {
            true if index.is_none() => Err(Failure::Unread),
            _ => Ok(self.summary),
        }
    }
}

impl Playing {
    /// The stream is not decoded, or not to its end.
    fn refuse(&mut self, why: String) {
        self.stage = Stage::Refused;
        self.summary.stop = Some(why);
    }
}

/// A player of a stream with these three headers. The second, with its
/// comments, is not looked at.
fn player(headers: &[Vec<u8>], request: &Request) -> Result<Player, String> {
    let said = |number: usize, name: &str, refusal: Refusal| {
        let refusal = refusal.in_packet(headers[number].len());
        format!("packet {number}, the {name} header: {refusal}")
    };
    let session =
        identification(&headers[0]).map_err(|refusal| said(0, "identification", refusal))?;
    let table = setup(&headers[2]).map_err(|refusal| said(2, "setup", refusal))?;
    let excess = request
        .output
        .memory(&session)
        .and_then(|beside| request.limit.excess(&session, beside));
    match excess {
        Ok(None) => {
            let player = Player::within(session, table, request.limit.bytes());
            player.map_err(|why| why.to_string())
        }
        Ok(Some(text)) => Err(text),
        Err(refusal) => Err(refusal.to_string()),
    }
}

/// Why a recording gives nothing at all, if it does not.
fn why_nothing(summary: &Summary, choice: Choice) -> Option<String> {
    match &summary.streams[..] {
        [] => Some(no_stream(summary, choice)),
        [only] if only.frames() == 0 => only.stop.clone(),
        _ => None,
    }
}

/// No stream is read: what there is.
fn no_stream(summary: &Summary, choice: Choice) -> String {
    let what = match choice {
        Choice::One(number) => format!("there is no Theora stream {number}"),
        _ => "there is no Theora stream".to_string(),
    };
    let others = summary.others.iter().chain(&summary.left);
    let others: Vec<&str> = others.map(String::as_str).collect();
    match others[..] {
        [] => what,
        _ => format!("{what}; there is {}", others.join(", ")),
    }
}

#[cfg(test)]
mod tests;
