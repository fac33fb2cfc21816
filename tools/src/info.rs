//! `wedgepetal info`: what a recording is, and whether it is whole.

use crate::Failure;
use crate::clock::Clock;
use crate::fields;
use crate::input::Input;
use crate::json::Json;
use crate::left;
use crate::memory::{Limit, counted};
use crate::places::Places;
use recording::kind::Kind;
use recording::part::{End, Gap, Packet, Part, Stream};
use recording::{Choice, Parts};
use std::fmt::Write;
use wedgepetal::{Player, Refusal, Session, Sizes, WorkLengths, identification, setup};

/// What a recording is.
pub struct Info {
    kind: Kind,
    bytes: u64,
    streams: Vec<StreamInfo>,
    /// What its other streams hold.
    others: Vec<String>,
    /// What is damaged.
    faults: Vec<String>,
}

/// What a Theora stream is.
struct StreamInfo {
    stream: Stream,
    /// Its fields, sizes and memory, or why and where the header is refused.
    header: Result<Header, String>,
    /// Why and where the setup header is refused.
    setup: Option<String>,
    /// How many packets there are, headers included.
    packets: u64,
    gaps: Vec<Gap>,
    end: Option<End>,
    /// The position of the first frame packet.
    first: Option<u64>,
    /// The position behind the last.
    clock: Option<Clock>,
    /// The place of each frame, if it is wanted.
    places: Option<Places>,
}

/// What an identification header says, and what follows from it.
struct Header {
    session: Session,
    sizes: Sizes,
    lengths: WorkLengths,
    memory: u64,
}

impl Header {
    fn read(packet: &[u8]) -> Result<Header, Refusal> {
        let session = identification(packet)?;
        Ok(Header {
            sizes: session.sizes()?,
            lengths: session.work_lengths()?,
            memory: Player::memory(&session)?,
            session,
        })
    }
}

/// Reads a recording to its end. Frames are decoded, with so much memory at
/// most, only if their places are wanted.
pub fn read(input: Input, places: Option<Limit>) -> Result<Info, Failure> {
    let Input {
        name,
        reader,
        mut progress,
    } = input;
    let failed = |fault| Failure::of_fault(&name, &fault);
    let parts = Parts::new(reader, Choice::All).map_err(failed)?;
    let mut info = Info {
        kind: parts.kind(),
        bytes: 0,
        streams: Vec::new(),
        others: Vec::new(),
        faults: Vec::new(),
    };
    for (number, part) in (0..).zip(parts) {
        info.take(part.map_err(failed)?, places.as_ref());
        progress.packet(number);
    }
    progress.clear();
    info.bytes = progress.bytes().get();
    Ok(info)
}

impl Info {
    /// Takes a part of the recording; places of frames are wanted if there is a
    /// limit for their memory.
    fn take(&mut self, part: Part, places: Option<&Limit>) {
        match part {
            Part::Begin(stream) => self.streams.push(StreamInfo::new(stream, places)),
            Part::Packet(packet) => {
                if let Some(stream) = self.stream(packet.stream) {
                    stream.packet(&packet);
                }
            }
            Part::Gap(gap) => {
                if let Some(stream) = self.stream(gap.stream) {
                    stream.gap(gap);
                }
            }
            Part::End { stream, end } => {
                if let Some(stream) = self.stream(stream) {
                    stream.end = Some(end);
                }
            }
            Part::Other { serial, holds } => {
                self.others.push(format!("{holds} (serial {serial})"));
            }
            part => self.faults.extend(left::unread(&part)),
        }
    }

    /// The stream with this number.
    fn stream(&mut self, number: u64) -> Option<&mut StreamInfo> {
        self.streams
            .iter_mut()
            .find(|stream| stream.stream.number == number)
    }

    /// Whether the recording is whole, and there is a stream to decode.
    pub fn is_clean(&self) -> bool {
        self.faults.is_empty()
            && !self.streams.is_empty()
            && self
                .streams
                .iter()
                .all(|stream| stream.faults(self.kind).is_empty())
    }

    /// All that is wrong, one line each, of a recording of this name.
    pub fn faults(&self, name: &str) -> String {
        let mut lines: Vec<String> = self.faults.clone();
        if self.streams.is_empty() {
            lines.push("there is no Theora stream".to_string());
        }
        for stream in &self.streams {
            let number = stream.stream.number;
            let faults = stream.faults(self.kind);
            lines.extend(
                faults
                    .iter()
                    .map(|fault| format!("stream {number}: {fault}")),
            );
        }
        lines
            .iter()
            .map(|line| format!("{name}: {line}\n"))
            .collect()
    }

    /// A dozen lines for a person, of a recording of this name; with all fields
    /// if they are wanted.
    pub fn text(&self, name: &str, fields: bool) -> String {
        let kind = match self.kind {
            Kind::Ogg => "Ogg file",
            Kind::PacketFile => "packet file",
            Kind::Header => "identification header alone",
        };
        let mut text = format!("{name}: {kind}, {}\n", counted(self.bytes));
        for stream in &self.streams {
            text += &stream.text(fields);
        }
        for other in &self.others {
            text += &format!("beside it: {other}\n");
        }
        match &self.faults(name)[..] {
            "" if self.kind == Kind::Header => {}
            "" => text += "whole: nothing is missing or damaged\n",
            faults => text += faults,
        }
        text
    }

    /// All of it as JSON.
    pub fn json(&self, name: &str) -> Json {
        let streams = self.streams.iter().map(|stream| stream.json(self.kind));
        Json::Object(vec![
            ("recording", Json::text(name)),
            ("bytes", Json::Number(self.bytes)),
            ("clean", Json::Bool(self.is_clean())),
            ("streams", Json::List(streams.collect())),
            ("others", Json::texts(&self.others)),
            ("faults", Json::texts(&self.faults)),
        ])
    }
}

impl StreamInfo {
    fn new(stream: Stream, places: Option<&Limit>) -> StreamInfo {
        StreamInfo {
            stream,
            header: Err(Refusal::PACKET_ENDS.in_packet(0)),
            setup: None,
            packets: 0,
            gaps: Vec::new(),
            end: None,
            first: None,
            clock: None,
            places: places.cloned().map(Places::new),
        }
    }

    /// It does not go on as it should.
    fn gap(&mut self, gap: Gap) {
        if let (Some(places), true) = (&mut self.places, gap.loses_packets()) {
            places.restart();
        }
        self.gaps.push(gap);
    }

    /// The next packet.
    fn packet(&mut self, packet: &Packet) {
        match self.packets {
            0 => {
                let header = Header::read(&packet.bytes);
                self.header = header.map_err(|refusal| refusal.in_packet(packet.bytes.len()));
                let header = self.header.as_ref().ok();
                self.clock = header.map(|header| Clock::of(&header.session));
            }
            1 => {}
            2 => {
                let table = setup(&packet.bytes);
                let table = table.map_err(|refusal| refusal.in_packet(packet.bytes.len()));
                if let (Some(places), Ok(header), Ok(table)) =
                    (&mut self.places, &self.header, &table)
                {
                    places.begin(&header.session, table);
                }
                self.setup = table.err();
            }
            _ => {
                if let Some(clock) = &mut self.clock {
                    let position = clock.tick(packet.granule);
                    self.first.get_or_insert(position);
                    if let Some(places) = &mut self.places {
                        places.packet(self.packets, &packet.bytes, clock.time(position));
                    }
                }
            }
        }
        self.packets += 1;
    }

    /// How many frame packets there are.
    fn frames(&self) -> u64 {
        self.packets.saturating_sub(3)
    }

    /// What is wrong with it, in a recording of this kind.
    fn faults(&self, kind: Kind) -> Vec<String> {
        let mut faults = Vec::new();
        if let Err(refusal) = &self.header {
            faults.push(format!("identification header: {refusal}"));
        }
        if let Some(refusal) = &self.setup {
            faults.push(format!("setup header: {refusal}"));
        }
        if self.packets < 3 && kind != Kind::Header {
            faults.push("it ends before its first frame".to_string());
        }
        if let Some(places) = &self.places {
            faults.extend_from_slice(places.faults());
        }
        faults.extend(self.gaps.iter().map(Gap::to_string));
        let end = self.end.iter().filter(|end| **end != End::Whole);
        faults.extend(end.map(End::to_string));
        faults
    }

    /// The lines of a stream.
    fn text(&self, fields: bool) -> String {
        let name = left::named(&self.stream);
        let Ok(header) = &self.header else {
            return format!("{name}: not decodable\n");
        };
        let mut text = format!("{name}: Theora 3.2.{}\n", header.session.vrev);
        if fields {
            text += &fields::report(&header.session, &header.sizes, &header.lengths);
            return text;
        }
        // Writing to a string does not fail.
        let _ = header.write(&mut text);
        if self.packets >= 3 {
            let _ = writeln!(text, "  length    {}", self.length());
        }
        if let Some(places) = &self.places {
            text += &places.text();
        }
        text
    }

    /// How many frames there are, and how long they last.
    fn length(&self) -> String {
        let frames = self.frames();
        match (self.first, &self.clock) {
            (Some(0), Some(clock)) => format!("{frames} frames, {:.3} s", clock.time(clock.next())),
            (Some(first), Some(clock)) => {
                let (from, to) = (clock.time(first), clock.time(clock.next()));
                format!("{frames} frames, from {from:.3} s to {to:.3} s")
            }
            _ => format!("{frames} frames"),
        }
    }

    fn json(&self, kind: Kind) -> Json {
        let mut all = vec![
            ("stream", Json::Number(self.stream.number)),
            ("serial", Json::maybe(self.stream.serial.map(u64::from))),
            ("frames", Json::Number(self.frames())),
        ];
        if let Some(clock) = &self.clock {
            let end = clock.time(clock.next());
            all.push(("end_s", Json::Decimal(end.to_string())));
        }
        if let Ok(header) = &self.header {
            all.extend([
                ("fields", fields::json(&header.session)),
                ("sizes", fields::sizes_json(&header.sizes)),
                ("memory", Json::Number(header.memory)),
            ]);
        }
        if let Some(places) = &self.places {
            all.push(("places", places.json()));
        }
        all.push(("faults", Json::texts(&self.faults(kind))));
        Json::Object(all)
    }
}

impl Header {
    /// The lines that a person wants first.
    fn write(&self, out: &mut String) -> std::fmt::Result {
        let s = &self.session;
        let format = match s.pf {
            0 => "4:2:0",
            2 => "4:2:2",
            _ => "4:4:4",
        };
        let size = |plane: usize| {
            let plane = &self.sizes.planes[plane];
            format!("{} x {}", 8 * plane.blocks_across, 8 * plane.blocks_up)
        };
        writeln!(
            out,
            "  picture   {} x {} samples{}",
            s.picw,
            s.pich,
            aspect(s)
        )?;
        writeln!(
            out,
            "  planes    Y' {}, Cb and Cr {} ({format}), 8 bits a sample",
            size(0),
            size(1)
        )?;
        let rate = s.frn as f64 / s.frd as f64;
        writeln!(
            out,
            "  rate      {rate:.3} frames a second ({}/{})",
            s.frn, s.frd
        )?;
        writeln!(out, "  colours   {}", fields::colour_space(s.cs))?;
        writeln!(out, "  memory    {} to decode it", counted(self.memory))
    }
}

/// The aspect ratio of a sample, if it is known and not 1.
fn aspect(session: &Session) -> String {
    match (session.parn, session.pard) {
        (0, _) | (_, 0) => String::new(),
        (across, up) if across == up => String::new(),
        (across, up) => format!(", each {across}:{up} wide"),
    }
}

#[cfg(test)]
mod tests {
    use super::*;
    use crate::progress::Progress;
    use crate::sample;
    use recording::{ogg, packet_file};

    /// What a recording is.
    fn info(recording: Vec<u8>) -> Result<Info, Failure> {
        info_with(recording, None)
    }

    /// The same, with the places of frames if there is a limit for their memory.
    fn info_with(recording: Vec<u8>, places: Option<u64>) -> Result<Info, Failure> {
        let input = Input {
            name: "x".to_string(),
            reader: Box::new(std::io::Cursor::new(recording)),
            progress: Progress::new(true, None),
        };
        read(input, places.map(|bytes| Limit::new(Some(bytes))))
    }

    /// The lines of a recording that is one.
    fn text(recording: Vec<u8>) -> String {
        match info(recording) {
            Ok(info) => info.text("x", false),
            Err(_) => panic!("this is a recording"),
        }
    }

    #[test]
    fn the_sample_is_described() {
        let text = text(packet_file::write(&sample::packets()));
        assert!(text.contains("  picture   320 x 232 samples\n"), "{text}");
        assert!(
            text.contains("  planes    Y' 320 x 240, Cb and Cr 160 x 120 (4:2:0)"),
            "{text}"
        );
        assert!(
            text.contains("  rate      25.000 frames a second (25/1)\n"),
            "{text}"
        );
        assert!(text.contains("  length    7 frames, 0.280 s\n"), "{text}");
        assert!(
            text.contains("  memory    649.7 kB to decode it\n"),
            "{text}"
        );
        assert!(
            text.ends_with("whole: nothing is missing or damaged\n"),
            "{text}"
        );
    }

    #[test]
    fn places_of_frames_are_said() {
        let mut packets = sample::packets();
        let again = packets[3..].to_vec();
        packets.push(vec![0x80]);
        packets.extend(again);
        let file = packet_file::write(&packets);
        let all = info_with(file.clone(), Some(u64::MAX)).unwrap_or_else(|_| panic!());
        let text = all.text("x", false);
        for line in [
            "  frame 0: packet 3, key frame 1 and 0 since, at 0.000000 s\n",
            "  frame 6: packet 9, key frame 1 and 6 since, at 0.240000 s\n",
            "  frame 7: packet 11, key frame 2 and 0 since, at 0.320000 s\n",
            "x: stream 1: packet 10: refused by 10, the first bit of a frame packet is 1, at bit 0 of 8\n",
        ] {
            assert!(text.contains(line), "{text}");
        }
        assert!(!all.is_clean());
        let json = all.json("x").to_string();
        let last = "{\"frame\": 13, \"packet\": 17, \"key_frame\": 2, \"since\": 6, \"time_s\": 0.560000}]";
        assert!(json.contains(last), "{json}");
        let small = info_with(file, Some(600_000)).unwrap_or_else(|_| panic!());
        let text = small.text("x", false);
        assert!(
            text.contains("need 649.7 kB of memory, more than"),
            "{text}"
        );
    }

    #[test]
    fn a_header_alone_is_described() {
        let header = sample::identification_header();
        let text = text(header.clone());
        assert!(
            text.starts_with("x: identification header alone, 0 bytes\nstream 1: Theora 3.2.1\n"),
            "{text}"
        );
        for length in 7..42 {
            let info = info(header[..length].to_vec()).unwrap_or_else(|_| panic!("{length}"));
            assert!(!info.is_clean());
            let faults = info.faults("x");
            assert!(
                faults.contains("identification header: refused by 4, "),
                "{faults}"
            );
            let end = format!(" of {}\n", 8 * length);
            assert!(faults.ends_with(&end), "{faults}");
        }
    }

    #[test]
    fn other_ogg_streams_are_no_theora() {
        let file = ogg::write(3, &[(b"\x01vorbis".to_vec(), 0)]).unwrap();
        let text = text(file);
        assert!(
            text.contains("beside it: Vorbis sound (serial 3)\n"),
            "{text}"
        );
        assert!(text.contains("x: there is no Theora stream\n"), "{text}");
    }

    #[test]
    fn ogg_files_that_are_cut_or_stop_early_are_not_clean() {
        let file = sample::ogg_file().unwrap();
        assert!(info(file.clone()).is_ok_and(|info| info.is_clean()));
        for length in (4..file.len()).step_by(97) {
            assert!(
                info(file[..length].to_vec()).is_ok_and(|info| !info.is_clean()),
                "{length}"
            );
        }
        let short = ogg::write(3, &[(sample::identification_header(), 0)]).unwrap();
        assert!(text(short).contains("stream 1: it ends before its first frame"));
    }
}
