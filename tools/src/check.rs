//! `wedgepetal check`: another decoder's stream of a recording's frames. The
//! library's proved call decides; where that finds a difference, this module
//! finds words for it.

use crate::Failure;
use crate::input::Input;
use crate::json::Json;
use crate::memory::Limit;
use crate::whole;
use recording::Choice;
use wedgepetal::{Player, Refusal, Refused, Session, Unplayable, grouped, identification, setup};

/// What a check says of a file.
pub struct Checked {
    recording: String,
    /// How many frames the recording has, and how many bytes the file.
    frames: u64,
    bytes: u64,
    outcome: Outcome,
    /// What is not as it should be, but loses nothing.
    note: Option<String>,
}

enum Outcome {
    Passes,
    Differs(u64, Difference),
    Refused(Refused),
}

/// What stands at the first byte that differs.
#[derive(Debug, PartialEq, Eq)]
enum Difference {
    /// The first line is another.
    Header { found: String, wanted: String },
    /// The line before a frame is another.
    Line { frame: u64, found: String },
    /// A sample is another.
    Sample(Sample),
    /// The file ends inside a frame, or before it.
    Short { frame: u64, missing: u64 },
    /// The file goes on behind the last frame.
    Long { more: u64 },
}

/// A sample that differs: its place, from the left and from the top.
#[derive(Debug, PartialEq, Eq)]
struct Sample {
    frame: u64,
    plane: usize,
    column: u64,
    row: u64,
    found: u8,
    wanted: u8,
}

/// Checks a file against a recording.
pub fn check(input: Input, choice: Choice, file: &[u8], limit: &Limit) -> Result<Checked, Failure> {
    let recording = input.name.clone();
    let refused = |text: String| Failure::Refused(format!("{recording}: {text}"));
    let chosen = match choice {
        Choice::Joined => Choice::All,
        choice => choice,
    };
    let mut all = whole::read(input, chosen)?;
    let stream = match all.streams.len() {
        0 => return Err(refused(all.none())),
        1 => all.streams.pop_first().expect("there is one").1,
        count => {
            return Err(refused(format!(
                "it has {count} Theora streams; --stream chooses one"
            )));
        }
    };
    if let (Some(fault), true) = (&stream.fault, stream.lost) {
        return Err(refused(format!(
            "{fault}; only a whole recording can be checked"
        )));
    }
    let packets = &stream.packets;
    let outcome = match wedgepetal::check_within(packets, file, limit.bytes()) {
        Ok(wedgepetal::Checked::Passes) => Outcome::Passes,
        Ok(wedgepetal::Checked::Differs(byte)) => {
            let found = Film::of(packets, limit).and_then(|film| film.difference(file, byte));
            Outcome::Differs(byte, found.map_err(|why| refused(why.to_string()))?)
        }
        Err(Unplayable::Packet(refused)) => Outcome::Refused(refused),
        Err(why) => return Err(refused(why.to_string())),
    };
    Ok(Checked {
        frames: packets.len().saturating_sub(3) as u64,
        bytes: file.len() as u64,
        outcome,
        note: stream.fault,
        recording,
    })
}

/// The stream of a recording whose packets are all accepted.
struct Film<'a> {
    packets: &'a [Vec<u8>],
    session: Session,
    header: Vec<u8>,
    /// The bytes of a frame and the line before it.
    frame: u64,
    limit: u64,
}

/// The line before each frame.
const LINE: &[u8] = b"FRAME\n";

impl<'a> Film<'a> {
    fn of(packets: &'a [Vec<u8>], limit: &Limit) -> Result<Film<'a>, Unplayable> {
        let session = identification(&packets[0])?;
        let mut header = vec![0; wedgepetal::FILM_HEADER_BYTES];
        let bytes = session.film_header(&mut header)?;
        header.truncate(bytes as usize);
        Ok(Film {
            packets,
            frame: LINE.len() as u64 + session.sizes()?.buffer,
            session,
            header,
            limit: limit.bytes(),
        })
    }

    /// What differs at a byte of a file.
    fn difference(&self, file: &[u8], byte: u64) -> Result<Difference, Unplayable> {
        let header = self.header.len() as u64;
        let frames = self.packets.len() as u64 - 3;
        if byte < header {
            return Ok(Difference::Header {
                found: line(file),
                wanted: line(&self.header),
            });
        }
        let (frame, at) = ((byte - header) / self.frame, (byte - header) % self.frame);
        let length = file.len() as u64;
        if frame == frames {
            return Ok(Difference::Long {
                more: length - byte,
            });
        }
        if byte == length {
            let missing = (frames - frame) * self.frame - at;
            return Ok(Difference::Short { frame, missing });
        }
        match at.checked_sub(LINE.len() as u64) {
            None => Ok(Difference::Line {
                frame,
                found: line(
                    &file[(byte - at) as usize..][..LINE.len().min((length - byte + at) as usize)],
                ),
            }),
            Some(offset) => self.sample(file[byte as usize], frame, offset),
        }
    }

    /// The sample at this byte of a frame's planes, the top row first. The frame
    /// is decoded once more to say what it should be.
    fn sample(&self, found: u8, frame: u64, offset: u64) -> Result<Difference, Unplayable> {
        let table = setup(&self.packets[2])?;
        let mut player = Player::within(self.session.clone(), table, self.limit)?;
        for packet in &self.packets[3..=3 + frame as usize] {
            player.decode(packet)?;
        }
        let planes = player.frame().expect("a packet was accepted").planes();
        let mut first = 0;
        for (number, plane) in planes.iter().enumerate() {
            let length = plane.bytes.len() as u64;
            if offset < first + length {
                let width = plane.width as u64;
                let (row, column) = ((offset - first) / width, (offset - first) % width);
                let wanted = plane.row(plane.height - 1 - row as usize)[column as usize];
                return Ok(Difference::Sample(Sample {
                    frame,
                    plane: number,
                    column,
                    row,
                    found,
                    wanted,
                }));
            }
            first += length;
        }
        unreachable!("a frame has no more bytes than its planes")
    }
}

/// The first line of these bytes without its line feed, cut to what a header may
/// have and some more.
fn line(bytes: &[u8]) -> String {
    const MOST: usize = 120;
    let line = bytes
        .split(|byte| *byte == b'\n')
        .next()
        .unwrap_or_default();
    match line.len() {
        0..=MOST => line.escape_ascii().to_string(),
        _ => format!("{}..", line[..MOST].escape_ascii()),
    }
}

impl Difference {
    fn words(&self) -> String {
        match self {
            Difference::Header { found, wanted } if found == wanted => {
                format!("the first line \"{wanted}\" is cut short")
            }
            Difference::Header { found, wanted } => {
                let whose = match found.contains(" XYSCSS=") {
                    true => " (FFmpeg writes its first line so)",
                    false => "",
                };
                format!("the first line is \"{found}\" and not \"{wanted}\"{whose}")
            }
            Difference::Line { frame, found } => {
                format!("before frame {frame} stands \"{found}\" and not \"FRAME\" and a line feed")
            }
            Difference::Sample(sample) => sample.words(),
            Difference::Short { frame, missing } => format!(
                "the file ends there, in frame {frame}: bytes missing: {}",
                grouped((*missing).into())
            ),
            Difference::Long { more } => format!(
                "the file goes on behind the last frame: bytes more: {}",
                grouped((*more).into())
            ),
        }
    }

    fn fields(&self) -> Vec<(&'static str, Json)> {
        match self {
            Difference::Header { found, wanted } => {
                vec![("found", Json::text(found)), ("wanted", Json::text(wanted))]
            }
            Difference::Line { frame, found } => vec![
                ("frame", Json::Number(*frame)),
                ("found", Json::text(found)),
                ("wanted", Json::text("FRAME")),
            ],
            Difference::Sample(sample) => vec![
                ("frame", Json::Number(sample.frame)),
                ("plane", Json::Number(sample.plane as u64)),
                ("column", Json::Number(sample.column)),
                ("row", Json::Number(sample.row)),
                ("found", Json::Number(sample.found.into())),
                ("wanted", Json::Number(sample.wanted.into())),
            ],
            Difference::Short { frame, missing } => vec![
                ("frame", Json::Number(*frame)),
                ("missing", Json::Number(*missing)),
            ],
            Difference::Long { more } => vec![("more", Json::Number(*more))],
        }
    }
}

impl Sample {
    fn words(&self) -> String {
        let plane = ["Y'", "Cb", "Cr"][self.plane];
        let Sample {
            frame,
            column,
            row,
            found,
            wanted,
            ..
        } = self;
        format!(
            "frame {frame}, {plane}, column {column}, row {row} from the top: {found} and not {wanted}"
        )
    }
}

impl Checked {
    /// Whether it passes.
    pub fn is_clean(&self) -> bool {
        matches!(self.outcome, Outcome::Passes)
    }

    /// In words, of a file of this name.
    pub fn text(&self, name: &str) -> String {
        let recording = &self.recording;
        let note = self
            .note
            .iter()
            .map(|note| format!("{recording}: {note}\n"));
        let said = match &self.outcome {
            Outcome::Passes => {
                let (frames, bytes) = (self.frames, grouped(self.bytes.into()));
                format!("{name}: passes: {frames} frames of {recording}, {bytes} bytes\n")
            }
            _ => self.faults(name),
        };
        said + &note.collect::<String>()
    }

    /// What is wrong.
    pub fn faults(&self, name: &str) -> String {
        match &self.outcome {
            Outcome::Passes => String::new(),
            Outcome::Differs(byte, difference) => {
                let byte = grouped((*byte).into());
                format!("{name}: differs at byte {byte}: {}\n", difference.words())
            }
            Outcome::Refused(refused) => format!("{}: {refused}\n", self.recording),
        }
    }

    /// As JSON.
    pub fn json(&self, name: &str) -> Json {
        let mut fields = vec![
            ("file", Json::text(name)),
            ("recording", Json::text(&self.recording)),
            ("passes", Json::Bool(self.is_clean())),
            ("frames", Json::Number(self.frames)),
            ("bytes", Json::Number(self.bytes)),
        ];
        match &self.outcome {
            Outcome::Passes => {}
            Outcome::Differs(byte, difference) => {
                fields.push(("byte", Json::Number(*byte)));
                fields.extend(difference.fields());
            }
            Outcome::Refused(Refused {
                packet, refusal, ..
            }) => {
                let Refusal { number, place } = *refusal;
                fields.push(("packet", Json::Number(*packet)));
                fields.push(("refusal", Json::Number(number.into())));
                fields.push(("bit", Json::Number(place)));
                fields.push(("meaning", Json::text(refusal.meaning())));
            }
        }
        Json::Object(fields)
    }
}
