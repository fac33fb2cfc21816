//! What is made of decoded frames: films, planes, a picture, hashes.

use crate::clock::Time;
use crate::cut::Cut;
use crate::interrupt::begun;
use crate::json::Json;
use crate::layout;
use crate::look::Look;
use crate::target::{Target, Temporary, is_standard, resolved, said};
use crate::tiles::Tiles;
use recording::hash::hash;
use std::fs::{self, File};
use std::io::{ErrorKind, Write};
use std::path::{Path, PathBuf};
use wedgepetal::{FilmWriter, Frame, FrameAnswer, Kind, Player, Refusal, Session};

/// Why an output takes no more.
#[derive(Debug)]
pub enum Trouble {
    /// It cannot be written.
    Failed(String),
    /// It has no place for the frames of this stream.
    Unfit(String),
}

impl From<String> for Trouble {
    fn from(text: String) -> Trouble {
        Trouble::Failed(text)
    }
}

/// The answer to a packet.
pub struct Answer<'a> {
    /// The number of the packet in its stream, from 0.
    pub packet: u64,
    /// The number of the frame if there is one, from 0.
    pub number: u64,
    /// What the decoder answers.
    pub answer: Result<FrameAnswer, Refusal>,
    /// Who has decoded it.
    pub player: &'a Player,
    /// When it is shown.
    pub time: Time,
}

impl<'a> Answer<'a> {
    /// The frame, if the packet was accepted.
    pub fn frame(&self) -> Option<Frame<'a>> {
        self.answer.ok().and_then(|_| self.player.frame())
    }
}

/// What is made of decoded frames.
pub enum Output {
    /// The whole frames as a stream, by the library's proved writer, which is
    /// there once the first line is written.
    Film(Target, Option<FilmWriter>),
    /// The picture regions, one after the other, and the line before the first.
    Cut(Target, Option<String>),
    /// A folder with a file for each frame.
    Frames(Folder),
    /// A line for each packet.
    Hashes(Target),
    /// The frame with this number, until it is there, and how it is shown.
    Picture(Target, Option<u64>, Look),
    /// Which tiles changed.
    Tiles(Box<Tiles>),
}

impl Output {
    /// The frames of a stream follow.
    pub fn begin(&mut self, stream: u64, player: &Player) -> Result<(), Trouble> {
        match self {
            Output::Film(target, film) => begin_film(target, film, player),
            Output::Cut(target, line) => begin_cut(target, line, player),
            Output::Frames(folder) => Ok(folder.begin(stream, player)?),
            Output::Hashes(target) => {
                open_once(target)?;
                Ok(target.write(|out| writeln!(out, "stream {stream}"))?)
            }
            Output::Picture(..) => Ok(()),
            Output::Tiles(tiles) => tiles.begin(stream, player),
        }
    }

    /// Decodes a packet.
    ///
    /// # Errors
    ///
    /// As [`Player::decode`].
    pub fn decode(&mut self, player: &mut Player, packet: &[u8]) -> Result<FrameAnswer, Refusal> {
        match self {
            Output::Tiles(tiles) => tiles.decode(player, packet),
            _ => player.decode(packet),
        }
    }

    /// Takes the answer to a packet.
    pub fn take(&mut self, answer: &Answer<'_>) -> Result<(), Trouble> {
        let frame = answer.frame();
        match (self, frame) {
            (Output::Hashes(target), _) => {
                let line = hash_line(answer);
                target.write(|out| out.write_all(line.as_bytes()))?;
            }
            (Output::Tiles(tiles), _) => tiles.take(answer)?,
            (Output::Frames(folder), Some(frame)) => folder.write(answer.number, frame)?,
            (Output::Film(target, Some(film)), Some(frame)) => {
                let refused = |refusal: Refusal| Trouble::Unfit(refusal.to_string());
                let bytes = film.frame(frame.bytes()).map_err(refused)?;
                target.write(|out| out.write_all(bytes))?;
            }
            (Output::Cut(target, _), Some(frame)) => {
                let cut = Cut::of(answer.player.session()).map_err(Trouble::Unfit)?;
                target.write(|out| cut.write_frame(out, frame))?;
            }
            (Output::Picture(target, wanted, look), Some(frame))
                if *wanted == Some(answer.number) =>
            {
                look.write(target, answer.player.session(), frame)?;
                *wanted = None;
            }
            _ => {}
        }
        Ok(())
    }

    /// Whether it needs no more frames.
    pub fn is_done(&self) -> bool {
        matches!(self, Output::Picture(_, None, _))
    }

    /// The frame that was wanted and did not come.
    pub fn missing(&self) -> Option<u64> {
        match self {
            Output::Picture(_, wanted, _) => *wanted,
            _ => None,
        }
    }

    /// Whether it has no reader any more.
    pub fn is_unread(&self) -> bool {
        self.target().is_some_and(Target::is_unread)
    }

    /// Whether it goes to the standard output.
    pub fn is_standard(&self) -> bool {
        self.target().is_some_and(Target::is_standard)
    }

    /// How many bytes of memory it takes beside the player of a session.
    ///
    /// # Errors
    ///
    /// Number 8, as for every call on a session.
    pub fn memory(&self, session: &Session) -> Result<u64, Refusal> {
        match self {
            Output::Film(..) => FilmWriter::memory(session),
            _ => Ok(0),
        }
    }

    /// What it has to say of the frames, in words and as JSON.
    pub fn said(&self) -> Option<(String, Json)> {
        match self {
            Output::Tiles(tiles) => Some(tiles.said()),
            _ => None,
        }
    }

    fn target(&self) -> Option<&Target> {
        match self {
            Output::Film(target, _)
            | Output::Cut(target, _)
            | Output::Hashes(target)
            | Output::Picture(target, ..) => Some(target),
            Output::Tiles(tiles) => tiles.table(),
            Output::Frames(_) => None,
        }
    }

    fn target_mut(&mut self) -> Option<&mut Target> {
        match self {
            Output::Film(target, _)
            | Output::Cut(target, _)
            | Output::Hashes(target)
            | Output::Picture(target, ..) => Some(target),
            Output::Frames(_) | Output::Tiles(_) => None,
        }
    }

    /// Writes what is still held back of a recording of this name.
    pub fn flush(&mut self, name: &str) -> Result<(), String> {
        match self {
            Output::Tiles(tiles) => tiles.flush(name),
            _ => self.target_mut().map_or(Ok(()), Target::flush),
        }
    }

    /// All is written: it takes its own name.
    pub fn finish(&mut self) -> Result<(), String> {
        match self {
            Output::Frames(folder) => folder.finish(),
            Output::Tiles(tiles) => tiles.finish(),
            _ => self.target_mut().map_or(Ok(()), Target::finish),
        }
    }
}

/// Opens an output that is not open yet.
fn open_once(target: &mut Target) -> Result<(), String> {
    match target.is_planned() {
        true => target.open(),
        false => Ok(()),
    }
}

/// Begins a film, or goes on with one whose first line is the same.
fn begin_film(
    target: &mut Target,
    film: &mut Option<FilmWriter>,
    player: &Player,
) -> Result<(), Trouble> {
    let next = FilmWriter::new(player.session()).map_err(|why| Trouble::Unfit(why.to_string()))?;
    match film {
        Some(film) if film.header() == next.header() => Ok(()),
        Some(_) => Err(no_way_on(&String::from_utf8_lossy(next.header()))),
        None => {
            target.open()?;
            target.write(|out| out.write_all(next.header()))?;
            *film = Some(next);
            Ok(())
        }
    }
}

/// A film has one first line, and this is another.
fn no_way_on(line: &str) -> Trouble {
    let line = line.trim_end();
    Trouble::Unfit(format!("the film cannot go on with it: {line}"))
}

/// Begins a film of pictures, or goes on with one whose first line is the same.
fn begin_cut(
    target: &mut Target,
    line: &mut Option<String>,
    player: &Player,
) -> Result<(), Trouble> {
    let cut = Cut::of(player.session()).map_err(Trouble::Unfit)?;
    let wanted = cut.header();
    match line {
        Some(line) if *line == wanted => Ok(()),
        Some(_) => Err(no_way_on(&wanted)),
        None => {
            target.open()?;
            target.write(|out| out.write_all(wanted.as_bytes()))?;
            *line = Some(wanted);
            Ok(())
        }
    }
}

/// The line of a packet, as the texts of test streams have it; a refusal with
/// its number and bit place.
fn hash_line(answer: &Answer<'_>) -> String {
    let packet = answer.packet;
    match (answer.answer, answer.frame()) {
        (Ok(accepted), Some(frame)) => {
            let qis = match accepted.kind {
                Kind::Repeat => "-".to_string(),
                _ => qi_list(&accepted, ","),
            };
            let kind = kind_name(accepted.kind);
            format!("frame {packet} {kind} {qis} {:016x}\n", hash(frame.bytes()))
        }
        (Err(Refusal { number, place }), _) => {
            format!("frame {packet} refused {number} at {place}\n")
        }
        (Ok(_), None) => unreachable!("an accepted packet gives a frame"),
    }
}

/// The name of a kind.
pub fn kind_name(kind: Kind) -> &'static str {
    match kind {
        Kind::Intra => "intra",
        Kind::Inter => "inter",
        Kind::Repeat => "repeat",
    }
}

/// The qi list of a frame.
pub fn qi_list(answer: &FrameAnswer, between: &str) -> String {
    let qis: Vec<String> = answer.qis().iter().map(u8::to_string).collect();
    qis.join(between)
}

/// A folder with a file for each frame. It has a temporary name until it is
/// whole.
pub struct Folder {
    path: PathBuf,
    temporary: Option<Temporary>,
    /// Where the frames of the present stream go.
    place: PathBuf,
}

impl Folder {
    /// Plans a folder.
    ///
    /// # Errors
    ///
    /// Something is there, and is no empty folder.
    pub fn plan(path: &Path) -> Result<Folder, String> {
        if is_standard(path) {
            return Err(said(path, "frames go into a folder"));
        }
        match fs::read_dir(path).map(Iterator::count) {
            Err(_) if path.is_symlink() => Err(said(path, "is a link that leads to no folder")),
            Ok(1..) => Err(said(
                path,
                "is not empty; frames go into a new or empty folder",
            )),
            Err(error) if error.kind() != ErrorKind::NotFound => Err(said(path, error)),
            _ => Ok(Folder {
                path: resolved(path),
                temporary: None,
                place: PathBuf::new(),
            }),
        }
    }

    /// The frames of a stream follow, in a folder of their own behind the first.
    fn begin(&mut self, stream: u64, player: &Player) -> Result<(), String> {
        let failed = |error| said(&self.path, error);
        self.place = match &self.temporary {
            None => {
                let temporary = Temporary::folder(&self.path).map_err(failed)?;
                let place = temporary.path().to_path_buf();
                self.temporary = Some(temporary);
                place
            }
            Some(temporary) => {
                let place = temporary.path().join(format!("stream-{stream}"));
                fs::create_dir(&place).map_err(failed)?;
                place
            }
        };
        self.write_file("layout.txt", layout::layout(player).as_bytes())
    }

    /// Writes a frame.
    fn write(&self, number: u64, frame: Frame<'_>) -> Result<(), String> {
        self.write_file(&format!("{number:06}.planes"), frame.bytes())
    }

    fn write_file(&self, name: &str, bytes: &[u8]) -> Result<(), String> {
        let _held = begun();
        File::create_new(self.place.join(name))
            .and_then(|mut file| file.write_all(bytes))
            .map_err(|error| said(&self.path.join(name), error))
    }

    /// All is written.
    fn finish(&mut self) -> Result<(), String> {
        match self.temporary.take() {
            Some(temporary) => temporary.rename(&self.path, true),
            None => Ok(()),
        }
    }
}
