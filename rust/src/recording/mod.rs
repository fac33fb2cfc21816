//! Recordings as sequences of packets: Ogg files, read through Debian's libogg,
//! and plain packet files.
//!
//! [`packets`] gives all packets of a sound recording, [`Parts`] whatever there
//! is, one by one: streams that begin and end, packets, gaps, bytes that are no
//! page. Nothing here is proved, and nothing here decodes.
//!
//! ```no_run
//! use std::fs::File;
//! use wedgepetal::{Player, identification, recording, setup};
//!
//! # fn main() -> Result<(), Box<dyn std::error::Error>> {
//! let packets = recording::packets(File::open("shot.ogv")?)?;
//! let mut player = Player::new(identification(&packets[0])?, setup(&packets[2])?)?;
//! for frame in player.frames(&packets[3..]) {
//!     println!("{:?}", frame?.kind());
//! }
//! # Ok(())
//! # }
//! ```

pub mod kind;
mod libogg;
pub mod ogg;
pub mod packet_file;
pub mod part;

use kind::{Kind, LOOKED_AT};
use part::{End, Part};
use std::error::Error;
use std::fmt;
use std::io::{self, Chain, Cursor, Read};

/// Why a recording gives nothing more.
#[derive(Debug)]
#[non_exhaustive]
pub enum Fault {
    /// Why libogg cannot be had.
    NoLibrary(String),
    /// It could not be read.
    Read(io::Error),
    /// It is no recording, but this.
    NoRecording(&'static str),
    /// It is damaged, and all of it is wanted.
    Damaged(String),
}

impl fmt::Display for Fault {
    fn fmt(&self, f: &mut fmt::Formatter<'_>) -> fmt::Result {
        match self {
            Fault::NoLibrary(why) => write!(f, "{why}"),
            Fault::Read(error) => write!(f, "cannot be read: {error}"),
            Fault::NoRecording(what) => write!(f, "no Ogg file and no packet file, but {what}"),
            Fault::Damaged(text) => write!(f, "{text}"),
        }
    }
}

impl Error for Fault {
    fn source(&self) -> Option<&(dyn Error + 'static)> {
        match self {
            Fault::Read(error) => Some(error),
            _ => None,
        }
    }
}

impl Fault {
    /// Whether the recording could not be read, rather than being refused.
    pub fn is_read_error(&self) -> bool {
        matches!(self, Fault::Read(_) | Fault::NoLibrary(_))
    }
}

/// Which Theora streams of a recording are read.
#[derive(Clone, Copy, Debug, PartialEq, Eq)]
pub enum Choice {
    /// The first, and each that begins behind the end of the one before.
    Joined,
    /// The one with this number.
    One(u64),
    /// All.
    All,
}

/// A recording whose first bytes were looked at.
type Begun<R> = Chain<Cursor<Vec<u8>>, R>;

/// Gives the parts of a recording, one by one. After a fault there are no more.
pub enum Parts<R> {
    /// Those of an Ogg file.
    Ogg(Box<ogg::Parts<Begun<R>>>),
    /// Those of a packet file.
    PacketFile(packet_file::Parts<Begun<R>>),
    /// An identification header alone, which is the only packet.
    Header(packet_file::Parts<Cursor<Vec<u8>>>),
}

/// How many bytes of a header alone are read. It has 42, and what follows them
/// is ignored.
const HEADER_BYTES: u64 = 4096;

impl<R: Read> Parts<R> {
    /// Reads a recording from its beginning.
    ///
    /// # Errors
    ///
    /// The recording cannot be read or is none, or it is an Ogg file and libogg
    /// cannot be had.
    pub fn new(mut recording: R, choice: Choice) -> Result<Parts<R>, Fault> {
        let mut first = Vec::new();
        let mut beginning = recording.by_ref().take(LOOKED_AT as u64);
        beginning.read_to_end(&mut first).map_err(Fault::Read)?;
        let kind = kind::kind(&first).map_err(Fault::NoRecording)?;
        let begun = Cursor::new(first).chain(recording);
        Ok(match kind {
            Kind::Ogg => Parts::Ogg(Box::new(ogg::Parts::new(begun, choice)?)),
            Kind::PacketFile => Parts::PacketFile(packet_file::Parts::new(begun, choice)),
            Kind::Header => {
                let mut header = Vec::new();
                let mut all = begun.take(HEADER_BYTES);
                all.read_to_end(&mut header).map_err(Fault::Read)?;
                let file = Cursor::new(packet_file::write(&[header]));
                Parts::Header(packet_file::Parts::new(file, choice))
            }
        })
    }

    /// What kind of recording it is.
    pub fn kind(&self) -> Kind {
        match self {
            Parts::Ogg(_) => Kind::Ogg,
            Parts::PacketFile(_) => Kind::PacketFile,
            Parts::Header(_) => Kind::Header,
        }
    }
}

impl<R: Read> Iterator for Parts<R> {
    type Item = Result<Part, Fault>;

    fn next(&mut self) -> Option<Self::Item> {
        match self {
            Parts::Ogg(parts) => parts.next(),
            Parts::PacketFile(parts) => parts.next(),
            Parts::Header(parts) => parts.next(),
        }
    }
}

/// All packets of a recording's first Theora stream.
///
/// # Errors
///
/// The recording is none, is damaged, or has a second Theora stream.
pub fn packets(recording: impl Read) -> Result<Vec<Vec<u8>>, Fault> {
    let mut packets = Vec::new();
    for part in Parts::new(recording, Choice::Joined)? {
        match part? {
            Part::Packet(packet) => packets.push(packet.bytes),
            Part::Gap(gap) => return Err(Fault::Damaged(gap.to_string())),
            Part::NoPage(bytes) => {
                let text = format!(
                    "bytes {} to {} are no whole page",
                    bytes.start,
                    bytes.end - 1
                );
                return Err(Fault::Damaged(text));
            }
            Part::End {
                end: end @ End::InPacket(_),
                ..
            } => return Err(Fault::Damaged(end.to_string())),
            Part::Begin(stream) | Part::Beside(stream) if stream.number > 1 => {
                return Err(Fault::Damaged("it has a second Theora stream".to_string()));
            }
            _ => {}
        }
    }
    Ok(packets)
}

#[cfg(test)]
mod tests {
    use super::*;

    #[test]
    fn ogg_files_are_read() {
        let wanted = [b"\x80theora".to_vec()];
        let file = ogg::write(1, &[(wanted[0].clone(), 0)]).unwrap();
        assert_eq!(packets(&file[..]).unwrap(), wanted);
        let twice = [&file[..], &file].concat();
        assert!(packets(&twice[..]).is_err());
    }

    #[test]
    fn packet_files_are_read() {
        let wanted = [b"\x80theora".to_vec(), Vec::new()];
        let file = packet_file::write(&wanted);
        assert_eq!(packets(&file[..]).unwrap(), wanted);
        assert!(packets(&file[..file.len() - 1]).is_err());
    }

    #[test]
    fn a_header_alone_is_one_packet() {
        assert_eq!(packets(&b"\x80theora"[..]).unwrap(), [b"\x80theora"]);
    }

    #[test]
    fn other_files_are_none() {
        for file in [&b"RIFF"[..], b"", b"Og"] {
            let fault = packets(file).unwrap_err();
            assert!(matches!(fault, Fault::NoRecording(_)) && !fault.is_read_error());
        }
    }
}
