//! What a recording gives, one after the other.

use std::fmt;
use std::ops::Range;

/// A part of a recording. Streams are numbered from 1, in the order in which
/// they begin; only Theora streams have a number.
#[derive(Debug, PartialEq, Eq)]
pub enum Part {
    /// A Theora stream begins that is read.
    Begin(Stream),
    /// A Theora stream begins that is not read: another is read here, or was
    /// chosen.
    Beside(Stream),
    /// A stream of another kind begins.
    Other {
        /// Its serial number.
        serial: u32,
        /// What it holds.
        holds: &'static str,
    },
    /// The next packet of a stream.
    Packet(Packet),
    /// A stream does not go on as it should.
    Gap(Gap),
    /// A stream ends.
    End {
        /// The stream.
        stream: u64,
        /// How it ends.
        end: End,
    },
    /// These bytes are no whole page, as damaged and cut pages are.
    NoPage(Range<u64>),
    /// Pages, so many, of a stream that did not begin or has ended.
    Stray {
        /// The serial number of the stream.
        serial: u32,
        /// How many.
        pages: u64,
    },
}

/// A Theora stream that begins.
#[derive(Clone, Debug, PartialEq, Eq)]
pub struct Stream {
    /// Its number.
    pub number: u64,
    /// Its serial number in an Ogg file.
    pub serial: Option<u32>,
}

/// A packet of a stream.
#[derive(Debug, PartialEq, Eq)]
pub struct Packet {
    /// The stream.
    pub stream: u64,
    /// Its bytes.
    pub bytes: Vec<u8>,
    /// Where its page places it in time.
    pub granule: Option<Granule>,
}

/// The place of a packet in time.
#[derive(Clone, Copy, Debug, PartialEq, Eq)]
pub struct Granule {
    /// The granule position of the last packet that ends on the page.
    pub position: u64,
    /// How many packets end on the page behind this one.
    pub behind: u64,
}

/// A stream does not go on as it should.
#[derive(Clone, Debug, PartialEq, Eq)]
pub struct Gap {
    /// The stream.
    pub stream: u64,
    /// The byte place of the page that should not come here.
    pub place: u64,
    /// What is wrong with the page.
    pub kind: GapKind,
}

/// What is wrong with a page that should not come here.
#[derive(Clone, Debug, PartialEq, Eq)]
pub enum GapKind {
    /// Pages are missing before it: the first of them, and how many.
    Missing(u32, u32),
    /// It does not go on with the packet that the page before it left open, or
    /// goes on with one that is not open. The page's number.
    Torn(u32),
    /// It was read already, or is late. It is passed over. The page's number.
    Repeated(u32),
}

impl Gap {
    /// Whether packets are lost in it.
    pub fn loses_packets(&self) -> bool {
        !matches!(self.kind, GapKind::Repeated(_))
    }
}

impl fmt::Display for Gap {
    fn fmt(&self, f: &mut fmt::Formatter<'_>) -> fmt::Result {
        match self.kind {
            GapKind::Missing(page, 1) => write!(f, "page {page} is damaged or missing")?,
            GapKind::Missing(first, count) => {
                let last = first.wrapping_add(count - 1);
                write!(f, "pages {first} to {last} are damaged or missing")?;
            }
            GapKind::Torn(page) => {
                write!(f, "page {page} does not go on where the one before it ends")?;
            }
            GapKind::Repeated(page) => write!(f, "page {page} comes again or too late")?,
        }
        match self.kind {
            GapKind::Missing(..) => write!(f, ", before byte {}", self.place),
            _ => write!(f, ", at byte {}", self.place),
        }
    }
}

/// How a stream ends.
#[derive(Clone, Debug, PartialEq, Eq)]
pub enum End {
    /// As its last page says.
    Whole,
    /// Without a last page.
    NoLastPage,
    /// Inside a packet, at or behind this byte.
    InPacket(u64),
}

impl fmt::Display for End {
    fn fmt(&self, f: &mut fmt::Formatter<'_>) -> fmt::Result {
        match self {
            End::Whole => write!(f, "whole"),
            End::NoLastPage => write!(f, "cut short: its last page is not there"),
            End::InPacket(place) => write!(f, "cut short inside a packet, at byte {place}"),
        }
    }
}
