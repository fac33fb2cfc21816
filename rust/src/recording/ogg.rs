//! Ogg files: the packets of a recording's Theora streams, and recordings of
//! one stream. The framing is libogg's.

use super::kind::{HEADER, holds};
use super::libogg::{Next, PacketFinder, Page, PageFinder, PageWriter};
use super::part::{self, End, Gap, GapKind, Granule, Packet, Part};
use super::{Choice, Fault};
use std::collections::{BTreeMap, VecDeque};
use std::io::{ErrorKind, Read};
use std::ops::Range;

/// How many bytes are read at once. No page is longer.
const CHUNK: usize = 1 << 16;

/// What stands in a file, one after the other.
enum Found {
    /// A page, and its byte place.
    Page(Page, u64),
    /// These bytes are no whole page.
    NoPage(Range<u64>),
}

/// The pages of a recording, one after the other.
struct Pages<R> {
    reader: R,
    finder: PageFinder,
    /// The byte place of what comes next.
    place: u64,
    /// How many bytes were read.
    read: u64,
    /// Whether all bytes were read, and others put behind them, so that libogg
    /// waits for none.
    padded: bool,
    chunk: Vec<u8>,
}

impl<R: Read> Pages<R> {
    fn new(reader: R) -> Result<Pages<R>, Fault> {
        Ok(Pages {
            reader,
            finder: PageFinder::new().map_err(Fault::NoLibrary)?,
            place: 0,
            read: 0,
            padded: false,
            chunk: vec![0; CHUNK],
        })
    }

    /// The next page, or what stands in its place; none at the end.
    fn next(&mut self) -> Result<Option<Found>, Fault> {
        while !(self.padded && self.place >= self.read) {
            match self.finder.next() {
                Next::Page(page) if self.place + page.length() <= self.read => {
                    let place = self.place;
                    self.place += page.length();
                    return Ok(Some(Found::Page(page, place)));
                }
                // It reaches past the recording's end.
                Next::Page(page) => return Ok(Some(self.no_page(page.length()))),
                Next::NoPage(length) => return Ok(Some(self.no_page(length))),
                Next::Open => self.read_on()?,
            }
        }
        Ok(None)
    }

    /// Passes over so many bytes.
    fn no_page(&mut self, length: u64) -> Found {
        let place = self.place;
        self.place += length;
        Found::NoPage(place..self.place.min(self.read))
    }

    /// Reads some more bytes. Behind the last come others, once.
    fn read_on(&mut self) -> Result<(), Fault> {
        let count = loop {
            match self.reader.read(&mut self.chunk) {
                Err(error) if error.kind() == ErrorKind::Interrupted => {}
                read => break read.map_err(Fault::Read)?,
            }
        };
        if count == 0 {
            self.padded = true;
            self.finder.take(&[0; CHUNK]);
        }
        self.finder.take(&self.chunk[..count]);
        self.read += count as u64;
        Ok(())
    }
}

/// A Theora stream that is being read.
struct Reading {
    number: u64,
    packets: PacketFinder,
    /// The number of the page that comes next.
    next: u32,
    /// Whether a packet goes on in that page.
    open: bool,
}

impl Reading {
    /// A stream from its beginning.
    fn new(number: u64, first: &Page) -> Result<Reading, Fault> {
        Ok(Reading {
            number,
            packets: PacketFinder::new(first.serial()).map_err(Fault::NoLibrary)?,
            next: first.number(),
            open: false,
        })
    }

    /// What is wrong with a page of this stream, if something is.
    fn gap(&self, page: &Page) -> Option<GapKind> {
        let missing = page.number().wrapping_sub(self.next);
        match missing as i32 {
            0 if page.is_continued() == self.open => None,
            0 => Some(GapKind::Torn(page.number())),
            1.. => Some(GapKind::Missing(self.next, missing)),
            _ => Some(GapKind::Repeated(page.number())),
        }
    }

    /// Takes in a page of this stream; gives the packets that end on it.
    fn take(&mut self, page: &Page) -> Vec<Part> {
        self.next = page.number().wrapping_add(1);
        self.open = page.is_open().unwrap_or(self.open);
        let packets = self.packets.take(page);
        let count = packets.len() as u64;
        let granule = |number: u64| {
            Some(Granule {
                position: page.granule()?,
                behind: count - 1 - number,
            })
        };
        let numbered = (0..).zip(packets);
        numbered
            .map(|(number, bytes)| {
                Part::Packet(Packet {
                    stream: self.number,
                    bytes,
                    granule: granule(number),
                })
            })
            .collect()
    }

    /// The stream ends at this byte; its last page may say so.
    fn end(&self, said: bool, place: u64) -> Part {
        let end = match (self.open, said) {
            (true, _) => End::InPacket(place),
            (false, true) => End::Whole,
            (false, false) => End::NoLastPage,
        };
        Part::End {
            stream: self.number,
            end,
        }
    }
}

/// What becomes of the pages of a stream.
enum Role {
    /// They are read.
    Read(Box<Reading>),
    /// They are not wanted.
    Other,
    /// There should be no more of them.
    Ended,
}

/// Gives the parts of an Ogg file, one by one. After a fault there are no more.
pub struct Parts<R> {
    pages: Pages<R>,
    choice: Choice,
    /// What is given before the next page is read.
    queue: VecDeque<Part>,
    /// The streams that are there side by side, by their serial numbers.
    roles: BTreeMap<u32, Role>,
    /// Whether their first pages were read. Another first page begins other
    /// streams, behind the end of these.
    begun: bool,
    /// How many Theora streams began.
    streams: u64,
    /// Pages of streams that did not begin or have ended.
    strays: BTreeMap<u32, u64>,
    done: bool,
}

impl<R: Read> Parts<R> {
    /// Reads a recording from its beginning.
    ///
    /// # Errors
    ///
    /// libogg cannot be had.
    pub fn new(reader: R, choice: Choice) -> Result<Parts<R>, Fault> {
        Ok(Parts {
            pages: Pages::new(reader)?,
            choice,
            queue: VecDeque::new(),
            roles: BTreeMap::new(),
            begun: false,
            streams: 0,
            strays: BTreeMap::new(),
            done: false,
        })
    }

    /// Reads the next page.
    fn advance(&mut self) -> Result<(), Fault> {
        match self.pages.next()? {
            // libogg takes no other version: such a page is none.
            Some(Found::Page(page, place)) if page.version() != 0 => {
                self.no_page(place..place + page.length());
            }
            Some(Found::Page(page, place)) if page.is_first() => self.first(&page, place)?,
            Some(Found::Page(page, place)) => self.later(&page, place),
            Some(Found::NoPage(bytes)) => self.no_page(bytes),
            None => self.finish(),
        }
        Ok(())
    }

    /// These bytes are no page. They go on with those before them.
    fn no_page(&mut self, bytes: Range<u64>) {
        match self.queue.back_mut() {
            Some(Part::NoPage(before)) if before.end == bytes.start => before.end = bytes.end,
            _ => self.queue.push_back(Part::NoPage(bytes)),
        }
    }

    /// The first page of a stream.
    fn first(&mut self, page: &Page, place: u64) -> Result<(), Fault> {
        if self.begun {
            self.end_all(place);
            self.begun = false;
        }
        let role = match page.body().starts_with(HEADER) {
            true => self.theora(page)?,
            false => {
                self.queue.push_back(Part::Other {
                    serial: page.serial(),
                    holds: holds(page.body()),
                });
                Role::Other
            }
        };
        self.roles.insert(page.serial(), role);
        self.take(page, place);
        Ok(())
    }

    /// A Theora stream begins.
    fn theora(&mut self, first: &Page) -> Result<Role, Fault> {
        self.streams += 1;
        let stream = part::Stream {
            number: self.streams,
            serial: Some(first.serial()),
        };
        let is_read = match self.choice {
            Choice::All => true,
            Choice::One(number) => number == self.streams,
            Choice::Joined => !self
                .roles
                .values()
                .any(|role| matches!(role, Role::Read(_))),
        };
        if !is_read {
            self.queue.push_back(Part::Beside(stream));
            return Ok(Role::Other);
        }
        self.queue.push_back(Part::Begin(stream));
        Ok(Role::Read(Box::new(Reading::new(self.streams, first)?)))
    }

    /// A page that is not its stream's first.
    fn later(&mut self, page: &Page, place: u64) {
        self.begun = true;
        match self.roles.get(&page.serial()) {
            Some(Role::Read(_)) => self.take(page, place),
            Some(Role::Other) => {}
            Some(Role::Ended) | None => *self.strays.entry(page.serial()).or_default() += 1,
        }
    }

    /// Takes in a page, if its stream is read.
    fn take(&mut self, page: &Page, place: u64) {
        let Some(Role::Read(stream)) = self.roles.get_mut(&page.serial()) else {
            return;
        };
        if let Some(kind) = stream.gap(page) {
            let gap = Gap {
                stream: stream.number,
                place,
                kind,
            };
            let loses_packets = gap.loses_packets();
            self.queue.push_back(Part::Gap(gap));
            if !loses_packets {
                return;
            }
            stream.packets.forget();
        }
        self.queue.extend(stream.take(page));
        if page.is_last() {
            self.queue.push_back(stream.end(true, self.pages.place));
            self.roles.insert(page.serial(), Role::Ended);
        }
    }

    /// All streams that are read end at this byte.
    fn end_all(&mut self, place: u64) {
        for role in std::mem::take(&mut self.roles).into_values() {
            if let Role::Read(stream) = role {
                self.queue.push_back(stream.end(false, place));
            }
        }
    }

    /// There are no more pages.
    fn finish(&mut self) {
        self.end_all(self.pages.read);
        for (serial, pages) in std::mem::take(&mut self.strays) {
            self.queue.push_back(Part::Stray { serial, pages });
        }
        self.done = true;
    }

    /// Whether the next part is there and later bytes do not change it.
    fn is_settled(&self) -> bool {
        match self.queue.front() {
            Some(Part::NoPage(_)) => self.queue.len() > 1 || self.done,
            Some(_) => true,
            None => self.done,
        }
    }
}

impl<R: Read> Iterator for Parts<R> {
    type Item = Result<Part, Fault>;

    fn next(&mut self) -> Option<Self::Item> {
        while !self.is_settled() {
            if let Err(fault) = self.advance() {
                self.queue.clear();
                self.done = true;
                return Some(Err(fault));
            }
        }
        self.queue.pop_front().map(Ok)
    }
}

/// A recording of one logical stream: its packets, each with the granule
/// position of the page that it ends on. Every packet begins a page.
///
/// # Errors
///
/// libogg cannot be had.
pub fn write(serial: u32, packets: &[(Vec<u8>, u64)]) -> Result<Vec<u8>, Fault> {
    Ok(pages(serial, packets)?.concat())
}

/// The pages of such a recording.
///
/// # Errors
///
/// libogg cannot be had.
pub fn pages(serial: u32, packets: &[(Vec<u8>, u64)]) -> Result<Vec<Vec<u8>>, Fault> {
    let mut writer = PageWriter::new(serial).map_err(Fault::NoLibrary)?;
    let mut pages = Vec::new();
    for (i, (packet, granule)) in packets.iter().enumerate() {
        let last = i + 1 == packets.len();
        pages.extend(
            writer
                .packet(packet, *granule, last)
                .iter()
                .map(Page::bytes),
        );
    }
    Ok(pages)
}

#[cfg(test)]
mod tests;
