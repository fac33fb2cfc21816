//! Frames as a YUV4MPEG2 stream, written and read.

use crate::lists::{self, FILM_NUMBERS};
use crate::session::one;
use crate::work::zeros;
use crate::{Refusal, Session, Unplayable};

/// The longest header of a stream, in bytes.
pub const FILM_HEADER_BYTES: usize = 82;

/// How many bytes stand before the planes of each frame: `FRAME` and a line feed.
const FRAME_LINE: u64 = 6;

impl Session {
    /// Writes frames, plane buffer after plane buffer, as a YUV4MPEG2 stream: a
    /// header line, and for each frame the line `FRAME` and its planes, the top
    /// row first; the whole coded frame. Answers how many bytes were written;
    /// those behind them stay. A [`FilmWriter`] does the same frame by frame.
    ///
    /// # Errors
    ///
    /// Number 8; 1 if `frames` is no whole number of plane buffers; 14 if `out`
    /// is too short. Nothing is written.
    pub fn film(&self, frames: &[u8], out: &mut [u8]) -> Result<u64, Refusal> {
        one(|written| lists::y4m_write(&self.to_list(), frames, out, written))
    }

    /// Writes the header of such a stream alone, at most [`FILM_HEADER_BYTES`].
    ///
    /// # Errors
    ///
    /// Number 8; 14 if `out` is too short. Nothing is written.
    pub fn film_header(&self, out: &mut [u8]) -> Result<u64, Refusal> {
        one(|written| lists::y4m_header(&self.to_list(), out, written))
    }

    /// Writes one frame of such a stream: 6 bytes and the planes.
    ///
    /// # Errors
    ///
    /// Number 8; 1 if `planes` has another length than a plane buffer; 14 if
    /// `out` is too short. Nothing is written.
    pub fn film_frame(&self, planes: &[u8], out: &mut [u8]) -> Result<u64, Refusal> {
        one(|written| lists::y4m_frame(&self.to_list(), planes, out, written))
    }
}

/// Writes a stream piece by piece: its header, then each frame. It holds the
/// bytes of one frame, however long the stream gets, and does not care who
/// hands it the frames.
///
/// ```
/// # fn main() -> Result<(), Box<dyn std::error::Error>> {
/// # let session = wedgepetal::Session { vrev: 1, fmbw: 1, fmbh: 1, picw: 16, pich: 16,
/// #     picx: 0, picy: 0, frn: 25, frd: 1, parn: 0, pard: 0, cs: 0, nombr: 0, qual: 0,
/// #     kfgshift: 6, pf: 0, references: false, key_frames: 0, others: 0 };
/// let mut writer = wedgepetal::FilmWriter::new(&session)?;
/// let mut file = writer.header().to_vec();
/// assert_eq!(file, b"YUV4MPEG2 W16 H16 F25:1 Ip A0:0 C420jpeg\n");
/// file.extend(writer.frame(&[128; 384])?);
/// assert_eq!(file.len(), 431);
/// # Ok(())
/// # }
/// ```
#[derive(Debug)]
pub struct FilmWriter {
    session: Session,
    header: Vec<u8>,
    /// Room for the bytes of a frame.
    room: Vec<u8>,
}

impl FilmWriter {
    /// A writer of the frames of a session.
    ///
    /// # Errors
    ///
    /// The session is refused by 8, or there is not enough memory.
    pub fn new(session: &Session) -> Result<FilmWriter, Unplayable> {
        let mut header = vec![0; FILM_HEADER_BYTES];
        let bytes = session.film_header(&mut header);
        let bytes = bytes?;
        // At most 82.
        header.truncate(bytes as usize);
        let sizes = session.sizes().map_err(Unplayable::Refused)?;
        let frame = FRAME_LINE + sizes.buffer;
        Ok(FilmWriter {
            session: session.clone(),
            header,
            room: zeros(frame).map_err(|_| Unplayable::Memory(frame))?,
        })
    }

    /// How many bytes of memory a writer of this session takes for a frame.
    ///
    /// # Errors
    ///
    /// Number 8, as for every call on a session.
    pub fn memory(session: &Session) -> Result<u64, Refusal> {
        Ok(FRAME_LINE + session.sizes()?.buffer)
    }

    /// The bytes of the header.
    pub fn header(&self) -> &[u8] {
        &self.header
    }

    /// The bytes of a frame with these planes.
    ///
    /// # Errors
    ///
    /// Number 1 if `planes` has another length than a plane buffer.
    pub fn frame(&mut self, planes: &[u8]) -> Result<&[u8], Refusal> {
        let bytes = self.session.film_frame(planes, &mut self.room)?;
        // It lies in memory.
        Ok(&self.room[..bytes as usize])
    }
}

/// What a stream holds.
#[derive(Clone, Copy, Debug, PartialEq, Eq, Hash)]
pub struct Film {
    /// The width of a frame in luma samples, a multiple of 16.
    pub width: u64,
    /// The height of a frame in luma samples, a multiple of 16.
    pub height: u64,
    /// The numerator of the frame rate.
    pub frn: u64,
    /// The denominator of the frame rate.
    pub frd: u64,
    /// The numerator of a sample's aspect ratio; 0 with a denominator of 0 if
    /// it is unknown.
    pub parn: u64,
    /// The denominator of a sample's aspect ratio.
    pub pard: u64,
    /// The pixel format: 0 is 4:2:0, 2 is 4:2:2, 3 is 4:4:4.
    pub pf: u64,
    /// How many frames.
    pub frames: u64,
}

impl Film {
    /// Reads a stream into `planes`, plane buffer after plane buffer, as
    /// [`Session::film`] takes them. Accepted are exactly the streams that it
    /// writes. Bytes of `planes` behind the frames stay.
    ///
    /// # Errors
    ///
    /// Number 21 for any other stream, then 14 if `planes` is too short for the
    /// frames. Nothing is written.
    pub fn read(stream: &[u8], planes: &mut [u8]) -> Result<Film, Refusal> {
        let mut list = [0; FILM_NUMBERS];
        Refusal::check(lists::y4m_read(stream, planes, &mut list))?;
        Ok(Film::from_list(&list))
    }

    /// What a stream holds, without its planes: all of it is judged, and nothing
    /// is stored, however long it is.
    ///
    /// # Errors
    ///
    /// Number 21, as for [`Film::read`].
    pub fn of(stream: &[u8]) -> Result<Film, Refusal> {
        match Film::read(stream, &mut []) {
            // It is a stream with frames. Its header is a stream of no frames,
            // and what is behind it are frames, all of one length.
            Err(Refusal::SHORT_OUTPUT) => {
                let line = stream.iter().position(|byte| *byte == b'\n');
                let header = line.map_or(stream.len(), |line| line + 1);
                let film = Film::read(&stream[..header], &mut [])?;
                let frame = FRAME_LINE + film.buffer();
                let frames = (stream.len() - header) as u64 / frame;
                Ok(Film { frames, ..film })
            }
            read => read,
        }
    }

    /// How many bytes the plane buffer of a frame has.
    pub fn buffer(&self) -> u64 {
        // Sizes are at most 1,048,560, so that this fits.
        let luma = self.width * self.height;
        match self.pf {
            0 => luma + luma / 2,
            2 => 2 * luma,
            _ => 3 * luma,
        }
    }

    /// What the list of an accepted stream stands for.
    fn from_list(list: &[u64; FILM_NUMBERS]) -> Film {
        let [width, height, frn, frd, parn, pard, pf, frames] = *list;
        Film {
            width,
            height,
            frn,
            frd,
            parn,
            pard,
            pf,
            frames,
        }
    }
}
