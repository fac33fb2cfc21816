//! How one frame is shown: in colour by the library's proved call, as a PNG or
//! PPM file, or its luma alone.

use crate::cut::Cut;
use crate::output::Trouble;
use crate::png::{self, Samples};
use crate::target::Target;
use std::ffi::OsStr;
use std::io::{self, Write};
use std::path::Path;
use wedgepetal::{Frame, Refusal, Session};

/// How one frame is shown.
pub struct Look {
    /// The luma of the picture region, and no colours.
    grey: bool,
    /// A PPM file, and no PNG file.
    ppm: bool,
    /// The colour space of a recording that names none.
    space: Option<u64>,
}

impl Look {
    /// A look by the name of the file: PPM if it ends so, else PNG.
    pub fn new(path: &Path, grey: bool, space: Option<u64>) -> Look {
        let ppm = path.extension() == Some(OsStr::new("ppm"));
        Look { grey, ppm, space }
    }

    /// Writes a frame of this session.
    pub fn write(
        &self,
        target: &mut Target,
        session: &Session,
        frame: Frame<'_>,
    ) -> Result<(), Trouble> {
        if self.grey {
            let cut = Cut::of(session).map_err(Trouble::Unfit)?;
            let (width, rows) = cut.luma(frame);
            target.open()?;
            return Ok(target.write(|out| png::write(out, Samples::Grey, width, &rows))?);
        }
        let (width, bytes) = self.colours(session, frame).map_err(Trouble::Unfit)?;
        let rows: Vec<&[u8]> = bytes.chunks(3 * width).collect();
        target.open()?;
        Ok(target.write(|out| match self.ppm {
            true => write_ppm(out, width, &rows),
            false => png::write(out, Samples::Colour, width, &rows),
        })?)
    }

    /// The width of the whole coded frame, and its pixels from the top row on.
    fn colours(&self, session: &Session, frame: Frame<'_>) -> Result<(usize, Vec<u8>), String> {
        let mut named = session.clone();
        if let (0, Some(space)) = (named.cs, self.space) {
            named.cs = space;
        }
        // A frame that was decoded has less than 2^32 macro blocks.
        let mut bytes = vec![0; 768 * (named.fmbw * named.fmbh) as usize];
        match named.rgb(frame.bytes(), &mut bytes) {
            Ok(_) => Ok((16 * named.fmbw as usize, bytes)),
            Err(Refusal::UNKNOWN_COLOUR) if session.cs == 0 => Err(format!(
                "{}: the recording says 0, which is unknown; --colour-space 1 or 2 names it",
                Refusal::UNKNOWN_COLOUR
            )),
            Err(refusal) => Err(refusal.to_string()),
        }
    }
}

/// Writes a picture of these rows, the highest first, each so wide.
fn write_ppm(out: &mut dyn Write, width: usize, rows: &[&[u8]]) -> io::Result<()> {
    write!(out, "P6\n{width} {}\n255\n", rows.len())?;
    rows.iter().try_for_each(|row| out.write_all(row))
}
