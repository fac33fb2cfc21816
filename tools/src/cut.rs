//! The picture region of frames as a film for players. The stream of whole
//! coded frames is the library's, which is proved; this one is not.

use std::io::{self, Write};
use wedgepetal::{Frame, Session};

/// A film of pictures.
pub struct Cut<'a> {
    session: &'a Session,
}

impl<'a> Cut<'a> {
    /// The film of a session's pictures.
    pub fn of(session: &'a Session) -> Result<Cut<'a>, String> {
        match session.picw == 0 || session.pich == 0 {
            true => Err("the picture has no samples, so that there is no film of it".to_string()),
            false => Ok(Cut { session }),
        }
    }

    /// The line before the first frame.
    pub fn header(&self) -> String {
        let s = self.session;
        let format = match s.pf {
            0 => "420jpeg",
            2 => "422",
            _ => "444",
        };
        let (across, up) = match (s.parn, s.pard) {
            (0, _) | (_, 0) => (0, 0),
            aspect => aspect,
        };
        format!(
            "YUV4MPEG2 W{} H{} F{}:{} Ip A{across}:{up} C{format}\n",
            s.picw, s.pich, s.frn, s.frd
        )
    }

    /// A frame: the picture's rows from above, of each plane.
    pub fn write_frame(&self, out: &mut dyn Write, frame: Frame<'_>) -> io::Result<()> {
        out.write_all(b"FRAME\n")?;
        let planes = self.session.picture(frame);
        let mut rows = planes.iter().flat_map(|plane| plane.rows());
        rows.try_for_each(|row| out.write_all(row))
    }

    /// The width and the rows, from above, of the picture's luma.
    pub fn luma<'b>(&self, frame: Frame<'b>) -> (usize, Vec<&'b [u8]>) {
        let [luma, _, _] = self.session.picture(frame);
        (luma.width, luma.rows().collect())
    }
}

#[cfg(test)]
mod tests {
    use super::*;
    use wedgepetal::identification;

    /// The sample's session with another picture region and pixel format.
    fn session(region: [u64; 4], pf: u64) -> Session {
        let [picx, picy, picw, pich] = region;
        Session {
            picx,
            picy,
            picw,
            pich,
            pf,
            ..identification(&crate::sample::identification_header()).unwrap()
        }
    }

    #[test]
    fn a_picture_without_samples_is_no_film() {
        assert!(Cut::of(&session([0, 0, 0, 5], 0)).is_err());
    }

    #[test]
    fn a_film() {
        let session = session([2, 1, 3, 2], 0);
        let sizes = session.sizes().unwrap();
        let mut bytes = vec![0; sizes.buffer as usize];
        // Luma rows 1 and 2 from below; chroma row 118 from above is 1 from below.
        bytes[320 + 2..320 + 5].copy_from_slice(b"abc");
        bytes[640 + 2..640 + 5].copy_from_slice(b"def");
        bytes[76800 + 160 + 1..76800 + 160 + 3].copy_from_slice(b"gh");
        bytes[96000 + 160 + 1..96000 + 160 + 3].copy_from_slice(b"ij");
        let cut = Cut::of(&session).unwrap();
        let mut film = cut.header().into_bytes();
        let frame = Frame::new(&sizes, &bytes).unwrap();
        cut.write_frame(&mut film, frame).unwrap();
        let wanted = b"YUV4MPEG2 W3 H2 F25:1 Ip A1:1 C420jpeg\nFRAME\ndefabcghij";
        assert_eq!(film, wanted);
        assert_eq!(cut.luma(frame), (3, vec![&b"def"[..], b"abc"]));
    }
}
