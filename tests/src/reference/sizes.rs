//! The sizes of a frame.

use super::session::Fields;

/// One plane.
#[derive(Clone, Copy, Debug, PartialEq, Eq)]
pub struct Plane {
    /// Blocks side by side.
    pub across: u64,
    /// Blocks on top of each other.
    pub up: u64,
    /// First byte in the buffer.
    pub offset: u64,
    /// Bytes, 64 for a block.
    pub length: u64,
}

impl Plane {
    /// How many blocks it has.
    pub fn blocks(&self) -> u64 {
        self.across * self.up
    }
}

/// A frame.
#[derive(Clone, Debug, PartialEq, Eq)]
pub struct Sizes {
    /// Macro blocks.
    pub nmbs: u64,
    /// Blocks.
    pub nbs: u64,
    /// Super blocks.
    pub nsbs: u64,
    /// Bytes of a plane buffer.
    pub buffer: u64,
    /// Y', Cb, Cr.
    pub planes: [Plane; 3],
}

/// How many luma samples one chroma sample covers, across and up.
pub fn chroma_step(pf: u64) -> (u64, u64) {
    match pf {
        0 => (2, 2),
        2 => (2, 1),
        3 => (1, 1),
        _ => unreachable!("the pixel format is sound"),
    }
}

/// The sizes of a frame with these fields, which are sound.
pub fn sizes(fields: &Fields) -> Sizes {
    let nmbs = fields.fmbw * fields.fmbh;
    let nbs = match fields.pf {
        0 => 6 * nmbs,
        2 => 8 * nmbs,
        _ => 12 * nmbs,
    };
    let (width, height) = (16 * fields.fmbw, 16 * fields.fmbh);
    let (across, up) = chroma_step(fields.pf);
    let luma = plane(width, height, 0);
    let cb = plane(width / across, height / up, luma.length);
    let cr = plane(width / across, height / up, luma.length + cb.length);
    let planes = [luma, cb, cr];
    Sizes {
        nmbs,
        nbs,
        nsbs: planes.iter().map(super_blocks).sum(),
        buffer: 64 * nbs,
        planes,
    }
}

/// A plane of so many samples.
fn plane(width: u64, height: u64, offset: u64) -> Plane {
    Plane {
        across: width / 8,
        up: height / 8,
        offset,
        length: width * height,
    }
}

/// The super blocks of a plane.
fn super_blocks(plane: &Plane) -> u64 {
    plane.across.div_ceil(4) * plane.up.div_ceil(4)
}

impl Sizes {
    /// The sizes in the order of their list.
    pub fn list(&self) -> [u64; 16] {
        let [y, cb, cr] = self.planes;
        [
            self.nmbs,
            self.nbs,
            self.nsbs,
            self.buffer,
            y.across,
            y.up,
            y.offset,
            y.length,
            cb.across,
            cb.up,
            cb.offset,
            cb.length,
            cr.across,
            cr.up,
            cr.offset,
            cr.length,
        ]
    }
}

#[cfg(test)]
mod tests {
    use super::*;

    fn frame(fmbw: u64, fmbh: u64, pf: u64) -> Sizes {
        sizes(&Fields::of_frame(fmbw, fmbh, pf))
    }

    #[test]
    fn planes_fill_the_buffer() {
        for pf in [0, 2, 3] {
            for (fmbw, fmbh) in [(1, 1), (3, 5), (65535, 65535), (65535, 1)] {
                let frame = frame(fmbw, fmbh, pf);
                let mut next = 0;
                for plane in frame.planes {
                    assert_eq!(plane.offset, next);
                    assert_eq!(plane.length, 64 * plane.across * plane.up);
                    next += plane.length;
                }
                assert_eq!(next, frame.buffer);
            }
        }
    }

    /// The table "Number of Super Blocks for each Pixel Format".
    #[test]
    fn super_blocks_as_in_the_specification() {
        for w in 1..20_u64 {
            for h in 1..20_u64 {
                let luma = w.div_ceil(2) * h.div_ceil(2);
                let nsbs = |pf| frame(w, h, pf).nsbs;
                assert_eq!(nsbs(0), luma + 2 * (w.div_ceil(4) * h.div_ceil(4)));
                assert_eq!(nsbs(2), luma + 2 * (w.div_ceil(4) * h.div_ceil(2)));
                assert_eq!(nsbs(3), 3 * luma);
            }
        }
    }

    #[test]
    fn one_macro_block() {
        let list = [1, 6, 3, 384, 2, 2, 0, 256, 1, 1, 256, 64, 1, 1, 320, 64];
        assert_eq!(frame(1, 1, 0).list(), list);
        let list = [1, 8, 3, 512, 2, 2, 0, 256, 1, 2, 256, 128, 1, 2, 384, 128];
        assert_eq!(frame(1, 1, 2).list(), list);
    }
}
