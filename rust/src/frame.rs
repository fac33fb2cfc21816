//! The frame call, and the planes of a frame.

use crate::lists::{self, ANSWER_NUMBERS, Buffers};
use crate::{Refusal, Session, Sizes, Table, Work};

/// The kind of a frame.
#[derive(Clone, Copy, Debug, PartialEq, Eq, Hash)]
pub enum Kind {
    /// All blocks are coded, and none is predicted.
    Intra,
    /// Blocks may be predicted, or left as they were.
    Inter,
    /// An empty packet: the previous frame once more.
    Repeat,
}

/// What an accepted frame answers.
#[derive(Clone, Copy, Debug, PartialEq, Eq, Hash)]
pub struct FrameAnswer {
    /// The frame's kind.
    pub kind: Kind,
    /// How many coefficient tokens were read, those that end blocks included: at
    /// most 64 for each coded block, 0 for a repeat.
    pub tokens: u64,
    qis: [u8; 3],
    count: usize,
}

impl FrameAnswer {
    /// The list of qi: one to three of them, none for a repeat.
    pub fn qis(&self) -> &[u8] {
        &self.qis[..self.count]
    }

    /// The answer that the list of an accepted frame stands for.
    pub(crate) fn from_list(list: &[u64; ANSWER_NUMBERS]) -> FrameAnswer {
        let [_, _, kind, count, qis @ .., tokens] = *list;
        FrameAnswer {
            kind: match kind {
                0 => Kind::Intra,
                1 => Kind::Inter,
                _ => Kind::Repeat,
            },
            tokens,
            // A qi has 6 bits, and there are at most 3.
            qis: qis.map(|qi| qi as u8),
            count: count as usize,
        }
    }
}

impl Session {
    /// Decodes a frame packet into `buffers.new`. If it is an intra frame, the
    /// session has references afterwards; it counts key frames, and the other
    /// packets since the last one. The caller hands the frames on from call to
    /// call; [`Session::shot`] does that itself.
    ///
    /// # Errors
    ///
    /// Number 8 for fields that could not come from an identification header,
    /// 1 if work memory or a buffer has another length than this session's,
    /// then 4 and 9 to 13 with the bit place, for the first fault of the packet,
    /// then 17 if one of the session's two numbers would pass its bound. The session and `buffers.new` are then as they were.
    pub fn frame(
        &mut self,
        packet: &[u8],
        table: &Table,
        work: &mut Work,
        buffers: Buffers<'_>,
    ) -> Result<FrameAnswer, Refusal> {
        let mut session = self.to_list();
        let mut answer = [0; ANSWER_NUMBERS];
        let number = lists::frame(
            &mut session,
            packet,
            table.bytes(),
            work.slices(),
            buffers,
            &mut answer,
        );
        let [_, place, ..] = answer;
        Refusal::check_at(number, place)?;
        *self = Session::from_list(&session);
        Ok(FrameAnswer::from_list(&answer))
    }
}

/// A frame: its planes Y', Cb, Cr in one buffer.
#[derive(Clone, Copy, Debug)]
pub struct Frame<'a> {
    sizes: &'a Sizes,
    bytes: &'a [u8],
}

impl<'a> Frame<'a> {
    /// The frame in a buffer of these sizes.
    ///
    /// # Errors
    ///
    /// Number 1 if the buffer has another length.
    pub fn new(sizes: &'a Sizes, bytes: &'a [u8]) -> Result<Frame<'a>, Refusal> {
        if bytes.len() as u64 == sizes.buffer {
            Ok(Frame { sizes, bytes })
        } else {
            Err(Refusal::WRONG_LENGTH)
        }
    }

    /// The whole buffer: plane 0 first, in each plane the lowest row first.
    pub fn bytes(&self) -> &'a [u8] {
        self.bytes
    }

    /// The planes Y', Cb, Cr as they are coded.
    ///
    /// # Panics
    ///
    /// If the planes of the sizes do not lie in their buffer. Those that a
    /// session gives do.
    pub fn planes(&self) -> [Samples<'a>; 3] {
        self.sizes.planes.each_ref().map(|plane| {
            // They lie in memory, so that these numbers fit.
            let (offset, length) = (plane.offset as usize, plane.length as usize);
            Samples {
                width: 8 * plane.blocks_across as usize,
                height: 8 * plane.blocks_up as usize,
                bytes: &self.bytes[offset..offset + length],
            }
        })
    }
}

/// The samples of one plane.
#[derive(Clone, Copy, Debug, PartialEq, Eq)]
pub struct Samples<'a> {
    /// How many samples a row has.
    pub width: usize,
    /// How many rows there are.
    pub height: usize,
    /// The rows one after the other, the lowest first.
    pub bytes: &'a [u8],
}

impl<'a> Samples<'a> {
    /// A row, counted from the bottom.
    ///
    /// # Panics
    ///
    /// If there is no such row.
    pub fn row(&self, y: usize) -> &'a [u8] {
        &self.bytes[y * self.width..(y + 1) * self.width]
    }
}

/// What a plane shows of the picture: rows from the top, of which each is cut out
/// of the coded plane. Nothing is copied.
#[derive(Clone, Copy, Debug, PartialEq, Eq)]
pub struct View<'a> {
    /// How many samples a row has.
    pub width: usize,
    /// How many rows there are.
    pub height: usize,
    plane: Samples<'a>,
    left: usize,
    top: usize,
}

impl<'a> View<'a> {
    /// A row, counted from the top.
    ///
    /// # Panics
    ///
    /// If there is no such row.
    pub fn row(&self, y: usize) -> &'a [u8] {
        assert!(y < self.height, "row {y} of {}", self.height);
        let row = self.plane.row(self.plane.height - 1 - self.top - y);
        &row[self.left..self.left + self.width]
    }

    /// The rows, the highest first.
    pub fn rows(&self) -> impl Iterator<Item = &'a [u8]> + use<'a> {
        let view = *self;
        (0..view.height).map(move |y| view.row(y))
    }

    /// A copy of the rows, the highest first.
    pub fn to_vec(&self) -> Vec<u8> {
        self.rows().flatten().copied().collect()
    }
}

impl Session {
    /// The picture of a frame of this session: of each plane Y', Cb, Cr what
    /// should be shown, the top row first. Where the picture begins inside a
    /// chroma sample, it begins with that sample.
    ///
    /// # Panics
    ///
    /// If the frame is none of a session with these fields.
    pub fn picture<'a>(&self, frame: Frame<'a>) -> [View<'a>; 3] {
        let step = match self.pf {
            0 => (2, 2),
            2 => (2, 1),
            _ => (1, 1),
        };
        let [luma, cb, cr] = frame.planes();
        [(luma, (1, 1)), (cb, step), (cr, step)].map(|(plane, step)| self.view(plane, step))
    }

    /// The picture in a plane that has one sample for so many of luma.
    fn view<'a>(&self, plane: Samples<'a>, (across, up): (u64, u64)) -> View<'a> {
        let above = 16 * self.fmbh - self.picy - self.pich;
        // The plane lies in memory, so that these numbers fit.
        View {
            width: self.picw.div_ceil(across) as usize,
            height: self.pich.div_ceil(up) as usize,
            plane,
            left: (self.picx / across) as usize,
            top: (above / up) as usize,
        }
    }
}
