//! The session record and the calls that take it.

use crate::lists::{
    self, BLOCK_NUMBERS, FAULT_NUMBERS, PLACE_NUMBERS, SESSION_NUMBERS, SIZE_NUMBERS,
};
use crate::{Block, MacroBlock, Plane, Refusal, Sizes};

/// The identification fields of a recording, whether references exist, and the
/// numbers by which a frame has its place among the key frames.
///
/// The fields may hold any numbers. A call on a session whose fields could not
/// come from an identification header, or whose `others` are not below 2 to the
/// power KFGSHIFT, is refused by number 8.
#[derive(Clone, Debug, PartialEq, Eq, Hash)]
pub struct Session {
    /// The version revision, 8 bits.
    pub vrev: u64,
    /// The width of the frame in macro blocks, 16 bits, not 0.
    pub fmbw: u64,
    /// The height of the frame in macro blocks, 16 bits, not 0.
    pub fmbh: u64,
    /// The width of the picture region in samples, at most 16·FMBW.
    pub picw: u64,
    /// The height of the picture region in samples, at most 16·FMBH.
    pub pich: u64,
    /// The picture region's distance from the left, 8 bits, at most 16·FMBW−PICW.
    pub picx: u64,
    /// The picture region's distance from the bottom, 8 bits, at most 16·FMBH−PICH.
    pub picy: u64,
    /// The numerator of the frame rate, 32 bits, not 0.
    pub frn: u64,
    /// The denominator of the frame rate, 32 bits, not 0.
    pub frd: u64,
    /// The numerator of a sample's aspect ratio, 24 bits; 0 is unknown.
    pub parn: u64,
    /// The denominator of a sample's aspect ratio, 24 bits; 0 is unknown.
    pub pard: u64,
    /// The colour space, 8 bits.
    pub cs: u64,
    /// The nominal bit rate, 24 bits.
    pub nombr: u64,
    /// The quality hint, 6 bits.
    pub qual: u64,
    /// The shift of the key frame number in a granule position, 5 bits.
    pub kfgshift: u64,
    /// The pixel format: 0 is 4:2:0, 2 is 4:2:2, 3 is 4:4:4.
    pub pf: u64,
    /// Whether golden and previous frames exist.
    pub references: bool,
    /// How many key frames (intra frames) were accepted.
    pub key_frames: u64,
    /// How many other packets were accepted since the last key frame.
    pub others: u64,
}

/// Reads an identification header. The session is fresh: it has no references,
/// and nothing is counted yet.
///
/// # Errors
///
/// Numbers 2 to 6 with the bit place, for the first fault in reading order.
pub fn identification(packet: &[u8]) -> Result<Session, Refusal> {
    let (mut list, mut place) = ([0; SESSION_NUMBERS], [0; FAULT_NUMBERS]);
    let number = lists::identification(packet, &mut list, &mut place);
    Refusal::check_at(number, place[0])?;
    Ok(Session::from_list(&list))
}

impl Session {
    /// The session as the list of numbers that the static library takes.
    pub fn to_list(&self) -> [u64; SESSION_NUMBERS] {
        [
            self.vrev,
            self.fmbw,
            self.fmbh,
            self.picw,
            self.pich,
            self.picx,
            self.picy,
            self.frn,
            self.frd,
            self.parn,
            self.pard,
            self.cs,
            self.nombr,
            self.qual,
            self.kfgshift,
            self.pf,
            u64::from(self.references),
            self.key_frames,
            self.others,
        ]
    }

    /// The session that a list of numbers stands for.
    pub fn from_list(list: &[u64; SESSION_NUMBERS]) -> Session {
        let [
            vrev,
            fmbw,
            fmbh,
            picw,
            pich,
            picx,
            picy,
            frn,
            frd,
            parn,
            pard,
            cs,
            nombr,
            qual,
            kfgshift,
            pf,
            references,
            key_frames,
            others,
        ] = *list;
        Session {
            vrev,
            fmbw,
            fmbh,
            picw,
            pich,
            picx,
            picy,
            frn,
            frd,
            parn,
            pard,
            cs,
            nombr,
            qual,
            kfgshift,
            pf,
            references: references != 0,
            key_frames,
            others,
        }
    }

    /// The sizes of this session's frames.
    ///
    /// # Errors
    ///
    /// Number 8, as for every call on a session.
    pub fn sizes(&self) -> Result<Sizes, Refusal> {
        let mut list = [0; SIZE_NUMBERS];
        Refusal::check(lists::sizes(&self.to_list(), &mut list))?;
        Ok(Sizes::from_list(&list))
    }

    /// The block that is this number in coded order.
    ///
    /// # Errors
    ///
    /// Number 8; 255 if the frame has no such block.
    pub fn block_at(&self, number: u64) -> Result<Block, Refusal> {
        let mut list = [0; BLOCK_NUMBERS];
        Refusal::check(lists::block_at(&self.to_list(), number, &mut list))?;
        let [plane, x, y] = list;
        Ok(Block { plane, x, y })
    }

    /// The number of a block in coded order.
    ///
    /// # Errors
    ///
    /// Number 8; 255 if the frame has no such block.
    pub fn block_number(&self, block: Block) -> Result<u64, Refusal> {
        let Block { plane, x, y } = block;
        one(|out| lists::block_number(&self.to_list(), plane, x, y, out))
    }

    /// The macro block that is this number in coded order.
    ///
    /// # Errors
    ///
    /// Number 8; 255 if the frame has no such macro block.
    pub fn macro_block_at(&self, number: u64) -> Result<MacroBlock, Refusal> {
        place(|out| lists::macro_block_at(&self.to_list(), number, out))
    }

    /// The number of a macro block in coded order.
    ///
    /// # Errors
    ///
    /// Number 8; 255 if the frame has no such macro block.
    pub fn macro_block_number(&self, macro_block: MacroBlock) -> Result<u64, Refusal> {
        let MacroBlock { x, y } = macro_block;
        one(|out| lists::macro_block_number(&self.to_list(), x, y, out))
    }

    /// The macro block that a block belongs to.
    ///
    /// # Errors
    ///
    /// Number 8; 255 if the frame has no such block.
    pub fn macro_block_of(&self, block: Block) -> Result<MacroBlock, Refusal> {
        let Block { plane, x, y } = block;
        place(|out| lists::macro_block_of(&self.to_list(), plane, x, y, out))
    }

    /// Where in a plane buffer a sample of a block lies. Columns and rows are
    /// 0 to 7, row 0 the lowest.
    ///
    /// # Errors
    ///
    /// Number 8; 255 if the frame has no such block or the block no such sample.
    pub fn sample_offset(&self, block: Block, column: u64, row: u64) -> Result<u64, Refusal> {
        let Block { plane, x, y } = block;
        one(|out| lists::sample_offset(&self.to_list(), plane, x, y, column, row, out))
    }

    /// Writes a plane buffer as red, green and blue, by Rec. 470M: three bytes
    /// a pixel, the whole coded frame, the top row first. Answers how many
    /// bytes were written; those behind them stay.
    ///
    /// # Errors
    ///
    /// Number 8; 1 if `planes` has another length than a plane buffer; 18 if
    /// CS is neither 1 nor 2; 14 if `out` is too short. Nothing is written.
    pub fn rgb(&self, planes: &[u8], out: &mut [u8]) -> Result<u64, Refusal> {
        one(|written| lists::rgb(&self.to_list(), planes, out, written))
    }
}

/// The answer of a call that writes one number.
pub(crate) fn one(call: impl FnOnce(&mut [u64]) -> u32) -> Result<u64, Refusal> {
    let mut list = [0; 1];
    Refusal::check(call(&mut list))?;
    Ok(list[0])
}

/// The answer of a call that writes the place of a macro block.
fn place(call: impl FnOnce(&mut [u64]) -> u32) -> Result<MacroBlock, Refusal> {
    let mut list = [0; PLACE_NUMBERS];
    Refusal::check(call(&mut list))?;
    let [x, y] = list;
    Ok(MacroBlock { x, y })
}

impl Sizes {
    /// The sizes that a list of numbers stands for.
    fn from_list(list: &[u64; SIZE_NUMBERS]) -> Sizes {
        let plane = |first: usize| Plane {
            blocks_across: list[first],
            blocks_up: list[first + 1],
            offset: list[first + 2],
            length: list[first + 3],
        };
        Sizes {
            macro_blocks: list[0],
            blocks: list[1],
            super_blocks: list[2],
            buffer: list[3],
            planes: [plane(4), plane(8), plane(12)],
        }
    }
}
