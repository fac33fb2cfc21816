//! Which tiles changed from frame to frame.

use crate::lists::{self, ANSWER_NUMBERS, NAME_NUMBERS};
use crate::session::one;
use crate::shot::answer_of;
use crate::{FrameAnswer, Names, Packets, Refusal, Session, Settings, Table, Work};

/// What a map of changed tiles has: tiles across and up, of a plane.
#[derive(Clone, Copy, Debug, PartialEq, Eq)]
struct Grid {
    columns: usize,
    rows: usize,
}

impl Session {
    /// How many bytes a map of changed tiles has, by settings: one for each tile
    /// of the settings' plane, partial ones at the right and at the top included.
    ///
    /// # Errors
    ///
    /// Number 20 for settings out of range, then 8.
    pub fn map_length(&self, settings: &Settings) -> Result<u64, Refusal> {
        one(|length| lists::tiles_length(&settings.to_list(), &self.to_list(), length))
    }

    /// [`Session::shot`], and of each packet which tiles of a plane changed.
    ///
    /// # Errors
    ///
    /// Of the whole shot, and nothing has changed: 20 for settings out of range,
    /// then as for [`Session::shot`].
    ///
    /// # Panics
    ///
    /// If memory for the answers and maps cannot be had.
    pub fn tiles(
        &mut self,
        settings: &Settings,
        names: &mut Names,
        packets: Packets<'_>,
        table: &Table,
        work: &mut Work,
        buffers: [&mut [u8]; 3],
    ) -> Result<TileMaps, Refusal> {
        let grid = self.grid(settings)?;
        let mut session = self.to_list();
        let mut both: [u64; NAME_NUMBERS] = [names.golden, names.previous];
        let mut answers = vec![[0; ANSWER_NUMBERS]; packets.lengths.len()];
        let mut bytes = vec![0; grid.columns * grid.rows * packets.lengths.len()];
        Refusal::check(lists::tiles_shot(
            &settings.to_list(),
            &mut session,
            &mut both,
            packets,
            table.bytes(),
            work.slices(),
            buffers,
            answers.as_flattened_mut(),
            &mut bytes,
        ))?;
        *self = Session::from_list(&session);
        let [golden, previous] = both;
        *names = Names { golden, previous };
        Ok(TileMaps {
            grid,
            answers: answers.iter().map(answer_of).collect(),
            bytes,
        })
    }

    /// How many tiles lie side by side and on top of each other. Their number is
    /// the library's.
    fn grid(&self, settings: &Settings) -> Result<Grid, Refusal> {
        let length = self.map_length(settings)?;
        let plane = &self.sizes()?.planes[settings.plane as usize];
        let columns = (8 * plane.blocks_across).div_ceil(settings.tile);
        // A frame that is decoded lies in memory, so that these numbers fit.
        Ok(Grid {
            columns: columns as usize,
            rows: (length / columns) as usize,
        })
    }
}

/// The maps of a shot's packets, and their answers.
#[derive(Clone, Debug)]
pub struct TileMaps {
    grid: Grid,
    answers: Vec<Result<FrameAnswer, Refusal>>,
    bytes: Vec<u8>,
}

impl TileMaps {
    /// The answer of each packet.
    pub fn answers(&self) -> &[Result<FrameAnswer, Refusal>] {
        &self.answers
    }

    /// The map of the packet with this index; a refused one has none.
    pub fn map(&self, packet: usize) -> Option<TileMap<'_>> {
        self.answers.get(packet)?.ok()?;
        let Grid { columns, rows } = self.grid;
        let length = columns * rows;
        Some(TileMap {
            columns,
            rows,
            bytes: &self.bytes[packet * length..(packet + 1) * length],
        })
    }

    /// The maps of the accepted packets, in order.
    pub fn maps(&self) -> impl Iterator<Item = TileMap<'_>> {
        (0..self.answers.len()).filter_map(|packet| self.map(packet))
    }
}

/// Which tiles of a frame changed: 1 for a tile in which some sample differs from
/// the frame before it, else 0. The first frame has no frame before it: all 1.
#[derive(Clone, Copy, Debug, PartialEq, Eq)]
pub struct TileMap<'a> {
    /// How many tiles lie side by side.
    pub columns: usize,
    /// How many tiles lie on top of each other.
    pub rows: usize,
    /// The rows one after the other, the lowest first.
    pub bytes: &'a [u8],
}

impl<'a> TileMap<'a> {
    /// A row, counted from the bottom.
    ///
    /// # Panics
    ///
    /// If there is no such row.
    pub fn row(&self, y: usize) -> &'a [u8] {
        &self.bytes[y * self.columns..(y + 1) * self.columns]
    }

    /// How many tiles changed.
    pub fn changed(&self) -> usize {
        self.bytes.iter().filter(|byte| **byte == 1).count()
    }
}
