//! `wedgepetal tiles`: which tiles changed from frame to frame, as a map for
//! numpy, a table of shares and a picture.

mod drawn;
mod npy;

use crate::clock::Time;
use crate::index::quoted;
use crate::json::Json;
use crate::output::{Answer, Trouble, kind_name};
use crate::target::{Target, is_standard, said};
pub use drawn::Picture;
use std::path::Path;
use wedgepetal::{FrameAnswer, Player, Refusal, Settings, TileMap, TileMaps};

/// The names of the table's columns.
const COLUMNS: &str = "stream,packet,frame,kind,tiles,changed,share,refusal,bit,meaning,time_s\n";

/// What is made of the maps of a shot.
pub struct Tiles {
    settings: Settings,
    /// The maps one behind the other, as numpy reads them.
    map: Option<Target>,
    /// A line for each packet.
    table: Option<Target>,
    picture: Option<Picture>,
    /// The number of the stream that is read.
    stream: u64,
    /// The map of the last packet.
    last: Option<TileMaps>,
    /// Whether there was a frame before it.
    compared: bool,
    count: Count,
}

/// What was counted.
#[derive(Clone, Default)]
pub struct Count {
    /// Tiles across and up, once a stream has begun.
    grid: Option<(usize, usize)>,
    /// The samples of the plane, across and up.
    samples: (u64, u64),
    frames: u64,
    /// How many frames had a frame before them, and how many of their tiles
    /// changed.
    compared: u64,
    changed: u64,
    /// How often each tile changed in these frames.
    tiles: Vec<u64>,
}

impl Tiles {
    /// Plans maps by settings.
    pub fn plan(
        settings: Settings,
        map: Option<&Path>,
        table: Option<&Path>,
        picture: Option<&Path>,
        force: bool,
    ) -> Result<Tiles, String> {
        Ok(Tiles {
            settings,
            map: map.map(|path| plan_map(path, force)).transpose()?,
            table: table.map(|path| Target::plan(path, force)).transpose()?,
            picture: picture.map(|path| Picture::plan(path, force)).transpose()?,
            stream: 0,
            last: None,
            compared: false,
            count: Count::default(),
        })
    }

    /// The frames of a stream follow.
    pub fn begin(&mut self, stream: u64, player: &Player) -> Result<(), Trouble> {
        let plane = &player.sizes().planes[self.settings.plane as usize];
        let samples = (8 * plane.blocks_across, 8 * plane.blocks_up);
        let tiles = |samples: u64| samples.div_ceil(self.settings.tile) as usize;
        let grid = (tiles(samples.0), tiles(samples.1));
        self.stream = stream;
        match self.count.grid {
            Some(begun) if begun == grid => Ok(()),
            Some(_) => {
                let (columns, rows) = grid;
                let text = format!("the maps cannot go on with it: {columns} by {rows} tiles");
                Err(Trouble::Unfit(text))
            }
            None => {
                self.count.grid = Some(grid);
                self.count.samples = samples;
                self.count.tiles = vec![0; grid.0 * grid.1];
                Ok(self.open(grid)?)
            }
        }
    }

    /// Makes the files.
    fn open(&mut self, grid: (usize, usize)) -> Result<(), String> {
        if let Some(map) = &mut self.map {
            map.open()?;
            map.write(|out| out.write_all(&npy::front(0, grid)))?;
        }
        if let Some(table) = &mut self.table {
            table.open()?;
            table.write(|out| out.write_all(COLUMNS.as_bytes()))?;
        }
        Ok(())
    }

    /// Decodes a packet, and keeps its map.
    pub fn decode(&mut self, player: &mut Player, packet: &[u8]) -> Result<FrameAnswer, Refusal> {
        self.compared = player.session().references;
        let maps = player.tiles(&self.settings, &[packet])?;
        let answer = maps.answers()[0];
        self.last = Some(maps);
        answer
    }

    /// Takes the answer to the packet that was decoded last.
    pub fn take(&mut self, answer: &Answer<'_>) -> Result<(), String> {
        let maps = self.last.take();
        let map = maps.as_ref().and_then(|maps| maps.map(0));
        if let Some(table) = &mut self.table {
            let line = line(self.stream, answer, map);
            table.write(|out| out.write_all(line.as_bytes()))?;
        }
        if let Some(picture) = &mut self.picture {
            picture.take(answer.time, map.is_some(), map.filter(|_| self.compared));
        }
        let Some(map) = map else {
            return Ok(());
        };
        self.count.take(map, self.compared);
        match &mut self.map {
            Some(file) => file.write(|out| out.write_all(map.bytes)),
            None => Ok(()),
        }
    }

    /// Writes what is still held back, and the picture of a shot of this name.
    pub fn flush(&mut self, name: &str) -> Result<(), String> {
        let grid = self.count.grid.unwrap_or_default();
        if let Some(map) = &mut self.map {
            map.rewrite(&npy::front(self.count.frames, grid))?;
        }
        if let Some(table) = &mut self.table {
            table.flush()?;
        }
        match &mut self.picture {
            Some(picture) => picture.draw(name, &self.settings, &self.count),
            None => Ok(()),
        }
    }

    /// All is written: the files take their own names.
    pub fn finish(&mut self) -> Result<(), String> {
        let picture = self.picture.as_mut().map(Picture::target);
        let targets = [self.map.as_mut(), self.table.as_mut(), picture];
        targets.into_iter().flatten().try_for_each(Target::finish)
    }

    /// The table, which may go to the standard output.
    pub fn table(&self) -> Option<&Target> {
        self.table.as_ref()
    }

    /// What was counted, in words and as JSON.
    pub fn said(&self) -> (String, Json) {
        (
            self.count.text(&self.settings),
            self.count.json(&self.settings),
        )
    }
}

/// Plans the file of the maps. Its first bytes say how many there are, and are
/// written last.
fn plan_map(path: &Path, force: bool) -> Result<Target, String> {
    match is_standard(path) || path.exists() && !path.is_file() {
        true => Err(said(
            path,
            "the first bytes of a map say how many frames it has, so that it must be a file",
        )),
        false => Target::plan(path, force),
    }
}

/// The line of a packet. A refused one has no frame, and no map.
fn line(stream: u64, answer: &Answer<'_>, map: Option<TileMap<'_>>) -> String {
    let (packet, time) = (answer.packet, answer.time);
    match (answer.answer, map) {
        (Err(refusal), _) => {
            let (number, bit) = (refusal.number, refusal.place);
            let meaning = quoted(refusal.meaning());
            format!("{stream},{packet},,refused,,,,{number},{bit},{meaning},{time}\n")
        }
        (Ok(accepted), map) => {
            let (number, kind) = (answer.number, kind_name(accepted.kind));
            let (tiles, changed) = map.map_or((0, 0), |map| (map.bytes.len(), map.changed()));
            let share = share(changed as u64, tiles as u64);
            format!("{stream},{packet},{number},{kind},{tiles},{changed},{share:.6},,,,{time}\n")
        }
    }
}

/// A share of a whole, 0 where there is nothing.
fn share(part: u64, whole: u64) -> f64 {
    part as f64 / whole.max(1) as f64
}

/// The name of a plane.
fn plane_name(plane: u64) -> &'static str {
    ["Y'", "Cb", "Cr"][plane as usize]
}

impl Count {
    fn take(&mut self, map: TileMap<'_>, compared: bool) {
        self.frames += 1;
        if compared {
            self.compared += 1;
            self.changed += map.changed() as u64;
            for (count, byte) in self.tiles.iter_mut().zip(map.bytes) {
                *count += u64::from(*byte);
            }
        }
    }

    /// Which share of the tiles changed, in all frames that had one before them.
    fn share(&self) -> f64 {
        share(self.changed, self.compared * self.tiles.len() as u64)
    }

    fn text(&self, settings: &Settings) -> String {
        let (columns, rows) = self.grid.unwrap_or_default();
        let (tile, plane) = (settings.tile, plane_name(settings.plane));
        let still = self.tiles.iter().filter(|count| **count == 0).count();
        format!(
            "  {columns} x {rows} tiles of {tile} x {tile} samples of {plane}: {:.1} % of them changed from \
             frame to frame, {still} never\n",
            100.0 * self.share()
        )
    }

    fn json(&self, settings: &Settings) -> Json {
        let (columns, rows) = self.grid.unwrap_or_default();
        Json::Object(vec![
            ("tile", Json::Number(settings.tile)),
            ("plane", Json::Number(settings.plane)),
            ("columns", Json::Number(columns as u64)),
            ("rows", Json::Number(rows as u64)),
            ("frames", Json::Number(self.frames)),
            ("compared", Json::Number(self.compared)),
            ("changed", Json::Number(self.changed)),
            ("share", Json::Decimal(format!("{:.6}", self.share()))),
        ])
    }
}

/// A time in seconds, as JSON has it.
fn seconds(time: Time) -> Json {
    Json::Decimal(time.to_string())
}

#[cfg(test)]
mod tests {
    use super::*;

    #[test]
    fn shares_of_frames_that_had_one_before_them() {
        let settings = Settings {
            tile: 16,
            shot_first: 0,
            shot_last: 0,
            plane: 1,
        };
        let mut count = Count {
            grid: Some((3, 2)),
            tiles: vec![0; 6],
            ..Count::default()
        };
        let map = |bytes| TileMap {
            columns: 3,
            rows: 2,
            bytes,
        };
        count.take(map(&[1; 6]), false);
        count.take(map(&[0, 1, 1, 0, 0, 0]), true);
        count.take(map(&[0, 1, 0, 0, 0, 0]), true);
        assert_eq!(count.tiles, [0, 2, 1, 0, 0, 0]);
        assert_eq!(
            count.text(&settings),
            "  3 x 2 tiles of 16 x 16 samples of Cb: 25.0 % of them changed from frame to frame, 4 never\n"
        );
    }
}
