//! Changed tiles of recordings, held to the independent implementation's coded
//! flags: a tile that neither holds a coded block nor has one across any of its four
//! sides is 0, a repeat is all 0, and a frame without references before it all 1.

use crate::reference::decode::Decoder;
use crate::reference::frame::{FramePacket, Kind};
use crate::reference::session::{Fields, Session};
use crate::reference::sizes::Plane;
use std::fmt;
use wedgepetal::{Player, Settings, TileMap, identification, setup};

/// The sides of tiles that are tried.
const SIDES: [u64; 3] = [8, 16, 32];

/// What was looked at.
#[derive(Default)]
pub struct Counts {
    maps: u64,
    /// Tiles that must be 0.
    quiet: u64,
    /// Tiles that are 1.
    changed: u64,
}

impl Counts {
    /// Looks at the maps of a recording, for every side and plane.
    pub fn of_recording(
        &mut self,
        decoder: &Decoder,
        fields: &Fields,
        packets: &[Vec<u8>],
    ) -> Result<(), String> {
        let read = read(decoder, fields, &packets[3..]);
        for tile in SIDES {
            for plane in 0..3 {
                let settings = Settings {
                    tile,
                    shot_first: 0,
                    shot_last: 0,
                    plane,
                };
                let text = |refusal| format!("tiles of {tile}, plane {plane}: {refusal:?}");
                let session = identification(&packets[0]).map_err(text)?;
                let table = setup(&packets[2]).map_err(text)?;
                let mut player = Player::new(session, table).map_err(|fault| fault.to_string())?;
                let maps = player.tiles(&settings, &packets[3..]).map_err(text)?;
                for (number, read) in read.iter().enumerate() {
                    let place = format!("tiles of {tile}, plane {plane}, packet {}", number + 3);
                    match (maps.map(number), read) {
                        (Some(map), Some((first, read))) => self
                            .map(decoder, &settings, &map, *first, read)
                            .map_err(|text| format!("{place}: {text}"))?,
                        (None, None) => {}
                        _ => return Err(format!("{place}: accepted by one of both")),
                    }
                }
            }
        }
        Ok(())
    }

    /// Looks at one map.
    fn map(
        &mut self,
        decoder: &Decoder,
        settings: &Settings,
        map: &TileMap<'_>,
        first: bool,
        read: &FramePacket,
    ) -> Result<(), String> {
        let index = settings.plane as usize;
        let planes = &decoder.layout.sizes.planes;
        let before: u64 = planes[..index].iter().map(Plane::blocks).sum();
        let side = settings.tile / 8;
        let plane = planes[index];
        let mut touched = vec![false; map.bytes.len()];
        for block in read.coded.iter().map(|block| *block as u64) {
            if (before..before + plane.blocks()).contains(&block) {
                let (x, y) = (
                    (block - before) % plane.across,
                    (block - before) / plane.across,
                );
                for (x, y) in beside(plane, x, y) {
                    touched[(y / side) as usize * map.columns + (x / side) as usize] = true;
                }
            }
        }
        self.maps += 1;
        for (number, (byte, touched)) in map.bytes.iter().zip(&touched).enumerate() {
            let right = match (first, read.kind, touched) {
                (true, ..) => *byte == 1,
                (_, Kind::Repeat, _) | (.., false) => *byte == 0,
                _ => *byte < 2,
            };
            if !right {
                return Err(format!("tile {number} is {byte}"));
            }
            self.quiet += u64::from(!touched);
            self.changed += u64::from(*byte);
        }
        Ok(())
    }
}

/// A block and those that share an edge with it.
fn beside(plane: Plane, x: u64, y: u64) -> impl Iterator<Item = (u64, u64)> {
    let blocks = [
        Some((x, y)),
        x.checked_sub(1).map(|x| (x, y)),
        y.checked_sub(1).map(|y| (x, y)),
        (x + 1 < plane.across).then_some((x + 1, y)),
        (y + 1 < plane.up).then_some((x, y + 1)),
    ];
    blocks.into_iter().flatten()
}

/// What each accepted packet says, and whether there was no frame before it.
fn read(
    decoder: &Decoder,
    fields: &Fields,
    packets: &[Vec<u8>],
) -> Vec<Option<(bool, FramePacket)>> {
    let mut session = Session::fresh(fields.clone());
    let one = |packet: &Vec<u8>| {
        let read = decoder.read(session.references, packet).ok()?;
        let first = !session.references;
        session = session.after(read.kind)?;
        Some((first, read))
    };
    packets.iter().map(one).collect()
}

impl fmt::Display for Counts {
    fn fmt(&self, f: &mut fmt::Formatter<'_>) -> fmt::Result {
        write!(
            f,
            "{} maps of changed tiles: {} tiles that no coded block touches are 0, {} are 1",
            self.maps, self.quiet, self.changed
        )
    }
}
