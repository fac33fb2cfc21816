//! Draws which tiles of 32 by 32 samples changed in each frame of a recording.
//!
//!     cargo run --example tiles -- shot.ogv

use std::env;
use std::error::Error;
use std::fs::File;
use wedgepetal::{Player, Settings, identification, recording, setup};

fn main() -> Result<(), Box<dyn Error>> {
    let path = env::args().nth(1).ok_or("usage: tiles RECORDING")?;
    let packets = recording::packets(File::open(path)?)?;
    let [first, _, third, frames @ ..] = &packets[..] else {
        return Err("it ends before its first frame".into());
    };
    let mut player = Player::new(identification(first)?, setup(third)?)?;
    let settings = Settings {
        tile: 32,
        shot_first: 0,
        shot_last: 0,
        plane: 0,
    };
    // A hundred packets a call: their maps are kept, their frames are not.
    for packets in frames.chunks(100) {
        for map in player.tiles(&settings, packets)?.maps() {
            println!("{} of {} changed", map.changed(), map.bytes.len());
            for y in (0..map.rows).rev() {
                let row: String = map
                    .row(y)
                    .iter()
                    .map(|byte| [".", "#"][*byte as usize])
                    .collect();
                println!("{row}");
            }
        }
    }
    Ok(())
}
