//! Says of each frame of a recording its kind and the mean of its luma.
//!
//!     cargo run --example frames -- shot.ogv

use std::env;
use std::error::Error;
use std::fs::File;
use wedgepetal::{Player, identification, recording, setup};

fn main() -> Result<(), Box<dyn Error>> {
    let path = env::args().nth(1).ok_or("usage: frames RECORDING")?;
    let packets = recording::packets(File::open(path)?)?;
    let [first, _, third, frames @ ..] = &packets[..] else {
        return Err("it ends before its first frame".into());
    };
    let session = identification(first)?;
    println!("{} bytes of memory", Player::memory(&session)?);
    let mut player = Player::new(session, setup(third)?)?;
    for frame in player.frames(frames) {
        match frame {
            Ok(frame) => {
                let [luma, _, _] = frame.picture();
                let sum: u64 = luma.rows().flatten().map(|sample| u64::from(*sample)).sum();
                let mean = sum / (luma.width * luma.height).max(1) as u64;
                println!("{}: {:?}, mean {mean}", frame.number(), frame.kind());
            }
            Err(refused) => println!("{refused}"),
        }
    }
    Ok(())
}
