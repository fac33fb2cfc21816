//! Counts what recordings hold, and holds the second of two files to the first
//! if it is a stream of frames.
//!
//!     cargo run --example archive -- a.ogv b.ogv
//!     cargo run --example archive -- a.ogv a.y4m

use std::env;
use std::error::Error;
use std::fs::{self, File};
use wedgepetal::{Checked, Report, check, recording};

fn main() -> Result<(), Box<dyn Error>> {
    let paths: Vec<String> = env::args().skip(1).collect();
    match &paths[..] {
        [shot, film] if film.ends_with(".y4m") => checked(shot, film),
        paths => counted(paths),
    }
}

/// Holds a stream of frames to a recording.
fn checked(shot: &str, film: &str) -> Result<(), Box<dyn Error>> {
    let packets = recording::packets(File::open(shot)?)?;
    match check(&packets, &fs::read(film)?)? {
        Checked::Passes => println!("{film} passes"),
        Checked::Differs(byte) => println!("{film} differs at byte {byte}"),
    }
    Ok(())
}

/// Counts recordings.
fn counted(paths: &[String]) -> Result<(), Box<dyn Error>> {
    let mut report = Report::default();
    for path in paths {
        report.count(&recording::packets(File::open(path)?)?)?;
    }
    let [intra, inter, repeat] = report.kinds();
    println!(
        "{intra} intra, {inter} inter, {repeat} repeats, {} refused",
        report.refused()
    );
    println!(
        "coded blocks {:?}, others {:?}",
        report.coded(),
        report.uncoded()
    );
    println!("macro blocks by mode {:?}", report.modes());
    Ok(())
}
