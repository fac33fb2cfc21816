//! The picture of a shot's changed tiles, drawn by matplotlib.

use super::{Count, seconds};
use crate::clock::Time;
use crate::json::Json;
use crate::target::{Target, said};
use std::ffi::OsStr;
use std::io::Write;
use std::path::{Path, PathBuf};
use std::process::{Command, Stdio};
use wedgepetal::{Settings, TileMap};

/// The program that draws, which is a part of this command.
const SCRIPT: &str = include_str!("picture.py");

/// Who may run it: the first that has matplotlib.
const PYTHONS: [&str; 2] = ["python3", "/usr/bin/python3"];

/// A picture that is asked for.
pub struct Picture {
    path: PathBuf,
    target: Target,
    format: &'static str,
    python: &'static str,
    /// The share of changed tiles of each frame that had one before it.
    times: Vec<Json>,
    shares: Vec<Json>,
    refused: Vec<Json>,
}

impl Picture {
    /// Plans a picture. Whether it can be drawn is known before anything is
    /// decoded.
    ///
    /// # Errors
    ///
    /// The file may not be written, its name says no format, or matplotlib is not
    /// there.
    pub fn plan(path: &Path, force: bool) -> Result<Picture, String> {
        let format = match path.extension().and_then(OsStr::to_str) {
            Some("svg") => "svg",
            Some("png") => "png",
            _ => return Err(said(path, "a picture is named FILE.svg or FILE.png")),
        };
        let python = PYTHONS.into_iter().find(|python| draws(python)).ok_or_else(|| {
            said(path, "drawing it needs python3 with matplotlib, which is not there (Debian package python3-matplotlib)")
        })?;
        Ok(Picture {
            path: path.to_path_buf(),
            target: Target::plan(path, force)?,
            format,
            python,
            times: Vec::new(),
            shares: Vec::new(),
            refused: Vec::new(),
        })
    }

    /// Takes what a packet at this time changed; a refused one, and a frame with
    /// none before it, has no map.
    pub fn take(&mut self, time: Time, accepted: bool, map: Option<TileMap<'_>>) {
        if let Some(map) = map {
            let share = super::share(map.changed() as u64, map.bytes.len() as u64);
            self.times.push(seconds(time));
            self.shares.push(Json::Decimal(format!("{share:.6}")));
        } else if !accepted {
            self.refused.push(seconds(time));
        }
    }

    /// Draws the picture of a shot of this name.
    pub fn draw(&mut self, name: &str, settings: &Settings, count: &Count) -> Result<(), String> {
        let (columns, rows) = count.grid.unwrap_or_default();
        let tiles = count.tiles.iter().copied().map(Json::Number);
        let shot = Json::Object(vec![
            ("name", Json::text(name)),
            ("side", Json::Number(settings.tile)),
            ("plane", Json::Number(settings.plane)),
            ("columns", Json::Number(columns as u64)),
            ("rows", Json::Number(rows as u64)),
            ("width", Json::Number(count.samples.0)),
            ("height", Json::Number(count.samples.1)),
            ("compared", Json::Number(count.compared)),
            ("counts", Json::List(tiles.collect())),
            ("times", Json::List(std::mem::take(&mut self.times))),
            ("shares", Json::List(std::mem::take(&mut self.shares))),
            ("refused", Json::List(std::mem::take(&mut self.refused))),
        ]);
        let drawn = run(self.python, self.format, shot.to_string().as_bytes());
        let bytes = drawn.map_err(|why| said(&self.path, why))?;
        self.target.open()?;
        self.target.write(|out| out.write_all(&bytes))?;
        self.target.flush()
    }

    /// Where it goes.
    pub fn target(&mut self) -> &mut Target {
        &mut self.target
    }
}

/// Whether this Python has what it needs.
fn draws(python: &str) -> bool {
    run(python, "try", b"").is_ok()
}

/// Runs the program; what it writes.
fn run(python: &str, word: &str, input: &[u8]) -> Result<Vec<u8>, String> {
    let said = |error: std::io::Error| format!("{python}: {error}");
    let mut child = Command::new(python)
        .args(["-c", SCRIPT, word])
        .stdin(Stdio::piped())
        .stdout(Stdio::piped())
        .stderr(Stdio::piped())
        .spawn()
        .map_err(said)?;
    let mut pipe = child.stdin.take().expect("it is a pipe");
    // It writes nothing before it has read all. If it ends early, its status
    // says so.
    let _ = pipe.write_all(input);
    drop(pipe);
    let output = child.wait_with_output().map_err(said)?;
    let last = String::from_utf8_lossy(&output.stderr);
    match output.status.success() {
        true => Ok(output.stdout),
        false => Err(format!(
            "{python}: {}",
            last.lines().last().unwrap_or("it failed")
        )),
    }
}
