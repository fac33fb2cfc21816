//! The lines for Rust of the repository's README and of this crate's, run on a small recording.

#![allow(missing_docs)]

mod common;

use common::{header, inter, intra, setup_header};
use std::error::Error;
use std::fs::{self, File};
use std::path::Path;
use wedgepetal::recording::packet_file;
use wedgepetal::{Player, identification, recording, setup};

/// The lines themselves, in a folder that has a recording of that name.
#[rustfmt::skip]
fn lines() -> Result<(), Box<dyn Error>> {
    include!("readme/lines.rs");
    Ok(())
}

/// The first block of Rust of a text, without the lines that hide from a reader.
fn block(text: &str) -> Vec<&str> {
    text.lines()
        .skip_while(|line| !line.starts_with("```rust"))
        .skip(1)
        .take_while(|line| *line != "```")
        .filter(|line| !line.starts_with("# ") && !line.starts_with("use ") && !line.is_empty())
        .collect()
}

/// A packet file of a frame of 1 by 1 macro blocks and its change.
fn small_recording() -> Vec<u8> {
    packet_file::write(&[
        header([16, 16, 0, 0]),
        Vec::new(),
        setup_header(),
        intra(9, 10),
        inter(0, 9, 0),
    ])
}

#[test]
fn lines_run() {
    let folder = Path::new(env!("CARGO_TARGET_TMPDIR")).join("readme");
    fs::create_dir_all(&folder).unwrap();
    fs::write(folder.join("shot.ogv"), small_recording()).unwrap();
    std::env::set_current_dir(&folder).unwrap();
    lines().unwrap();
}

#[test]
fn both_pages_have_them() {
    let ours: Vec<&str> = include_str!("readme/lines.rs")
        .lines()
        .filter_map(|line| line.strip_prefix("    "))
        .collect();
    assert_eq!(block(include_str!("../../README.md")), ours);
    assert_eq!(block(include_str!("../README.md")), ours);
}
