//! What the tests of the command share: folders, runs, and recordings.
#![allow(dead_code)]

use recording::ogg;
use std::fs;
use std::path::{Path, PathBuf};
use std::process::{Command, Output, Stdio};

/// An empty folder for a test.
pub fn folder(name: &str) -> PathBuf {
    let path = Path::new(env!("CARGO_TARGET_TMPDIR")).join(name);
    let _ = fs::remove_dir_all(&path);
    fs::create_dir_all(&path).unwrap();
    path
}

/// The command with these words, in a folder.
pub fn command(folder: &Path, words: &str) -> Command {
    let mut command = Command::new(env!("CARGO_BIN_EXE_wedgepetal"));
    command.args(words.split_whitespace()).current_dir(folder);
    command.stdin(Stdio::null());
    command
}

/// How the command ended: its status, what went to the standard output, what
/// to the standard error.
pub type Ended = (i32, String, String);

/// How the command ended.
pub fn ended(output: &Output) -> Ended {
    let text = |bytes: &[u8]| String::from_utf8_lossy(bytes).into_owned();
    let status = output.status.code().unwrap();
    (status, text(&output.stdout), text(&output.stderr))
}

/// Runs the command in a folder.
pub fn run(folder: &Path, words: &str) -> Ended {
    ended(&command(folder, words).output().unwrap())
}

/// Runs the command in a folder, and says what it says if it does not end well.
pub fn good(folder: &Path, words: &str) -> String {
    let (status, out, err) = run(folder, words);
    assert_eq!((status, &err[..]), (0, ""), "{words}: {out}");
    out
}

/// The names of all files in a folder.
pub fn names(folder: &Path) -> Vec<String> {
    let entries = fs::read_dir(folder).unwrap();
    let name = |entry: std::io::Result<fs::DirEntry>| entry.unwrap().file_name();
    let mut names: Vec<String> = entries
        .map(|entry| name(entry).into_string().unwrap())
        .collect();
    names.sort();
    names
}

/// The packets of the sample: three headers and seven frames, of which the
/// first is a key frame.
pub fn sample_packets(folder: &Path) -> Vec<Vec<u8>> {
    good(folder, "sample --quiet sample.packets --force");
    let file = fs::read(folder.join("sample.packets")).unwrap();
    fs::remove_file(folder.join("sample.packets")).unwrap();
    recording::packets(&file[..]).unwrap()
}

/// The identification header with other bytes from a place on.
pub fn changed_header(packets: &[Vec<u8>], place: usize, bytes: &[u8]) -> Vec<Vec<u8>> {
    let mut changed = packets.to_vec();
    changed[0][place..place + bytes.len()].copy_from_slice(bytes);
    changed
}

/// The pages of an Ogg file, a packet on each: three headers, and the frames so
/// many times, each time from a key frame on.
pub fn pages(serial: u32, packets: &[Vec<u8>], times: u64) -> Vec<Vec<u8>> {
    const SHIFT: u64 = 6;
    let (headers, frames) = packets.split_at(3);
    let count = frames.len() as u64;
    let frame = |number: u64| {
        let after = number % count;
        let granule = (number - after + 1) << SHIFT | after;
        (frames[after as usize].clone(), granule)
    };
    let headers = headers.iter().map(|header| (header.clone(), 0));
    let all: Vec<_> = headers.chain((0..times * count).map(frame)).collect();
    ogg::pages(serial, &all).unwrap()
}
