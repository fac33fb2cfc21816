//! The examples as a user runs them, on a small packet file.
#![allow(missing_docs)]

mod common;

use common::{header, inter, intra, setup_header};
use std::path::{Path, PathBuf};
use std::process::Command;
use std::{env, fs};
use wedgepetal::recording::packet_file;

/// An example that cargo has built beside this test.
fn example(name: &str, words: &[&Path]) -> (bool, String) {
    let test = env::current_exe().unwrap();
    let folder = test.parent().and_then(Path::parent).unwrap();
    let output = Command::new(folder.join("examples").join(name))
        .args(words)
        .output()
        .unwrap();
    let said = [output.stdout, output.stderr].concat();
    (output.status.success(), String::from_utf8(said).unwrap())
}

/// A recording of a frame and its change, in a folder of this test.
fn recording(name: &str) -> PathBuf {
    let packets = [
        header([16, 16, 0, 0]),
        Vec::new(),
        setup_header(),
        intra(9, 10),
        inter(0, 9, 0),
        vec![0x80],
    ];
    let path = Path::new(env!("CARGO_TARGET_TMPDIR")).join(name);
    fs::write(&path, packet_file::write(&packets)).unwrap();
    path
}

#[test]
fn the_examples_run() {
    let path = recording("examples.packets");
    let (good, said) = example("frames", &[&path]);
    assert!(good && said.contains("0: Intra, mean "), "{said}");
    assert!(said.ends_with(
        "packet 5: refused by 10, the first bit of a frame packet is 1, at bit 0 of 8\n"
    ));
    let (good, said) = example("tiles", &[&path]);
    assert!(good && said.starts_with("1 of 1 changed\n#\n"), "{said}");
    let (good, said) = example("archive", &[&path, &path]);
    assert!(
        good && said.starts_with("2 intra, 2 inter, 0 repeats, 2 refused\n"),
        "{said}"
    );
    let film = path.with_extension("y4m");
    fs::write(&film, b"").unwrap();
    let (good, said) = example("archive", &[&path, &film]);
    assert!(!good && said.contains("packet: 5"), "{said}");
    let (good, said) = example("frames", &[]);
    assert!(!good && said.contains("usage"), "{said}");
}
