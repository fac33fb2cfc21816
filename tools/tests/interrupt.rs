//! The command where it is interrupted.
#![allow(missing_docs)]

mod common;

use common::{ended, folder, good, names};
use std::fs;
use std::io::Write;
use std::os::unix::process::ExitStatusExt;
use std::path::Path;
use std::process::{Child, ChildStdin, Command, Stdio};
use std::thread::sleep;
use std::time::Duration;

/// The command at work: it has read most of the sample and waits for the rest.
fn at_work(folder: &Path, words: &str) -> (Child, ChildStdin) {
    let file = fs::read(folder.join("s.packets")).unwrap();
    let mut command = common::command(folder, words);
    command.stdin(Stdio::piped()).stderr(Stdio::null());
    let mut child = command.spawn().unwrap();
    let mut input = child.stdin.take().unwrap();
    input.write_all(&file[..file.len() - 100]).unwrap();
    (child, input)
}

/// Waits until an output is begun; says whether it is.
fn is_begun(folder: &Path) -> bool {
    (0..1000).any(|_| {
        sleep(Duration::from_millis(10));
        names(folder).iter().any(|name| name.ends_with(".part"))
    })
}

/// Whether this process, and so the command that it starts, ignores a signal: a shell without job control has INT
/// ignored in what it starts in the background.
fn is_ignored(number: i32) -> bool {
    let status = fs::read_to_string("/proc/self/status").unwrap_or_default();
    status
        .lines()
        .find_map(|line| line.strip_prefix("SigIgn:"))
        .and_then(|mask| u64::from_str_radix(mask.trim(), 16).ok())
        .is_some_and(|mask| mask >> (number - 1) & 1 == 1)
}

#[test]
fn an_interrupted_output_is_removed() {
    let folder = folder("interrupted");
    good(&folder, "sample s.packets");
    for (name, number) in [("INT", 2), ("TERM", 15), ("HUP", 1)] {
        if is_ignored(number) {
            continue; // what the caller ignores stays ignored
        }
        for words in ["y4m - film --index i", "frames - f", "hashes - h"] {
            let (mut child, input) = at_work(&folder, words);
            let begun = is_begun(&folder);
            let kill = format!("kill -{name} {}", child.id());
            assert!(
                Command::new("sh")
                    .args(["-c", &kill])
                    .status()
                    .unwrap()
                    .success()
            );
            let status = child.wait().unwrap();
            drop(input);
            assert!(begun, "{words}: nothing was begun");
            assert_eq!(status.signal(), Some(number), "{words}: {status}");
            assert_eq!(names(&folder), ["s.packets"], "{words}");
        }
    }
}

#[test]
fn what_the_caller_ignores_stays_ignored() {
    let folder = folder("ignored");
    good(&folder, "sample s.packets");
    let program = env!("CARGO_BIN_EXE_wedgepetal");
    let script = format!(
        "trap '' HUP; (sleep 0.2; cat s.packets) | {program} y4m - film & sleep 0.1; kill -HUP $!; wait $!"
    );
    let output = Command::new("sh")
        .args(["-c", &script])
        .current_dir(&folder)
        .output()
        .unwrap();
    assert_eq!(ended(&output).0, 0);
    assert_eq!(names(&folder), ["film", "s.packets"]);
}
