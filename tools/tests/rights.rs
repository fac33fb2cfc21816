//! The command where it has no permission. One test alone, since a copy of the
//! command is run, which no other thread may hold open.
#![allow(missing_docs)]

mod common;

use common::{ended, good, names};
use std::fs::{self, Permissions};
use std::os::unix::fs::{MetadataExt, PermissionsExt};
use std::os::unix::process::CommandExt;
use std::path::{Path, PathBuf};
use std::process::Command;

/// A user without rights, as whom the command runs if these tests run as root.
const NOBODY: u32 = 65_534;

/// A folder that others may enter, with a copy of the command in it.
fn open_folder(name: &str) -> PathBuf {
    let path = std::env::temp_dir().join(format!("wedgepetal-{name}-{}", std::process::id()));
    fs::create_dir_all(&path).unwrap();
    fs::set_permissions(&path, Permissions::from_mode(0o755)).unwrap();
    fs::copy(env!("CARGO_BIN_EXE_wedgepetal"), path.join("command")).unwrap();
    path
}

/// Runs the copy of the command without rights on the folder.
fn run_without_rights(folder: &Path, words: &str) -> common::Ended {
    let mut command = Command::new(folder.join("command"));
    command.args(words.split_whitespace()).current_dir(folder);
    if fs::metadata("/proc/self").unwrap().uid() == 0 {
        command.uid(NOBODY).gid(NOBODY);
    }
    ended(&command.output().unwrap())
}

#[test]
fn missing_permission_is_said() {
    let folder = open_folder("rights");
    good(&folder, "sample s.packets");
    fs::write(folder.join("closed"), b"x").unwrap();
    fs::set_permissions(folder.join("closed"), Permissions::from_mode(0o000)).unwrap();
    fs::create_dir(folder.join("shut")).unwrap();
    fs::set_permissions(folder.join("shut"), Permissions::from_mode(0o555)).unwrap();
    for (words, wanted) in [
        ("info closed", "closed: Permission denied"),
        ("y4m s.packets shut/film", "shut/film: Permission denied"),
        (
            "frames s.packets shut/frames",
            "shut/frames: Permission denied",
        ),
        ("sample shut/s.packets", "shut/s.packets: Permission denied"),
    ] {
        let (status, _, err) = run_without_rights(&folder, words);
        assert!(status == 2 && err.contains(wanted), "{words}: {err}");
    }
    assert!(names(&folder.join("shut")).is_empty());
    fs::set_permissions(folder.join("shut"), Permissions::from_mode(0o755)).unwrap();
    fs::remove_dir_all(&folder).unwrap();
}
