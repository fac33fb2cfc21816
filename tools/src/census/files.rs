//! The files of a census.

use crate::Failure;
use std::fs::{self, File};
use std::io::Read;
use std::path::{Path, PathBuf};
use wedgepetal::recording::kind::{LOOKED_AT, kind};

/// The files that were named, and those of the folders that were named.
#[derive(Debug, Default)]
pub struct Files {
    /// Each with its length in bytes.
    pub files: Vec<(PathBuf, u64)>,
    /// How many files of folders are no recordings.
    pub passed_over: u64,
    /// What of the folders cannot be read.
    pub unread: Vec<String>,
}

/// Finds all files: those that are named as they are, of folders the recordings
/// in them and in the folders below, in the order of their names.
///
/// # Errors
///
/// A path leads nowhere.
pub fn find<'a>(paths: impl Iterator<Item = &'a Path>) -> Result<Files, Failure> {
    let mut all = Files::default();
    for path in paths {
        let data = fs::metadata(path).map_err(|error| Failure::file(path, error))?;
        match data.is_dir() {
            true => all.folder(path),
            false => all.files.push((path.to_path_buf(), data.len())),
        }
    }
    Ok(all)
}

impl Files {
    /// The recordings of a folder. Links to folders are not followed.
    fn folder(&mut self, folder: &Path) {
        let paths = fs::read_dir(folder).and_then(|entries| {
            let paths: Result<Vec<PathBuf>, _> = entries
                .map(|entry| entry.map(|entry| entry.path()))
                .collect();
            paths
        });
        let mut paths = match paths {
            Ok(paths) => paths,
            Err(error) => {
                self.unread.push(format!("{}: {error}", folder.display()));
                return;
            }
        };
        paths.sort();
        for path in paths {
            match fs::metadata(&path) {
                Ok(data) if data.is_dir() && !path.is_symlink() => self.folder(&path),
                Ok(data) if data.is_file() => self.file(path, data.len()),
                Ok(_) => self.passed_over += 1,
                Err(error) => self.unread.push(format!("{}: {error}", path.display())),
            }
        }
    }

    /// A file of a folder, if it is a recording.
    fn file(&mut self, path: PathBuf, bytes: u64) {
        let mut first = Vec::new();
        let read =
            File::open(&path).and_then(|file| file.take(LOOKED_AT as u64).read_to_end(&mut first));
        match read {
            Err(error) => self.unread.push(format!("{}: {error}", path.display())),
            Ok(_) if kind(&first).is_err() => self.passed_over += 1,
            Ok(_) => self.files.push((path, bytes)),
        }
    }
}
