//! The recording that is read.

use crate::Failure;
use crate::progress::{Counted, Progress};
use crate::target::is_standard;
use std::fs::{self, File};
use std::io::{self, BufReader, Read};
use std::os::unix::fs::MetadataExt;
use std::path::Path;

/// An open recording.
pub struct Input {
    /// Its name.
    pub name: String,
    /// Its bytes.
    pub reader: Box<dyn Read>,
    /// Says how far it is read.
    pub progress: Progress,
}

impl Input {
    /// Opens a file, or the standard input for "-".
    ///
    /// # Errors
    ///
    /// It cannot be opened.
    pub fn open(path: &Path, quiet: bool) -> Result<Input, Failure> {
        let (name, reader, total): (String, Box<dyn Read>, _) = match is_standard(path) {
            true => ("standard input".to_string(), Box::new(io::stdin()), None),
            false => {
                let file = open(path)?;
                let total = file.metadata().ok().filter(fs::Metadata::is_file);
                let total = total.map(|data| data.len());
                (path.display().to_string(), Box::new(file), total)
            }
        };
        let progress = Progress::new(quiet, total);
        let counted = Counted::new(reader, progress.bytes());
        Ok(Input {
            name,
            reader: Box::new(BufReader::new(counted)),
            progress,
        })
    }
}

/// Opens a file to be read.
pub fn open(path: &Path) -> Result<File, Failure> {
    let file = File::open(path).map_err(|error| Failure::file(path, error))?;
    match file.metadata().is_ok_and(|data| data.is_dir()) {
        true => Err(Failure::file(path, "is a folder")),
        false => Ok(file),
    }
}

/// Whether both paths lead to one file.
pub fn is_same_file(one: &Path, other: &Path) -> bool {
    let file = |path: &Path| fs::metadata(path).ok().filter(fs::Metadata::is_file);
    match (file(one), file(other)) {
        (Some(one), Some(other)) => (one.dev(), one.ino()) == (other.dev(), other.ino()),
        _ => false,
    }
}
