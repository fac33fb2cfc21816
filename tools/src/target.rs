//! Where an output goes: a file that has a temporary name until it is whole, a
//! pipe, a device, or the standard output.

use crate::interrupt::{begun, remove};
use std::ffi::OsString;
use std::fs::{self, File, Metadata};
use std::io::{self, BufWriter, ErrorKind, Write};
use std::path::{Path, PathBuf};
use std::process;

/// An output that is asked for. Nothing is made before it is opened.
pub struct Target {
    path: PathBuf,
    force: bool,
    state: State,
}

/// How far an output has come.
enum State {
    /// Nothing is made yet.
    Planned,
    /// It is being written, under a temporary name if it is a file.
    Open(BufWriter<Box<dyn Write>>, Option<Temporary>),
    /// The pipe has no reader any more.
    Unread,
    /// All is written.
    Whole,
}

/// The name of the standard output.
pub fn is_standard(path: &Path) -> bool {
    path == Path::new("-")
}

impl Target {
    /// Plans an output.
    ///
    /// # Errors
    ///
    /// A file is there already and may not be replaced.
    pub fn plan(path: &Path, force: bool) -> Result<Target, String> {
        match found(path)? {
            Some(data) if data.is_dir() => Err(said(path, "is a folder")),
            Some(data) if data.is_file() && !force => Err(there(path)),
            _ => Ok(Target {
                path: resolved(path),
                force,
                state: State::Planned,
            }),
        }
    }

    /// Whether nothing is made yet.
    pub fn is_planned(&self) -> bool {
        matches!(self.state, State::Planned)
    }

    /// Makes the file, or opens what is there.
    pub fn open(&mut self) -> Result<(), String> {
        let (writer, temporary) = self.begin().map_err(|error| said(&self.path, error))?;
        self.state = State::Open(BufWriter::new(writer), temporary);
        Ok(())
    }

    /// The writer, and the temporary name if a file is made.
    fn begin(&self) -> io::Result<(Box<dyn Write>, Option<Temporary>)> {
        if is_standard(&self.path) {
            return Ok((Box::new(io::stdout()), None));
        }
        match fs::metadata(&self.path) {
            Ok(data) if !data.is_file() => {
                let file = File::options().write(true).open(&self.path)?;
                Ok((Box::new(file), None))
            }
            _ => {
                let (temporary, file) = Temporary::file(&self.path)?;
                Ok((Box::new(file), Some(temporary)))
            }
        }
    }

    /// Writes something, if it is open and there is still a reader.
    pub fn write(
        &mut self,
        what: impl FnOnce(&mut dyn Write) -> io::Result<()>,
    ) -> Result<(), String> {
        let State::Open(writer, _) = &mut self.state else {
            return Ok(());
        };
        match what(writer) {
            Err(error) if error.kind() == ErrorKind::BrokenPipe => {
                self.state = State::Unread;
                Ok(())
            }
            written => written.map_err(|error| self.said(error)),
        }
    }

    /// Writes the first bytes of a file anew.
    pub fn rewrite(&mut self, front: &[u8]) -> Result<(), String> {
        self.flush()?;
        let State::Open(_, Some(temporary)) = &self.state else {
            return Ok(());
        };
        let file = File::options().write(true).open(temporary.path());
        file.and_then(|mut file| file.write_all(front))
            .map_err(|error| self.said(error))
    }

    /// Whether it has no reader any more.
    pub fn is_unread(&self) -> bool {
        matches!(self.state, State::Unread)
    }

    /// Whether it goes to the standard output.
    pub fn is_standard(&self) -> bool {
        is_standard(&self.path)
    }

    /// Writes what is still held back.
    pub fn flush(&mut self) -> Result<(), String> {
        self.write(|out| out.flush())
    }

    /// All is written: a file takes its own name.
    pub fn finish(&mut self) -> Result<(), String> {
        self.flush()?;
        match std::mem::replace(&mut self.state, State::Whole) {
            State::Open(_, Some(temporary)) => temporary.rename(&self.path, self.force),
            State::Unread => {
                self.state = State::Unread;
                Ok(())
            }
            _ => Ok(()),
        }
    }

    /// What is said of it.
    fn said(&self, what: impl std::fmt::Display) -> String {
        said(&self.path, what)
    }
}

/// What is at a path, if something is.
fn found(path: &Path) -> Result<Option<Metadata>, String> {
    if is_standard(path) {
        return Ok(None);
    }
    match fs::metadata(path) {
        Err(_) if path.is_symlink() => Err(said(path, "is a link that leads nowhere")),
        Err(error) if error.kind() == ErrorKind::NotFound => Ok(None),
        found => found.map(Some).map_err(|error| said(path, error)),
    }
}

/// Where a path leads if it is a link, since that is what is to be written.
pub fn resolved(path: &Path) -> PathBuf {
    match path.is_symlink() {
        true => fs::canonicalize(path).unwrap_or_else(|_| path.to_path_buf()),
        false => path.to_path_buf(),
    }
}

/// What is said of a path.
pub fn said(path: &Path, what: impl std::fmt::Display) -> String {
    match is_standard(path) {
        true => format!("standard output: {what}"),
        false => format!("{}: {what}", path.display()),
    }
}

/// A file is there that may not be replaced.
fn there(path: &Path) -> String {
    said(path, "is there already; --force replaces it")
}

/// A file or a folder under a temporary name. It is removed if it does not get
/// its own.
pub struct Temporary(PathBuf);

impl Temporary {
    /// The temporary name beside a path: its own, this process, "part".
    fn name(path: &Path) -> PathBuf {
        let mut name = OsString::from(path);
        name.push(format!(".{}.part", process::id()));
        PathBuf::from(name)
    }

    /// Makes a file.
    fn file(path: &Path) -> io::Result<(Temporary, File)> {
        let name = Temporary::name(path);
        let mut begun = begun();
        let file = File::create_new(&name)?;
        begun.push(name.clone());
        Ok((Temporary(name), file))
    }

    /// Makes a folder.
    pub fn folder(path: &Path) -> io::Result<Temporary> {
        let name = Temporary::name(path);
        let mut begun = begun();
        fs::create_dir(&name)?;
        begun.push(name.clone());
        Ok(Temporary(name))
    }

    /// Where it lies.
    pub fn path(&self) -> &Path {
        &self.0
    }

    /// Gives it its own name. What is there is replaced if that is wanted.
    pub fn rename(self, path: &Path, force: bool) -> Result<(), String> {
        let mut begun = begun();
        let renamed = match force || self.0.is_dir() {
            true => fs::rename(&self.0, path),
            false => rename_new(&self.0, path),
        };
        match renamed {
            Err(error) if error.kind() == ErrorKind::AlreadyExists => return Err(there(path)),
            renamed => renamed.map_err(|error| said(path, error))?,
        }
        begun.retain(|name| *name != self.0);
        Ok(())
    }
}

impl Drop for Temporary {
    fn drop(&mut self) {
        let mut begun = begun();
        if begun.contains(&self.0) {
            remove(&self.0);
            begun.retain(|name| *name != self.0);
        }
    }
}

/// Renames a file to a name that nothing has, also if somebody else takes it at
/// this moment; where the file system cannot do that, if nothing has it now.
fn rename_new(from: &Path, to: &Path) -> io::Result<()> {
    match fs::hard_link(from, to) {
        Ok(()) => fs::remove_file(from),
        Err(error) if error.kind() == ErrorKind::AlreadyExists => Err(error),
        Err(_) if to.exists() => Err(ErrorKind::AlreadyExists.into()),
        Err(_) => fs::rename(from, to),
    }
}

/// Writes a whole file under a path.
pub fn write_file(path: &Path, force: bool, bytes: &[u8]) -> Result<(), String> {
    let mut target = Target::plan(path, force)?;
    target.open()?;
    target.write(|out| out.write_all(bytes))?;
    target.finish()
}
