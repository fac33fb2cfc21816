//! A whole file as bytes: mapped where it is a file, so that it takes no memory
//! of its own, else read.
#![allow(unsafe_code)]

use crate::Failure;
use crate::input;
use crate::memory::{Limit, counted};
use crate::target::is_standard;
use std::ffi::{c_int, c_void};
use std::fs::File;
use std::io::{self, Read};
use std::ops::Deref;
use std::os::fd::AsRawFd;
use std::path::Path;
use std::ptr::null_mut;
use std::slice;

unsafe extern "C" {
    fn mmap(
        place: *mut c_void,
        length: usize,
        protection: c_int,
        flags: c_int,
        file: c_int,
        offset: i64,
    ) -> *mut c_void;
    fn munmap(place: *mut c_void, length: usize) -> c_int;
}

/// `PROT_READ`, `MAP_PRIVATE`, `MAP_FAILED`.
const READ: c_int = 1;
const PRIVATE: c_int = 2;
const FAILED: usize = usize::MAX;

/// The bytes of a file, to be read. If another program cuts the file short
/// meanwhile, looking behind its end ends this one by a signal (SIGBUS).
pub enum Mapped {
    /// A file, and its length.
    File(*mut c_void, usize),
    /// What was read.
    Read(Vec<u8>),
}

impl Mapped {
    /// The bytes of a file, or of the standard input for "-". What is no file
    /// is read into memory, at most as much as the limit allows.
    ///
    /// # Errors
    ///
    /// It cannot be read, or is too long.
    pub fn open(path: &Path, limit: &Limit) -> Result<Mapped, Failure> {
        let failed = |error: io::Error| Failure::file(path, error);
        if is_standard(path) {
            return read(path, io::stdin(), limit);
        }
        let file = input::open(path)?;
        let data = file.metadata().map_err(failed)?;
        match usize::try_from(data.len()) {
            Ok(length @ 1..) if data.is_file() => map(&file, length).map_err(failed),
            _ => read(path, file, limit),
        }
    }
}

/// Maps a file of this length, which is not 0.
fn map(file: &File, length: usize) -> io::Result<Mapped> {
    // SAFETY: the system chooses the place, and the file is open.
    let place = unsafe { mmap(null_mut(), length, READ, PRIVATE, file.as_raw_fd(), 0) };
    match place as usize {
        FAILED => Err(io::Error::last_os_error()),
        _ => Ok(Mapped::File(place, length)),
    }
}

/// Reads what is no file.
fn read(path: &Path, from: impl Read, limit: &Limit) -> Result<Mapped, Failure> {
    let mut bytes = Vec::new();
    let most = limit.bytes().saturating_add(1);
    from.take(most)
        .read_to_end(&mut bytes)
        .map_err(|error| Failure::file(path, error))?;
    match bytes.len() as u64 > limit.bytes() {
        true => {
            let allowed = counted(limit.bytes());
            let text = format!("has more than {allowed}; a file may have any length");
            Err(Failure::file(path, text))
        }
        false => Ok(Mapped::Read(bytes)),
    }
}

impl Deref for Mapped {
    type Target = [u8];

    fn deref(&self) -> &[u8] {
        match self {
            // SAFETY: so many bytes are mapped from there on, until this is
            // dropped, and this process does not write them.
            Mapped::File(place, length) => unsafe { slice::from_raw_parts(place.cast(), *length) },
            Mapped::Read(bytes) => bytes,
        }
    }
}

impl Drop for Mapped {
    fn drop(&mut self) {
        if let Mapped::File(place, length) = self {
            // SAFETY: it was mapped, and nobody looks at it any more.
            unsafe { munmap(*place, *length) };
        }
    }
}
