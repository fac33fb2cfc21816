//! What is not whole is removed when the command is interrupted (Ctrl-C), ended
//! or hung up.
//!
//! The signals are held back from all threads but one, which waits for them.
//! When one comes, this thread removes what was begun and then lets the signal
//! end the process, so that a shell sees what happened.
#![allow(unsafe_code)]

use std::ffi::c_int;
use std::fs;
use std::path::{Path, PathBuf};
use std::ptr::null_mut;
use std::sync::{Mutex, MutexGuard, PoisonError};
use std::thread;

/// Room for a `sigset_t`.
#[repr(C)]
struct SignalSet([u64; 16]);

unsafe extern "C" {
    fn sigemptyset(set: *mut SignalSet) -> c_int;
    fn sigaddset(set: *mut SignalSet, signal: c_int) -> c_int;
    fn pthread_sigmask(how: c_int, set: *const SignalSet, old: *mut SignalSet) -> c_int;
    fn sigwait(set: *const SignalSet, signal: *mut c_int) -> c_int;
    fn signal(signal: c_int, handler: usize) -> usize;
    fn raise(signal: c_int) -> c_int;
}

/// `SIGHUP`, `SIGINT`, `SIGTERM`.
const SIGNALS: [c_int; 3] = [1, 2, 15];

/// `SIG_BLOCK`, `SIG_UNBLOCK`, `SIG_DFL`, `SIG_IGN`.
const BLOCK: c_int = 0;
const UNBLOCK: c_int = 1;
const DEFAULT: usize = 0;
const IGNORE: usize = 1;

/// What was begun and is not whole yet.
static BEGUN: Mutex<Vec<PathBuf>> = Mutex::new(Vec::new());

/// The paths that were begun. Whoever holds them may make files: nothing is
/// removed meanwhile, and nothing made after the removal.
pub fn begun() -> MutexGuard<'static, Vec<PathBuf>> {
    BEGUN.lock().unwrap_or_else(PoisonError::into_inner)
}

/// Removes a file or a folder that is not whole, if it is there.
pub fn remove(path: &Path) {
    // What cannot be removed stays under its temporary name.
    let _ = match path.is_dir() {
        true => fs::remove_dir_all(path),
        false => fs::remove_file(path),
    };
}

/// From now on the signals remove what was begun. Signals that whoever started
/// the command ignores, as nohup does, stay ignored.
pub fn watch() {
    let set = heard();
    // SAFETY: the set is filled, and nothing is written.
    unsafe { pthread_sigmask(BLOCK, &set, null_mut()) };
    thread::spawn(move || wait(&set));
}

/// The signals that are not ignored.
fn heard() -> SignalSet {
    let mut set = SignalSet([0; 16]);
    // SAFETY: there is room for the set. No handler is set but for a moment,
    // while there is one thread.
    unsafe {
        sigemptyset(&mut set);
        for number in SIGNALS {
            match signal(number, DEFAULT) {
                IGNORE => {
                    signal(number, IGNORE);
                }
                _ => {
                    sigaddset(&mut set, number);
                }
            }
        }
    }
    set
}

/// Waits for a signal, removes what was begun and ends the process.
fn wait(set: &SignalSet) {
    let mut number = 0;
    // SAFETY: the set is filled, and there is room for the number.
    while unsafe { sigwait(set, &mut number) } != 0 {}
    let paths = begun();
    paths.iter().for_each(|path| remove(path));
    // SAFETY: the set is filled. The signal has no handler, so that it ends
    // the process; the paths are held until then.
    unsafe {
        pthread_sigmask(UNBLOCK, set, null_mut());
        raise(number);
    }
    drop(paths);
}
