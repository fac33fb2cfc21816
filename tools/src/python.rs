//! The verbs of the Python module: a page for a shot, and archives of shots. The
//! module takes the place of this command.

use std::ffi::{OsStr, OsString};
use std::io;
use std::os::unix::process::CommandExt;
use std::process::{Command, Stdio};

/// How these verbs are called, and what they do.
pub const VERBS: [(&str, &str); 2] = [
    (
        "report SHOT",
        "writes a page for a shot, one file that opens without a network",
    ),
    (
        "archive VERB FOLDER..",
        "does the same with every shot of folders, also on Slurm",
    ),
];

/// Who may run the module, unless `WEDGEPETAL_PYTHON` says it: the first that has it.
const PYTHONS: [&str; 2] = ["python3", "/usr/bin/python3"];

/// Whether these words are for the Python module.
pub fn takes(words: &[OsString]) -> bool {
    let first = words.first().and_then(|word| word.to_str());
    VERBS
        .iter()
        .any(|(call, _)| call.split(' ').next() == first)
}

/// Runs the Python module in place of this process. It comes back only to say why
/// that cannot be done.
pub fn run(words: &[OsString]) -> String {
    let named = std::env::var_os("WEDGEPETAL_PYTHON");
    let python = match &named {
        Some(python) => Some(python.as_os_str()),
        None => PYTHONS
            .iter()
            .map(OsStr::new)
            .find(|python| has_module(python)),
    };
    let Some(python) = python else {
        return "this verb is the Python module's, which is not there: python/README.md says how to install it, \
                and the variable WEDGEPETAL_PYTHON which Python has it"
            .to_string();
    };
    let error: io::Error = Command::new(python)
        .args(["-m", "wedgepetal"])
        .args(words)
        .exec();
    format!("{}: {error}", python.to_string_lossy())
}

/// Whether a Python has the module.
fn has_module(python: &OsStr) -> bool {
    Command::new(python)
        .args(["-c", "import wedgepetal"])
        .stdin(Stdio::null())
        .stdout(Stdio::null())
        .stderr(Stdio::null())
        .status()
        .is_ok_and(|status| status.success())
}
