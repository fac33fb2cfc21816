//! Links the library that `tools/archive` names: the built one of `dist/`, or,
//! where `crates/` has changed since, one that it proves and builds.

use std::env;
use std::fs;
use std::path::{Path, PathBuf};
use std::process::{Command, Output};

fn main() {
    let package = env::var("CARGO_MANIFEST_DIR").expect("cargo sets it");
    let workspace = Path::new(&package)
        .parent()
        .expect("the package lies in the workspace");
    for name in [
        "crates",
        "dist",
        "tools/archive",
        "tools/crates-tree",
        "tools/faces",
    ] {
        println!("cargo::rerun-if-changed={}", workspace.join(name).display());
    }
    let output = Command::new(workspace.join("tools/archive"))
        .output()
        .expect("tools/archive runs");
    if let Some(archive) = archive(&output) {
        link(&archive);
    }
}

/// The path that `tools/archive` prints. What it says is said.
fn archive(output: &Output) -> Option<PathBuf> {
    let kind = match output.status.success() {
        true => "warning",
        false => "error",
    };
    for line in String::from_utf8_lossy(&output.stderr).lines() {
        println!("cargo::{kind}={line}");
    }
    let path = String::from_utf8_lossy(&output.stdout);
    output.status.success().then(|| path.trim_end().into())
}

/// Links this library, and says in its documentation what it was made of.
fn link(archive: &Path) {
    let folder = archive.parent().expect("a file lies in a folder");
    println!("cargo::rustc-link-search=native={}", folder.display());
    println!("cargo::rustc-link-lib=static=wedgepetal");
    let text = fs::read_to_string(archive.with_extension("txt")).unwrap_or_default();
    let tree = text.lines().find_map(|line| line.strip_prefix("crates:"));
    println!(
        "cargo::rustc-env=WEDGEPETAL_CRATES={}",
        tree.unwrap_or("unknown").trim()
    );
}
