//! The verbs that the Python module does.

mod common;

use common::{command, ended, folder};
use std::fs;
use std::os::unix::fs::PermissionsExt;

#[test]
fn words_go_to_the_python_module() {
    let folder = folder("python_words");
    let python = folder.join("python");
    fs::write(&python, "#!/bin/sh\necho \"$@\"\nexit 1\n").unwrap();
    fs::set_permissions(&python, fs::Permissions::from_mode(0o755)).unwrap();
    for words in [
        "report shot.ogv -o shot.html",
        "archive census --jobs 2 --out out shots",
        "archive --help",
    ] {
        let output = command(&folder, words)
            .env("WEDGEPETAL_PYTHON", &python)
            .output()
            .unwrap();
        let wanted = format!("-m wedgepetal {words}\n");
        assert_eq!(ended(&output), (1, wanted, String::new()));
    }
}

#[test]
fn a_module_that_is_not_there_is_said() {
    let folder = folder("python_none");
    let output = command(&folder, "report shot.ogv")
        .env("WEDGEPETAL_PYTHON", folder.join("none"))
        .output()
        .unwrap();
    let (status, _, said) = ended(&output);
    assert_eq!(status, 2);
    assert!(said.contains("No such file"), "{said}");
    let output = command(&folder, "help").output().unwrap();
    assert!(ended(&output).1.contains("report SHOT"));
}
