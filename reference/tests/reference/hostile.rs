//! The `hostile` program notices what programs do wrong in hostile surroundings.

use std::fs;
use std::os::unix::fs::PermissionsExt;
use std::path::Path;
use std::process::{Command, Output};

/// A test of the program, what programs do, as a shell script, in which `$name` is the
/// program's name, and whether that passes.
const CASES: [(&str, &str, bool); 14] = [
    ("help", HELP, true),
    ("help", "echo usage: $name x", false),
    ("help", "case $1 in --version) echo $name 0.1 ;; *) echo usage: tear x ;; esac", false),
    ("help", "case $1 in --version) echo $name v1 ;; *) echo usage: $name x ;; esac", false),
    ("help", "case $1 in --version) echo $name 0.1 ;; *) echo usage: $name x >&2 ;; esac", false),
    ("bad-command-lines", "echo error: x >&2; echo \"try '$name --help'\" >&2; exit 2", true),
    ("bad-command-lines", "echo error: x >&2; echo \"try '$name --help'\" >&2; exit 1", false),
    ("bad-command-lines", "echo error: x >&2; echo \"try 'lay --help'\" >&2; exit 2", false),
    ("bad-command-lines", "echo \"error: x\n\ntry '$name --help'\" >&2; exit 2", false),
    ("bad-command-lines", "echo error: \"$@\" >&2; echo \"try '$name --help'\" >&2; exit 2", false),
    ("file-names", "echo \"$1: No such file or directory\" >&2; exit 1", false),
    ("short-memory", "printf '\\003\\003\\000\\001\\003'", false),
    ("small-stack", "cat", true),
    ("small-stack", "ulimit -s", false),
];

const HELP: &str = "case $1 in --version) echo $name 0.1.0 ;; *) echo usage: $name x ;; esac";

fn write_programs(directory: &Path, body: &str) {
    for name in ["lay", "box", "tear"] {
        let path = directory.join(name);
        fs::write(&path, format!("#!/bin/sh\nname={name}\n{body}\n")).unwrap();
        fs::set_permissions(&path, fs::Permissions::from_mode(0o755)).unwrap();
    }
}

fn hostile(directory: &Path, test: &str) -> Output {
    let mut command = Command::new(env!("CARGO_BIN_EXE_hostile"));
    for name in ["lay", "box", "tear"] {
        command.arg(format!("--{name}")).arg(directory.join(name));
    }
    command.args(["--only", test]).env("TMPDIR", directory).output().unwrap()
}

#[test]
fn wrong_programs_are_found_out() {
    let directory = std::env::temp_dir().join(format!("hostile-test-{}", std::process::id()));
    fs::create_dir_all(&directory).unwrap();
    for (test, body, passes) in CASES {
        write_programs(&directory, body);
        let output = hostile(&directory, test);
        let text = String::from_utf8_lossy(&output.stdout);
        assert_eq!(output.status.code(), Some(if passes { 0 } else { 1 }), "{body}: {text}");
        let end = if passes { "all passed\n" } else { "failed\n" };
        assert!(text.ends_with(end), "{body}: {text}");
    }
    fs::remove_dir_all(&directory).unwrap();
}

#[test]
fn programs_and_tests_must_be_there() {
    let directory = Path::new("/nosuch");
    assert_eq!(hostile(directory, "help").status.code(), Some(2));
    assert_eq!(hostile(directory, "nosuch").status.code(), Some(2));
}
