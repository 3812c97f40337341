//! The `compare` program notices what a `lay`, a `box` or a `tear` program does
//! wrong.

use std::fs;
use std::os::unix::fs::PermissionsExt;
use std::path::{Path, PathBuf};
use std::process::{Command, Output};

const REFERENCE: &str = env!("CARGO_BIN_EXE_reference");

/// A shell script in the place of `lay`, in which `$lay` is a right one.
fn script(directory: &Path, body: &str) -> PathBuf {
    let path = directory.join("lay");
    fs::write(&path, format!("#!/bin/sh\nlay='{REFERENCE} lay'\n{body}\n")).unwrap();
    fs::set_permissions(&path, fs::Permissions::from_mode(0o755)).unwrap();
    path
}

fn compare(program: &Path) -> Output {
    let mut command = Command::new(env!("CARGO_BIN_EXE_compare"));
    command.arg("--lay").arg(program).args(["--seed", "1", "--networks", "30"]);
    command.env("TMPDIR", program.parent().unwrap()).output().unwrap()
}

#[test]
fn wrong_programs_are_found_out() {
    // A case: name, script, and what the call is like that finds it out.
    let cases = [
        ("says nothing", "exit 0", ""),
        ("leaves out the last line", "$lay $* | sed '$d'", ""),
        ("leaves out the detours", "$lay $* | sed '/^detours/,$d'", ""),
        ("calls unused what is apart", "$lay $* | sed s/apart/unused/", ""),
        ("reads only files", "case $* in */*) $lay $* ;; esac", "< FILE"),
        ("reads only standard input", "case $* in */*) ;; *) $lay $* ;; esac", ""),
        ("fails with status 3", "$lay $* || exit 3", ""),
        ("ends with status 0", "$lay $*; exit 0", ""),
        (
            "mixes up faults 2 and 3",
            "$lay $* 2>$0.err || { sed s/t.3/t.2/ $0.err >&2; exit 1; }",
            "",
        ),
        ("says a fault twice", "$lay $* || { $lay $*; exit 1; }", ""),
        (
            "reads a part of the input",
            "case $* in *--summary*) $lay $* ;; *) cat $1 | head -c 8068 | $lay ;; esac",
            "",
        ),
        ("has no summary", "case $1 in --*) shift ;; esac; $lay $1", "--summary"),
        ("takes the option alone", "case $* in *' '*) ;; *) $lay $* ;; esac", "--summary"),
        ("takes the option first", "case $* in *' --'*) ;; *) $lay $* ;; esac", "FILE --summary"),
        ("takes the option last", "case $* in --*' '*) ;; *) $lay $* ;; esac", "--summary FILE"),
        ("repairs one less", "$lay $* | sed 's/^repaired 4032/repaired 4031/'", "--summary"),
        ("cuts nobody off", "$lay $* | sed 's/^cut off [0-9].*/cut off none/'", "--summary"),
        ("goes no detour", "$lay $* | sed 's/^longest [0-9].*/longest none/'", "--summary"),
    ];
    let directory = std::env::temp_dir().join(format!("compare-test-{}", std::process::id()));
    fs::create_dir_all(&directory).unwrap();
    for (name, body, call) in cases {
        let output = compare(&script(&directory, body));
        let text = String::from_utf8_lossy(&output.stdout);
        assert_eq!(output.status.code(), Some(1), "{name}: {text}");
        assert!(text.contains("input in hex:"), "{name}: {text}");
        assert!(text.contains(call), "{name}: {text}");
    }
    fs::remove_dir_all(&directory).unwrap();
}

fn compare_tear(directory: &Path, body: &str) -> Output {
    let path = directory.join("tear");
    fs::write(&path, format!("#!/bin/sh\ntear='{REFERENCE} tear'\n{body}\n")).unwrap();
    fs::set_permissions(&path, fs::Permissions::from_mode(0o755)).unwrap();
    let mut command = Command::new(env!("CARGO_BIN_EXE_compare"));
    command.arg("--tear").arg(&path).args(["--seed", "1", "--scripts", "60"]);
    command.env("TMPDIR", directory).output().unwrap()
}

#[test]
fn wrong_tear_programs_are_found_out() {
    // A case: name, script, and whether it is found out.
    let cases = [
        ("is right", "$tear $*", false),
        (
            "says why in other words",
            "$tear $* 2>$0.err || { sed 's/: .*/: no/' $0.err >&2; exit 1; }",
            false,
        ),
        ("says nothing", "exit 0", true),
        ("reads only files", "case $* in *' '*) $tear $* ;; esac", true),
        ("reads only standard input", "case $* in *' '*) ;; *) $tear $* ;; esac", true),
        ("ends with status 0", "$tear $*; exit 0", true),
        ("ends with status 2", "$tear $* || exit 2", true),
        (
            "miscounts lines",
            "$tear $* 2>$0.err || { sed s/line.5/line.4/ $0.err >&2; exit 1; }",
            true,
        ),
        ("says a bad line twice", "$tear $* || { $tear $* >$0.out; exit 1; }", true),
        ("drops what was printed", "$tear $* >$0.out || exit 1; cat $0.out", true),
        (
            "drops by 7 only",
            "$tear $* >$0.out; s=$?; sed 's/dropped 9/dropped 7/' $0.out; exit $s",
            true,
        ),
        (
            "refuses by 4 only",
            "$tear $* >$0.out; s=$?; sed 's/refused 5/refused 4/' $0.out; exit $s",
            true,
        ),
        ("waits for nobody", "$tear $* >$0.out; s=$?; sed '/: waits for/d' $0.out; exit $s", true),
    ];
    let directory = std::env::temp_dir().join(format!("compare-tear-{}", std::process::id()));
    fs::create_dir_all(&directory).unwrap();
    for (name, body, found_out) in cases {
        let output = compare_tear(&directory, body);
        let text = String::from_utf8_lossy(&output.stdout);
        assert_eq!(output.status.code(), Some(i32::from(found_out)), "{name}: {text}");
        assert_eq!(text.contains("links, script:"), found_out, "{name}: {text}");
    }
    fs::remove_dir_all(&directory).unwrap();
}

fn compare_box(directory: &Path, body: &str) -> Output {
    let path = directory.join("box");
    fs::write(&path, format!("#!/bin/sh\nbox='{REFERENCE} box'\n{body}\n")).unwrap();
    fs::set_permissions(&path, fs::Permissions::from_mode(0o755)).unwrap();
    let mut command = Command::new(env!("CARGO_BIN_EXE_compare"));
    command.arg("--box").arg(&path).args(["--seed", "1", "--streams", "60"]);
    command.env("TMPDIR", directory).output().unwrap()
}

#[test]
fn wrong_box_programs_are_found_out() {
    // A case: name, script, and whether it is found out.
    let cases = [
        ("is right", "$box $*", false),
        (
            "says why in other words",
            "$box $* 2>$0.err; sed 's/\\(fault .*\\): .*/\\1: no/' $0.err >&2",
            false,
        ),
        ("says nothing", "exit 0", true),
        ("leaves out the last byte", "$box $* >$0.out; head -c -1 $0.out", true),
        ("writes one byte more", "$box $*; printf 0", true),
        ("is always router 1", "$box 1", true),
        ("ends with status 1", "$box $*; exit 1", true),
        ("keeps faults to itself", "$box $* 2>$0.err", true),
        ("miscounts frames", "$box $* 2>$0.err; sed s/frame.1:/frame.2:/ $0.err >&2", true),
        ("complains once more", "$box $*; echo 'frame 1: fault 6: no' >&2", true),
        ("knows no cut frames", "cat >$0.in; $box $* <$0.in 2>$0.err; sed '$d' $0.err >&2", true),
        ("drops by 7 only", "$box $* 2>$0.err; sed 's/fault 9/fault 7/' $0.err >&2", true),
    ];
    let directory = std::env::temp_dir().join(format!("compare-box-{}", std::process::id()));
    fs::create_dir_all(&directory).unwrap();
    for (name, body, found_out) in cases {
        let output = compare_box(&directory, body);
        let text = String::from_utf8_lossy(&output.stdout);
        assert_eq!(output.status.code(), Some(i32::from(found_out)), "{name}: {text}");
        assert_eq!(text.contains("frames, outputs:"), found_out, "{name}: {text}");
    }
    fs::remove_dir_all(&directory).unwrap();
}
