//! `examples/write-links`: what it writes, and what it refuses.

use std::fs;
use std::path::{Path, PathBuf};
use std::process::{Command, Output};

/// A text, and what is said of it behind its name.
const REFUSED: [(&str, &str); 26] = [
    ("", ": no line nodes N"),
    ("# nodes 4\n\n", ": no line nodes N"),
    ("nodes 0\n", ":1: 0 is not a number from 1 to 64"),
    ("nodes 65\n", ":1: 65 is not a number from 1 to 64"),
    ("nodes four\n", ":1: four is not a number from 1 to 64"),
    ("nodes\n", ":1: nodes takes 1 word, not 0"),
    ("nodes 4 5\n", ":1: nodes takes 1 word, not 2"),
    ("nodes 4\n\nnodes 4\n", ":3: a second number of nodes, 4; the first is in line 1"),
    ("link 0 1 1\nnodes 4\n", ":1: link before the number of nodes"),
    ("name 0 Ost\nnodes 4\n", ":1: name before the number of nodes"),
    ("nodes 4\nNAME 0 Ost\n", ":2: NAME is not nodes, name or link"),
    ("nodes 4\r\nwire 0 1 1\r\n", ":2: wire is not nodes, name or link"),
    ("nodes 4\nname 4 Ost\n", ":2: 4 is not a number from 0 to 3"),
    ("nodes 4\nname 0 7\n", ":2: 7 is a number, not a name"),
    ("nodes 4\nname 0 Ost\nname 1 Ost\n", ":3: Ost is the name of node 0 already"),
    ("nodes 4\nname 0 Ost\nname 0 West\n", ":3: node 0 has the name Ost already"),
    ("nodes 4\nlink 0 1\n", ":2: link takes 3 words, not 2"),
    ("nodes 4\nlink 0 1 1 1\n", ":2: link takes 3 words, not 4"),
    ("nodes 4\nlink 0 4 1\n", ":2: 4 is not a number from 0 to 3"),
    ("nodes 4\nlink 0 West 1\n", ":2: no node is named West"),
    ("nodes 4\nlink -1 0 1\n", ":2: no node is named -1"),
    ("nodes 4\nlink 0 1 0\n", ":2: 0 is not a number from 1 to 65535"),
    ("nodes 4\nlink 0 1 65536 # far\n", ":2: 65536 is not a number from 1 to 65535"),
    ("nodes 4\nlink 0 1 1e2\n", ":2: 1e2 is not a number from 1 to 65535"),
    ("nodes 4\nname 2 Ost\nlink Ost 2 1\n", ":3: a link from Ost to itself"),
    (
        "nodes 4\nlink 0 1 1\nlink 1 0 2",
        ":3: a second link between 1 and 0; the first is in line 2",
    ),
];

/// A folder that goes with the test.
struct Folder(PathBuf);

impl Folder {
    fn new(name: &str) -> Folder {
        let path = std::env::temp_dir().join(format!("write-links-{name}-{}", std::process::id()));
        fs::create_dir_all(&path).unwrap();
        Folder(path)
    }

    fn path(&self, name: &str) -> String {
        self.0.join(name).to_str().unwrap().into()
    }
}

impl Drop for Folder {
    fn drop(&mut self) {
        let _ = fs::remove_dir_all(&self.0);
    }
}

fn examples() -> PathBuf {
    Path::new(env!("CARGO_MANIFEST_DIR")).join("../examples")
}

fn write_links(words: &[&str]) -> Output {
    Command::new(examples().join("write-links")).args(words).output().unwrap()
}

/// The status and what is on standard error; nothing is on standard output.
fn refusal(words: &[&str]) -> (Option<i32>, String) {
    let Output { status, stdout, stderr } = write_links(words);
    assert_eq!(stdout, b"", "{words:?}");
    (status.code(), String::from_utf8(stderr).unwrap())
}

#[test]
fn writes_the_examples() {
    let folder = Folder::new("examples");
    for name in ["ring4", "railway"] {
        let text = examples().join(format!("{name}.txt"));
        let links = folder.path(name);
        assert_eq!(refusal(&[text.to_str().unwrap(), &links]), (Some(0), "".into()), "{name}");
        let expected = fs::read(examples().join(format!("{name}.links"))).unwrap();
        assert_eq!(fs::read(links).unwrap(), expected, "{name}");
    }
}

#[test]
fn sorts_links_by_names_and_numbers() {
    let folder = Folder::new("sorted");
    let (text, links) = (folder.path("text"), folder.path("links"));
    let lines = "nodes 010\n  link 9 8 65535\nname 09 Käse\r\nlink Käse 0 256#\nlink\t3 2 1";
    fs::write(&text, lines).unwrap();
    assert_eq!(refusal(&[&text, &links]), (Some(0), "".into()));
    let expected = [1, 10, 0, 3, 0, 9, 1, 0, 2, 3, 0, 1, 8, 9, 255, 255];
    assert_eq!(fs::read(links).unwrap(), expected);
}

#[test]
fn names_file_line_and_word_and_writes_nothing() {
    let folder = Folder::new("refused");
    let (text, links) = (folder.path("text"), folder.path("links"));
    fs::write(&links, "as before").unwrap();
    for (lines, why) in REFUSED {
        fs::write(&text, lines).unwrap();
        assert_eq!(refusal(&[&text, &links]), (Some(1), format!("{text}{why}\n")), "{lines:?}");
        assert_eq!(fs::read(&links).unwrap(), b"as before", "{lines:?}");
    }
}

#[test]
fn names_the_file_that_it_cannot_open() {
    let folder = Folder::new("files");
    let (text, links) = (folder.path("text"), folder.path("links"));
    fs::write(&text, "nodes 1\n").unwrap();
    let no_file = folder.path("no\nsuch");
    let no_folder = folder.path("nosuch/links");
    let cases = [
        (&no_file, &links, no_file.replace('\n', "\\n")),
        (&folder.path("."), &links, folder.path(".")),
        (&text, &no_folder, no_folder.clone()),
        (&text, &folder.path("."), folder.path(".")),
        (&text, &"/dev/full".into(), "/dev/full".into()),
    ];
    for (text, links, name) in cases {
        let (status, line) = refusal(&[text, links]);
        assert_eq!(status, Some(1), "{line}");
        assert!(line.starts_with(&format!("{name}: ")), "{line}");
        assert_eq!(line.lines().count(), 1, "{line}");
    }
}

#[test]
fn command_lines() {
    for words in [&[][..], &["one"], &["one", "two", "three"]] {
        let expected = "usage: write-links TEXT LINKS; see --help\n";
        assert_eq!(refusal(words), (Some(2), expected.into()), "{words:?}");
    }
    let help = write_links(&["--help"]);
    assert!(help.status.success() && help.stdout.starts_with(b"Writes the list of links"));
}
