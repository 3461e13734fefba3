//! The command `rack`, run as a program: what it prints for every sheet that the gate plays and for the scripts and desks of `scripts/data/`, byte
//! for byte; that it answers a line before it reads the next; and how it ends where it cannot read or write.

mod common;

use common::gate;
use common::program::{self, played, rack, Ended};
use hingerota_host::{LOGIC, VERSION};
use std::fs::{read, read_dir, write, File};
use std::io::{BufRead, BufReader, Write};
use std::path::{Path, PathBuf};
use std::process::{Command, Stdio};

/// "A sheet has at most 65,536 bytes": of the sheet alone, not of a script.
const LONGEST_SHEET: usize = 65_536;

fn root() -> PathBuf {
    Path::new(env!("CARGO_MANIFEST_DIR")).join("..")
}

/// The files below a folder whose names end so, in the order of their names.
fn files(folder: &Path, ending: &str) -> Vec<PathBuf> {
    let mut found = Vec::new();
    for entry in read_dir(folder).unwrap() {
        let path = entry.unwrap().path();
        if path.is_dir() {
            found.extend(files(&path, ending));
        } else if path.extension().is_some_and(|e| e == ending) {
            found.push(path);
        }
    }
    found.sort();
    found
}

/// Every file that ends so, sent with these arguments, prints what stands beside it in a file that ends in `out`.
fn prints_what_stands_beside(folder: &Path, ending: &str, arguments: impl Fn(&Path) -> Vec<String>) {
    let all = files(folder, ending);
    assert!(!all.is_empty(), "nothing to play in {}", folder.display());
    for path in all {
        let expected = read(path.with_extension("out")).unwrap();
        let arguments = arguments(&path);
        let arguments: Vec<&str> = arguments.iter().map(String::as_str).collect();
        program::same(&path, &played(&arguments, &read(&path).unwrap()), &expected);
    }
}

fn data() -> PathBuf {
    root().join("host/tests/scripts/data")
}

/// A script begins with the desk whose lines stand beside it, if there are such.
#[test]
fn scripts() {
    prints_what_stands_beside(&data(), "rack", |script| {
        let desk = script.with_extension("desk");
        if desk.exists() {
            vec!["--from".into(), desk.to_str().unwrap().into()]
        } else {
            vec![]
        }
    });
}

#[test]
fn texts_of_desks() {
    prints_what_stands_beside(&data().join("text"), "desk", |_| vec!["--check".into()]);
}

#[test]
fn sheets_of_the_readme() {
    prints_what_stands_beside(&root().join("examples"), "sheet", |_| vec![]);
}

#[test]
fn sheets_of_the_gate() {
    let crates = root().join("crates");
    for (path, expected) in gate::printouts(&crates.join("sheets")) {
        let sheet = read(&path).unwrap();
        if sheet.len() <= LONGEST_SHEET {
            program::same(&path, &played(&[], &sheet), &expected);
        }
    }
    let sheet = crates.join("sheet");
    program::same(&sheet, &played(&[], &read(sheet.join("stdin")).unwrap()), &read(sheet.join("stdout")).unwrap());
}

/// "A script has no limit on size", nor has a line of it.
#[test]
fn a_script_of_any_size() {
    let mut script = b"desk\tpromise\t4\t0\t1\t0\t63\t1\n".to_vec();
    script.extend(b"end\t0\n".repeat(50_000));
    script.extend(b"in\t1\t5\tA".repeat(100_000));
    script.extend(b"\nin\t1\t5\tA\n");
    let mut expected = b"no\t7\n".repeat(50_000);
    expected.extend(b"no\t9\ntook\t1\t0\nstart\t1\t0\n");
    program::same(Path::new("a long script"), &played(&[], &script), &expected);
}

/// Nor has a text that is read back: all of its lines are read before a condition is tested.
#[test]
fn a_text_of_any_size() {
    let mut text = b"desk\tpromise\t4\t0\t2\t0\t63\t1\n".to_vec();
    text.extend(b"1\t1\t5\tw\t5\t5\t0\tA\t0\t0\t0\t0\n".repeat(100_000));
    program::same(Path::new("a long text"), &played(&["--check"], &text), b"no\t23\n");
    text.pop();
    program::same(Path::new("a long text"), &played(&["--check"], &text), b"no\t22\n");
}

/// What `text` prints is a file for `--check` and `--from`.
#[test]
fn lines_printed_are_read() {
    let folder = Path::new(env!("CARGO_TARGET_TMPDIR"));
    for kind in ["promise", "loose"] {
        let script = format!("desk\t{kind}\t10\t0\t1\t7\t62\t2\nin\t6\t5\t20\tA\nin\t8\t10\tB\nin\t4\t25\tA\nwait\t20\ntext\n");
        let printed = played(&[], script.as_bytes());
        let lines = String::from_utf8(printed).unwrap();
        let lines = &lines[lines.find("desk").unwrap()..];
        assert_eq!(lines.lines().count(), 4, "{lines}");
        program::same(Path::new(kind), &played(&["--check"], lines.as_bytes()), b"ok\n");
        let file = folder.join(kind);
        write(&file, lines).unwrap();
        let from = ["--from", file.to_str().unwrap()];
        program::same(&file, &played(&from, b"text\nreread\ntext\n"), lines.repeat(2).as_bytes());
    }
}

#[test]
fn a_line_is_answered_before_the_next_is_sent() {
    let mut child = rack(&[]).stdin(Stdio::piped()).stdout(Stdio::piped()).spawn().unwrap();
    let (mut ask, mut answers) = (child.stdin.take().unwrap(), BufReader::new(child.stdout.take().unwrap()));
    ask.write_all(b"desk\tloose\t10\t0\t1\t0\t63\t1\n").unwrap();
    for (line, answer) in [
        ("in\t6\t20\tA\n", "took\t1\t-\nstart\t1\t0\n"),
        ("in\t8\t10\tB\n", "took\t2\t-\nhead\t2\t20\n"),
        ("in\n", "no\t9\n"),
        ("in\t1\t6\t5\tB\n", "no\t19\n"),
        ("in\t1\t5\tB\n", "no\t15\n"),
        ("wait\t20\n", "over\t1\t20\nstart\t2\t20\n"),
    ] {
        ask.write_all(line.as_bytes()).unwrap();
        for expected in answer.lines() {
            let mut got = String::new();
            answers.read_line(&mut got).unwrap();
            assert_eq!(got.trim_end_matches('\n'), expected, "{line}");
        }
    }
    drop(ask);
    assert!(child.wait().unwrap().success());
}

/// A failure is one line on standard error, and the status 1.
fn fails(ended: Ended, says: &str) {
    assert_eq!(ended.status, Some(1), "{}", ended.error);
    assert_eq!(ended.error.lines().count(), 1, "{}", ended.error);
    assert!(ended.error.starts_with("rack: ") && ended.error.contains(says), "{}", ended.error);
}

#[test]
fn what_cannot_be_read() {
    let folder = || File::open(root()).unwrap();
    fails(Ended::of(rack(&[]).stdin(folder())), "the script cannot be read");
    fails(Ended::of(rack(&["--check"]).stdin(folder())), "the lines cannot be read");
    let root = root();
    let (missing, unreadable) = (root.join("no-such-file"), root.to_str().unwrap());
    for file in [missing.to_str().unwrap(), unreadable, ""] {
        fails(Ended::of(rack(&["--from", file]).stdin(Stdio::null())), &format!("{file} cannot be read"));
    }
    let desk = data().join("text/form-ok.desk");
    fails(Ended::of(rack(&["--from", desk.to_str().unwrap()]).stdin(folder())), "the script cannot be read");
}

/// Lines that are refused end it: the script is not read.
#[test]
fn a_script_from_lines_that_are_refused() {
    let desk = data().join("text/form-house-c.desk");
    let (unread, arguments) = (File::open(root()).unwrap(), ["--from", desk.to_str().unwrap()]);
    let ended = Ended::of(rack(&arguments).stdin(unread).stdout(Stdio::piped()));
    assert_eq!((ended.status, ended.output.as_str(), ended.error.as_str()), (Some(0), "no\t23\n", ""));
}

#[test]
fn what_cannot_be_written() {
    let script = || File::open(root().join("examples/promise.sheet")).unwrap();
    let full = File::options().write(true).open("/dev/full").unwrap();
    fails(Ended::of(rack(&[]).stdin(script()).stdout(full)), "cannot be written");
    let (reader, closed) = std::io::pipe().unwrap();
    drop(reader);
    fails(Ended::of(rack(&[]).stdin(script()).stdout(closed)), "cannot be written");
    let unwritable = || File::open("/dev/null").unwrap();
    fails(Ended::of(rack(&["--help"]).stdout(unwritable())), "cannot be written");
    fails(Ended::of(rack(&["--check"]).stdin(Stdio::null()).stdout(unwritable())), "cannot be written");
    fails(Ended::of(rack(&["--from", "/dev/null"]).stdin(Stdio::null()).stdout(unwritable())), "cannot be written");
}

/// The number of the logic is the one that the toolchain names, where it is there.
#[test]
fn version() {
    assert_eq!(played(&["--version"], b""), format!("rack {VERSION}, with a library proved by logic {LOGIC}\n").into_bytes());
    if let Ok(kit) = Command::new("rt").arg("version").output() {
        let kit = String::from_utf8(kit.stdout).unwrap();
        assert!(kit.trim().ends_with(&format!(" logic {LOGIC}")), "{kit}");
    }
}

#[test]
fn arguments() {
    let of = |arguments| Ended::of(rack(arguments).stdin(Stdio::null()).stdout(Stdio::piped()));
    let help = of(&["--help"]);
    assert_eq!((help.status, help.error.as_str()), (Some(0), ""));
    for word in [
        "usage:",
        "desk",
        "CLEANUP A B",
        "in NODES [LEAST] MOST HOUSE",
        "end TICKET",
        "drop TICKET",
        "correct TICKET NODES [LEAST] MOST",
        "wait MINUTES",
        "  change  ",
        "profile",
        "index",
        "reads",
        "soonest TICKET",
        "board",
        "longest NODES HOUSE MINUTE",
        "  why  ",
        "  text  ",
        "  reread  ",
        "rack --from FILE <SCRIPT",
        "rack --check <LINES",
        "rack DIR open promise|loose NODES [--clearing C] [--places A B] [--minute M] [--ticket T] [--since TIME]",
        "rack DIR repair --to-line K",
        "Status: 0 taken; 1 refused, or a line of the script was; 2 wrong usage; 3 cannot read or write",
    ] {
        assert!(help.output.contains(word), "{word}");
    }
    let from = [&["--from"][..], &["--from=desk"], &["--from", "desk", "more"], &["--from", "desk", "--check"]];
    let others =
        [&["-h"][..], &["--help", "--help"], &["--version", "1"], &[""], &["", "open"], &["--check", "desk"], &["--check", "--check"]];
    for wrong in from.into_iter().chain(others) {
        let ended = of(wrong);
        assert_eq!((ended.status, ended.output.as_str()), (Some(2), ""), "{wrong:?}");
        assert_eq!(ended.error, help.output, "{wrong:?}");
    }
}
