//! "write, flush and rename made to fail, by a full file system": a small one of its own, where the system allows to mount it; else a limit on
//! the size of files.

use crate::common::folders::{Desk, Place};
use crate::common::program::Ended;
use std::fs;
use std::io::Write;
use std::path::Path;
use std::process::{Command, Stdio};

/// With this argument and a folder the test runs itself where it may mount.
pub const INSIDE: &str = "--inside";

pub fn of_the_file_system() -> String {
    let place = Place::new("full");
    let itself = std::env::current_exe().unwrap();
    let inside = Command::new("unshare").args(["--map-root-user", "--mount"]).arg(itself).arg(INSIDE).arg(&place.path).output();
    match inside {
        Ok(ended) if ended.status.success() => String::from_utf8(ended.stdout).unwrap().trim_end().to_string(),
        Ok(ended) if ended.status.code() != Some(1) => panic!("{}", String::from_utf8_lossy(&ended.stderr)),
        _ => limited(&place.desk()),
    }
}

/// In a file system of 64 kB.
pub fn inside(folder: &str) {
    let folder = Path::new(folder);
    let mounted = Command::new("mount").args(["-t", "tmpfs", "-o", "size=64k", "tmpfs"]).arg(folder).stderr(Stdio::null()).status();
    if !mounted.is_ok_and(|status| status.success()) {
        std::process::exit(1);
    }
    let desk = Desk { path: folder.join("rack") };
    desk.taken(&["open", "promise", "10"]);
    let filler = folder.join("filler");
    let (mut answered, mut rounds) = (0, 0);
    for round in 0..5 {
        fill(&filler);
        answered += until_it_is_full(&desk);
        // What writes nothing works; what writes says that it cannot.
        let board = desk.run(&["board"]);
        assert_eq!((board.status, board.error.as_str()), (Some(0), ""));
        cannot(&desk.run(&["close"]));
        cannot(&Desk { path: folder.join("another") }.run(&["open", "loose", "4"]));
        assert!(!folder.join("another").exists());
        fs::remove_file(&filler).unwrap();
        desk.taken(&["wait", "1"]);
        if round % 2 == 0 {
            desk.taken(&["close"]);
        }
        rounds += 1;
    }
    assert_eq!(desk.taken(&["audit"]), format!("ok\t{}\n", desk.journal().len()));
    println!("{rounds} times in a file system of 64 kB, {answered} answers, all kept");
}

fn fill(filler: &Path) {
    let mut file = fs::File::create(filler).unwrap();
    while file.write_all(&[b'x'; 512]).is_ok() {}
}

fn cannot(ended: &Ended) {
    assert_eq!((ended.status, ended.output.as_str()), (Some(3), ""), "{}", ended.error);
    assert!(ended.error.contains("No space left on device") || ended.error.contains("File too large"), "{}", ended.error);
}

/// Plays a script until the file system is full. Its answers are in the journal, and nothing else is.
fn until_it_is_full(desk: &Desk) -> usize {
    let before = desk.journal().len();
    let script = "wait\t1\n".repeat(1_000);
    let ended = Ended::given(&mut desk.command(&["--words"]), script.as_bytes());
    assert_eq!(ended.status, Some(3), "{}", ended.error);
    assert!(ended.error.contains("nothing was changed"), "{}", ended.error);
    let answers = ended.output.lines().filter(|line| line.starts_with("it is minute")).count();
    assert_eq!(desk.journal().len() - before, answers);
    let bytes = desk.bytes(&format!("calls-{}", desk.generations().last().unwrap()));
    assert!(bytes.is_empty() || bytes.ends_with(b"\n"), "an unclosed line is left");
    answers
}

/// Files of at most 1,024 bytes, by a limit of the shell's.
fn limited(desk: &Desk) -> String {
    desk.taken(&["open", "promise", "10"]);
    let limited = |script: &str| {
        let mut command = Command::new("bash");
        command.args(["-c", "trap '' XFSZ; ulimit -f 1; exec \"$0\" \"$@\"", env!("CARGO_BIN_EXE_rack")]).arg(&desk.path).arg("--words");
        Ended::given(command.stdout(Stdio::piped()), script.as_bytes())
    };
    let ended = limited(&"wait\t1\n".repeat(1_000));
    assert_eq!(ended.status, Some(3), "{}", ended.error);
    let answers = ended.output.lines().filter(|line| line.starts_with("it is minute")).count();
    assert_eq!(desk.journal().len(), answers);
    desk.taken(&["wait", "1"]);
    assert_eq!(desk.taken(&["audit"]), format!("ok\t{}\n", answers + 1));
    format!(
        "not tested in a full file system, since none may be mounted here; with files of 1,024 bytes at most {answers} answers, all kept"
    )
}
