//! The words of scripts as commands: what they print, and their statuses.

use super::played::{line, opening, play};
use crate::common::folders::{Desk, Place};
use crate::common::program::{self, Ended};
use crate::common::random::Random;
use std::fs::{self, File};
use std::path::{Path, PathBuf};

pub fn statuses_and_printouts() -> String {
    let scripts = scripts_of_data();
    let (lines, refused) = words_as_arguments();
    let wrong = statuses();
    format!("{scripts} scripts in folders, {lines} lines as commands, {refused} of these refused, {wrong} commands with other statuses")
}

/// The scripts of `../scripts/data`, which print the same in a folder.
fn scripts_of_data() -> usize {
    let data = Path::new(env!("CARGO_MANIFEST_DIR")).join("tests/scripts/data");
    let place = Place::new("scripts");
    let mut played = 0;
    let every = crate::count("SCRIPTS", 1) as usize;
    for script in scripts(&data).into_iter().step_by(every) {
        let text = fs::read_to_string(&script).unwrap_or_default();
        let Some((first, rest)) = text.split_once('\n') else { continue };
        let ["desk", kind, nodes, minute, ticket, clearing, a, b] = first.split('\t').collect::<Vec<_>>()[..] else { continue };
        let desk = place.desk();
        let _ = fs::remove_dir_all(&desk.path);
        let options = ["--minute", minute, "--ticket", ticket, "--clearing", clearing, "--places", a, b];
        let opened = desk.run(&[&["open", kind, nodes], &options[..]].concat());
        let expected = fs::read(script.with_extension("out")).unwrap();
        if opened.status != Some(0) {
            assert!(expected.starts_with(b"no\t"), "{}: {}", script.display(), opened.error);
            assert!(opened.status == Some(2) || opened.output.as_bytes() == expected, "{}", script.display());
            continue;
        }
        let input = script.with_extension("rest");
        let input = place.path.join(input.file_name().unwrap());
        fs::write(&input, rest).unwrap();
        let ended = Ended::of(desk.command(&[]).stdin(File::open(&input).unwrap()));
        assert_eq!(ended.status, Some(i32::from(expected.split(|byte| *byte == b'\n').any(|line| line.starts_with(b"no\t")))));
        program::same(&script, ended.output.as_bytes(), &expected);
        desk.taken(&["audit"]);
        played += 1;
    }
    assert!(played * every > 50, "{played} scripts");
    played
}

fn scripts(folder: &Path) -> Vec<PathBuf> {
    let mut found = Vec::new();
    for entry in fs::read_dir(folder).unwrap() {
        let path = entry.unwrap().path();
        if path.is_dir() {
            found.extend(scripts(&path));
        } else if path.extension().is_some_and(|ending| ending == "rack") && !path.with_extension("desk").exists() {
            found.push(path);
        }
    }
    found.sort();
    found
}

/// Each line by itself: what the model prints, and status 0 or 1. Refused ones and questions are not written.
fn words_as_arguments() -> (u64, u64) {
    let (mut lines, mut refused) = (0, 0);
    for seed in 0..4 {
        let (place, random) = (Place::new("words-as-arguments"), &mut Random::new(seed ^ 0x776f_7264));
        let desk = place.desk();
        let (mut model, arguments) = opening(random);
        desk.taken(&arguments.iter().map(String::as_str).collect::<Vec<_>>());
        let mut kept = Vec::new();
        for _ in 0..60 {
            let line = line(&model, random);
            let fields: Vec<&str> = line.split('\t').collect();
            if ["", "hello", "desk"].contains(&fields[0]) {
                continue;
            }
            let (outcome, ended) = (play(&mut model, &line), desk.run(&fields));
            let is_refused = outcome.printed.starts_with("no\t");
            assert_eq!((ended.status, ended.output), (Some(i32::from(is_refused)), outcome.printed), "{line}");
            assert_eq!(ended.error, "", "{line}");
            kept.extend(outcome.kept.then_some(line));
            assert_eq!(desk.journal(), kept);
            lines += 1;
            refused += u64::from(is_refused);
        }
    }
    (lines, refused)
}

/// Arguments that are wrong, folders that are not there, and what cannot be read or written.
fn statuses() -> u64 {
    let place = Place::new("statuses");
    let desk = place.desk();
    let mut count = 0;
    let mut ends = |ended: Ended, status: i32, says: &str| {
        assert_eq!(ended.status, Some(status), "{says}: {} {}", ended.output, ended.error);
        assert!(ended.error.starts_with("rack: ") && ended.error.contains(says), "{says}: {}", ended.error);
        assert_eq!(ended.error.lines().count(), 1, "{}", ended.error);
        count += 1;
    };
    for arguments in [&[][..], &["board"], &["follow"], &["audit"], &["close"], &["prune"], &["repair", "--to-line", "1"]] {
        ends(desk.run(arguments), 3, "there is no folder");
    }
    for wrong in [
        &["open"][..],
        &["open", "promise"],
        &["open", "firm", "4"],
        &["open", "promise", "4", "--minute"],
        &["open", "promise", "4", "5"],
        &["open", "promise", "4", "--places", "4"],
        &["open", "promise", "four"],
        &["open", "promise", "12345678"],
        &["open", "promise", "4", "--often", "4"],
    ] {
        ends(desk.run(wrong), 2, "'rack --help' says more");
        assert!(!desk.path.exists(), "{wrong:?}");
    }
    for (opening, number) in [
        (&["promise", "0"][..], 1),
        (&["loose", "1025"], 1),
        (&["promise", "4", "--minute", "1000001"], 3),
        (&["promise", "4", "--ticket", "0"], 3),
        (&["promise", "4", "--clearing", "31"], 12),
        (&["promise", "4", "--places", "60", "5"], 13),
    ] {
        let ended = desk.run(&[&["open"], opening].concat());
        assert_eq!((ended.status, ended.output, ended.error.as_str()), (Some(1), format!("no\t{number}\n"), ""));
        assert!(!desk.path.exists(), "{opening:?}");
    }
    desk.taken(&["open", "loose", "4", "--ticket", "7", "--places", "60", "4", "--minute", "30", "--clearing", "5"]);
    assert_eq!(desk.bytes("desk-1"), b"desk\tloose\t4\t30\t7\t5\t60\t4\n");
    ends(desk.run(&["open", "loose", "4"]), 1, "is there already");
    for wrong in [&["hello"][..], &["--help"], &["close", "now"], &["repair"], &["repair", "--to-line", "x"], &["follow", "1"], &["desk"]] {
        ends(desk.run(wrong), 2, "'rack --help' says more");
    }
    let unwritable = || File::open("/dev/null").unwrap();
    ends(Ended::of(desk.command(&["in", "1", "5", "A"]).stdout(unwritable())), 3, "the printout cannot be written");
    assert_eq!(desk.journal(), ["in\t1\t5\tA"], "what was taken is kept");
    ends(Ended::of(desk.command(&[]).stdin(File::open(&place.path).unwrap())), 3, "the script cannot be read");
    ends(Desk { path: desk.file("desk-1") }.run(&["board"]), 3, "is no folder");
    ends(Desk { path: place.path.clone() }.run(&["board"]), 3, "has no desk: it is no folder of a rack");
    assert!(!place.path.join("lock").exists());
    count
}
