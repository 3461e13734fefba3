//! How `picture` is asked for, what it says where there is none, and that nothing but the picture is on standard output.

use super::desks::{data, InFolder, DESKS};
use super::elements::elements;
use crate::common::program::{rack, Ended};
use std::fs;
use std::process::Stdio;

fn one() -> InFolder {
    InFolder::new(DESKS.iter().find(|(name, _)| *name == "one").unwrap())
}

/// What a command on a folder ends with: status, whether something is on standard output, and a part of what is said.
fn ends(folder: &InFolder, arguments: &[&str], status: i32, part: &str) {
    let ended = folder.run(arguments);
    assert_eq!((ended.status, ended.output.as_str()), (Some(status), ""), "{arguments:?}");
    assert!(ended.error.contains(part), "{arguments:?}: {}", ended.error);
}

fn from(arguments: &[&str]) -> Ended {
    Ended::of(rack(arguments).stdin(Stdio::null()).stdout(Stdio::piped()))
}

pub fn picture() -> String {
    let folder = one();
    for wrong in [&["--until"][..], &["--until", "x"], &["--until", "01"], &["--until", "-5"], &["--from", "5"], &["7"]] {
        ends(&folder, &[&["picture"], wrong].concat(), 2, "'rack --help' says more");
    }
    for past in ["0", "6", "7"] {
        let said = format!("rack: no picture until then: minute {past} is past: it is minute 7\n");
        ends(&folder, &["picture", "--until", past], 1, &said);
    }
    let shorter = folder.taken(&["picture", "--until", "8"]);
    let longer = folder.taken(&["picture", "--until", "9999999"]);
    assert!(shorter.starts_with("<svg ") && longer.starts_with("<svg "));
    passed_minutes(&folder);
    let none = Ended::of(rack(&["no-such-folder", "picture"]).stdout(Stdio::piped()));
    assert_eq!((none.status, none.output.as_str()), (Some(3), ""));
    let desk = data("one", "desk");
    let desk = desk.to_str().unwrap();
    assert_eq!(from(&["--from", desk, "picture", "--until"]).status, Some(2));
    assert_eq!(from(&["--from", desk, "picture", "--until", "7"]).status, Some(1));
    assert_eq!(from(&["--from", "no-such-file", "picture"]).status, Some(1));
    let refused = folder.place.path.join("refused.desk");
    fs::write(&refused, "desk\n").unwrap();
    let ended = from(&["--from", refused.to_str().unwrap(), "picture"]);
    assert_eq!((ended.status, ended.output.as_str()), (Some(1), "no\t22\n"));
    words(&shorter);
    "asked for rightly and wrongly, in a folder and from lines; minutes that passed are on standard error".to_string()
}

/// What came of the minutes that passed is told beside, and not within.
fn passed_minutes(folder: &InFolder) {
    folder.set(DESKS[1].1.unwrap().1 + 20 * 60);
    let ended = folder.run(&["picture"]);
    assert_eq!((ended.status, ended.error.as_str()), (Some(0), "over\t1\t25\n"));
    assert!(ended.output.starts_with("<svg ") && ended.output.contains("no stack is live"));
    assert_eq!(folder.desk.journal(), ["wait\t20"]);
}

/// A title and a description for who does not see it.
fn words(svg: &str) {
    let elements = elements(svg);
    let text = |name: &str| elements.iter().find(|e| e.name == name).unwrap().text.clone();
    assert_eq!(text("title"), "Promise Desk of 10 nodes, minute 7 (2026-11-17 23:57), next ticket 2");
    let runs = "stack 1 of house A, 6 nodes, runs from minute 0 (23:50) to minute 25 (2026-11-18 00:15)";
    assert_eq!(text("desc"), format!("1 stack is live: 1 runs, 0 are cleared, 0 wait. {runs}."));
}
