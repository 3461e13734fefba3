//! Generations: how they begin and go, and what an audit finds.

use crate::common::folders::{Desk, Place};
use crate::common::program::Ended;
use std::fs;

/// Generations begin by hand and by themselves, old ones go, and an audit finds what differs.
pub fn begin_and_go() -> String {
    let place = Place::new("generations");
    let desk = place.desk();
    desk.taken(&["open", "loose", "10"]);
    // By themselves after so many lines, before the next call that is written.
    for call in 1..=12usize {
        let ended = Ended::of(desk.command(&["wait", "1"]).env("RACK_LINES", "5"));
        assert_eq!(ended.status, Some(0));
        assert_eq!(desk.generations().len(), call.div_ceil(5), "after {call} calls");
    }
    assert_eq!(Ended::of(desk.command(&["in", "4", "50", "A"]).env("RACK_LINES", "5")).status, Some(0));
    desk.taken(&["close"]);
    assert_eq!(desk.taken(&["audit"]), "ok\t13\n");
    let audits = differences(&desk);
    let text = desk.text();
    assert_eq!(desk.taken(&["prune"]), "");
    assert_eq!(desk.generations(), [3, 4]);
    assert!(!desk.file("calls-2").exists() && !desk.file("calls-1").exists());
    assert_eq!((desk.taken(&["audit"]), desk.text()), ("ok\t3\n".to_string(), text));
    assert_eq!(desk.taken(&["prune"]), "");
    assert_eq!(desk.generations(), [3, 4]);
    ten_thousand(&place);
    format!("4 generations, {audits} differences found; one begins after 10,000 lines")
}

/// What an audit finds, in a copy that somebody has changed. It changes nothing itself.
fn differences(desk: &Desk) -> usize {
    let changes: [(&str, &str, &str); 8] = [
        ("calls-2", "wait\t1\nwait\t1\nwait\t1\nwait\t1\n", "desk-3, line 1, is 'desk loose 10 10 1 0 63 1', and"),
        ("calls-2", "wait\t1\nwait\t1\nwait\t1\nwait\t1\nend\t1\n", "calls-2, line 5, is damaged: 'end 1' gives no 7"),
        ("calls-1", "wait\t1\nwait\t1\nboard\nwait\t1\nwait\t1\n", "calls-1, line 3, is damaged: 'board' gives no 9"),
        ("calls-3", "wait\t1\nwait\t1\nin\t4\t51\tA\n", "desk-4, line 2, is '1 4 50 r 12 0 0 A 0 12 1 0', and"),
        ("calls-3", "wait\t1\nwait\t1\n", "desk-4, line 1, is"),
        ("desk-4", "desk\tloose\t10\t12\t2\t0\t63\t1\n", "line 2, is no line, and"),
        ("desk-2", "desk\tloose\t10\t5\t1\t0\t63\t1", "desk-2 is damaged, no 22"),
        ("desk-2", "desk\tpromise\t10\t5\t1\t0\t63\t1\n", "desk-2, line 1, is"),
    ];
    for (name, bytes, says) in changes {
        let other = desk.copy("differs");
        fs::write(other.file(name), bytes).unwrap();
        let ended = other.run(&["audit"]);
        assert_eq!((ended.status, ended.output.as_str()), (Some(3), ""), "{name} {bytes}");
        assert!(ended.error.contains(says), "{says}: {}", ended.error);
        assert_eq!(other.bytes(name), bytes.as_bytes());
    }
    for missing in ["desk-2", "calls-2", "calls-4", "desk-3"] {
        let other = desk.copy("differs");
        fs::remove_file(other.file(missing)).unwrap();
        let ended = other.run(&["audit"]);
        assert_eq!(ended.status, Some(3), "{missing}");
        assert!(ended.error.contains(missing), "{}", ended.error);
    }
    // The last journal is not taken for empty.
    let other = desk.copy("differs");
    fs::remove_file(other.file("calls-4")).unwrap();
    assert_eq!(other.run(&["board"]).status, Some(3));
    // A tail is said, and left.
    let other = desk.copy("differs");
    fs::write(other.file("calls-4"), "wait\t1\nwai").unwrap();
    let ended = other.run(&["audit"]);
    assert_eq!((ended.status, ended.output.as_str()), (Some(0), "ok\t14\n"));
    assert!(ended.error.contains("3 bytes after line 1 were never answered"), "{}", ended.error);
    assert_eq!(other.bytes("calls-4"), b"wait\t1\nwai");
    changes.len() + 6
}

/// "by itself after 10,000 lines": the journal is written here, and the next call begins another.
fn ten_thousand(place: &Place) {
    let desk = Desk { path: place.path.join("long") };
    desk.taken(&["open", "promise", "10"]);
    fs::write(desk.file("calls-1"), "wait\t1\n".repeat(9_999)).unwrap();
    desk.taken(&["wait", "1"]);
    assert_eq!(desk.generations(), [1]);
    desk.taken(&["board"]);
    assert_eq!(desk.generations(), [1]);
    desk.taken(&["wait", "1"]);
    assert_eq!((desk.generations(), desk.bytes("calls-2")), (vec![1, 2], b"wait\t1\n".to_vec()));
    assert_eq!(desk.bytes("desk-2"), b"desk\tpromise\t10\t10000\t1\t0\t63\t1\n");
    assert_eq!(desk.taken(&["audit"]), "ok\t10001\n");
}
