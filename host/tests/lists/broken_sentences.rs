//! The claims of why jobs wait can fail: sentences made up to break one, and nothing else, are found out.

use super::book::Book;
use super::broken_lines::{desk, LINE};
use super::numbers;
use super::why::{hold, read, written, Finding};
use crate::common::model::{Job, Model, State};
use hingerota_host::{Kind, Point};

/// On 10 nodes, with 7 minutes of cleanup, at 20,008: job 1 runs on 6 until 20,032, with its cleanup, and the 2 of job 2, which has ended, are
/// free at 20,012. Jobs 3, 4 and 5 are planned, for 8, 6 and 3.
const JOBS: [Job; 5] = [
    Job { state: State::Running, start: 20_005, promise: 20_005, ..LINE },
    Job { ticket: 2, nodes: 2, state: State::Cleanup, start: 20_001, promise: 20_001, end: 20_005, ..LINE },
    Job { ticket: 3, nodes: 8, start: 20_032, promise: 20_032, ..LINE },
    Job { ticket: 4, start: 20_059, promise: 20_059, ..LINE },
    Job { ticket: 5, nodes: 3, estimate: 5, start: 20_012, promise: 20_012, ..LINE },
];

const POINTS: [(u32, u32); 6] = [(20_008, 2), (20_012, 1), (20_024, 4), (20_032, 2), (20_059, 4), (20_086, 10)];

fn promise(jobs: &[Job]) -> Model {
    desk(Kind::Promise, 20_008, 7, jobs)
}

fn finding(ticket: u32, minute: u32, holders: &[(u32, u32)]) -> Finding {
    Finding { ticket, minute, holders: holders.to_vec() }
}

fn right() -> Vec<Finding> {
    vec![finding(3, 20_031, &[(1, 6)]), finding(4, 20_058, &[(3, 8)]), finding(5, 20_011, &[(1, 6), (2, 2)])]
}

/// The right findings, with that of this ticket another.
fn with(another: Finding) -> Vec<Finding> {
    right().into_iter().map(|f| if f.ticket == another.ticket { another.clone() } else { f }).collect()
}

fn finds(found: Result<(), String>, claim: &str) {
    let found = found.err().unwrap_or_else(|| panic!("not found out: {claim}"));
    assert!(found.contains(claim), "{claim}: {found}");
}

pub fn are_found() {
    forms();
    records_and_points();
    calls_and_answers();
}

fn forms() {
    let sentence = b"stack 3 waits, minute 29, 2 with 8\n";
    assert_eq!(read(sentence), Some(vec![finding(3, 29, &[(2, 8)])]));
    assert_eq!(written(&[finding(3, 29, &[(2, 8)])]), sentence);
    assert_eq!(written(&[finding(3, 29, &[])]), b"stack 3 waits, minute 29\n");
    assert_eq!(read(&written(&right())), Some(right()));
    assert_eq!(read(b""), Some(vec![]));
    for lacking in [
        "stack 3 waits, minute 29, 2 with 8",
        "stack 3 waits, minute 29, 2 with 8,\n",
        "stack 3 waits, minute 29, 2 with\n",
        "stack 3 waits, minute 29,  2 with 8\n",
        "stack 3 waits, minute 29 2 with 8\n",
        "stack 3 waits minute 29\n",
        "stack waits, minute 29\n",
        "stack 3 waits, 29\n",
        "stack 3 waits\n",
        "\n",
    ] {
        assert_eq!(read(lacking.as_bytes()), None, "{lacking}");
    }
}

fn records_and_points() {
    let points = POINTS.map(|(minute, free)| Point { minute, free });
    let of = |jobs: &[Job], tight, found: &[Finding]| hold(found, &numbers::of(&promise(jobs)).unwrap(), &points, tight);
    let wrong = |found: Vec<Finding>, claim: &str| finds(of(&JOBS, false, &found), claim);
    of(&JOBS, true, &right()).unwrap();
    wrong(right()[..2].to_vec(), "and who waits is");
    wrong([right(), vec![finding(6, 20_070, &[(4, 6)])]].concat(), "and who waits is");
    wrong(right().into_iter().rev().collect(), "and who waits is");
    for minute in [20_030, 20_032] {
        wrong(with(finding(3, minute, &[(1, 6)])), "and who waits is");
    }
    wrong(with(finding(3, 20_031, &[(1, 6), (3, 8)])), "3 waits for 3 with 8");
    wrong(with(finding(3, 20_031, &[(1, 5)])), "3 waits for 1 with 5");
    wrong(with(finding(3, 20_031, &[(1, 6), (9, 1)])), "3 waits for 9 with 1");
    wrong(with(finding(5, 20_011, &[(2, 2), (1, 6)])), "tickets do not ascend");
    wrong(with(finding(3, 20_031, &[(1, 6), (1, 6)])), "tickets do not ascend");
    // One is left out that runs, is in cleanup, is planned; one is there that held nodes before.
    wrong(with(finding(5, 20_011, &[(2, 2)])), "in minute 20011 2 nodes are held and 2 are free, of 10");
    wrong(with(finding(5, 20_011, &[(1, 6)])), "in minute 20011 6 nodes are held and 2 are free, of 10");
    wrong(with(finding(4, 20_058, &[])), "in minute 20058 0 nodes are held and 2 are free, of 10");
    wrong(with(finding(3, 20_031, &[(1, 6), (5, 3)])), "in minute 20031 9 nodes are held and 4 are free, of 10");
    // Job 4 is planned for a later minute, from which on its nodes and others' are free.
    let later = JOBS.map(|job| if job.ticket == 4 { Job { start: 20_086, promise: 20_086, ..job } } else { job });
    let points = [(20_008, 2), (20_012, 1), (20_024, 4), (20_032, 2), (20_059, 10), (20_086, 4), (20_113, 10)];
    let points = points.map(|(minute, free)| Point { minute, free });
    let of = |tight| hold(&with(finding(4, 20_085, &[])), &numbers::of(&promise(&later)).unwrap(), &points, tight);
    of(false).unwrap();
    finds(of(true), "4 waits for 6 nodes, and 0 of 10 are held");
    let loose = numbers::of(&Model { kind: Kind::Loose, ..promise(&JOBS) }).unwrap();
    finds(hold(&right(), &loose, &[], false), "and who waits is");
    hold(&[], &loose, &[], false).unwrap();
}

fn calls_and_answers() {
    let book = Book::of_lines(&promise(&JOBS)).unwrap();
    let why = |found: Vec<Finding>| {
        let mut book = book.clone();
        book.why(&found).map(|()| book.tried.findings)
    };
    let wrong = |found: Vec<Finding>, claim: &str| finds(why(found).map(|_| ()), claim);
    assert_eq!(why(right()), Ok(3));
    wrong(right()[..2].to_vec(), "[3, 4, 5] wait, and it is said why [3, 4] do");
    wrong([vec![finding(1, 20_009, &[])], right()].concat(), "[3, 4, 5] wait, and it is said why [1, 3, 4, 5] do");
    wrong(with(finding(3, 20_032, &[])), "3 waits in minute 20032, from 20008 to 20032");
    wrong(with(finding(5, 20_007, &[])), "5 waits in minute 20007, from 20008 to 20012");
    wrong(with(finding(3, 20_031, &[(1, 6), (9, 1)])), "3 waits, 9 with 1");
    wrong(with(finding(3, 20_031, &[(1, 5)])), "3 waits, 1 with 5");
    wrong(with(finding(3, 20_031, &[])), "1 holds nodes until Some(20032)");
    wrong(with(finding(4, 20_058, &[(1, 6), (3, 8)])), "1 holds nodes until Some(20032)");
    wrong(with(finding(5, 20_011, &[(1, 6)])), "2 holds nodes until Some(20012)");
    wrong(with(finding(3, 20_031, &[(1, 6), (2, 2)])), "2 holds nodes until Some(20012)");
    let mut loose = Book::new(Kind::Loose, 10, 0, [63, 1], 0);
    loose.why(&[]).unwrap();
    finds(loose.why(&[finding(1, 5, &[])]), "[] wait, and it is said why [1] do");
}
