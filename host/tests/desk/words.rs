//! "with `--words`, also a plain sentence, and a refusal says in words what its number means"; "with `--since`, minutes are shown as times of day
//! beside their numbers".

use super::clocks::Clocked;
use crate::common::folders::Place;
use std::process::{Command, Stdio};

/// A command, and what is printed: the script's lines, and then sentences.
type Said = (&'static [&'static str], &'static str);

const PROMISE: &[Said] = &[
    (&["in", "6", "10", "20", "A"], "took\t1\t0\nstart\t1\t0\nstack 1 is taken, and starts by minute 0\nstack 1 starts in minute 0\n"),
    (&["in", "8", "10", "B"], "took\t2\t20\nstack 2 is taken, and starts by minute 20\n"),
    (&["in", "4", "25", "A"], "took\t3\t30\nstack 3 is taken, and starts by minute 30\n"),
    (&["in", "1", "5", "B"], "no\t15\nno 15: all 1 places of house B are taken\n"),
    (&["in", "11", "5", "A"], "no\t1\nno 1: a stack takes 1 to 10 nodes here, and not 11\n"),
    (&["in", "1", "0", "A"], "no\t2\nno 2: minutes are 1 to 10,080, and not 0\n"),
    (&["in", "1", "6", "5", "A"], "no\t19\nno 19: the least, 6, is above the most, 5\n"),
    (&["in", "1", "5", "C"], "no\t14\nno 14: house C is neither A nor B\n"),
    (&["in", "1"], "no\t9\nno 9: the line lacks the form: in NODES [LEAST] MOST HOUSE\n"),
    (&["end", "1"], "no\t20\nno 20: stack 1 runs for 10 minutes at least, to minute 10\n"),
    (&["end", "2"], "no\t7\nno 7: stack 2 is not running\n"),
    (&["drop", "1"], "no\t11\nno 11: stack 1 is not waiting\n"),
    (&["wait", "10081"], "no\t2\nno 2: minutes are 1 to 10,080, and not 10081\n"),
    (&["soonest", "2"], "soonest\t2\t10\nstack 2 starts no sooner than minute 10\n"),
    (&["longest", "4", "A", "0"], "longest\t20\nup to 20 minutes would start by minute 0\n"),
    (&["longest", "5", "A", "0"], "longest\t-\nno stack of so many nodes would start by minute 0\n"),
    (&["why"], WHY),
    (&["profile"], PROFILE),
    (&["index"], "block\t2\t10\n2 to 10 nodes are free in the next 16 lines of the profile\n"),
    (&["reads"], "reads\t3\n3 lines of the profile were read to place the last stack\n"),
    (&["reread"], "the desk was written out and read back\n"),
    (
        &["correct", "2", "6", "10"],
        "took\t2\t20\nstart\t3\t0\nthe order of stack 2 is corrected, and starts by minute 20\nstack 3 starts in minute 0\n",
    ),
    (&["correct", "2", "6", "11"], "took\t4\t20\nstack 2 is withdrawn, and its order is taken as stack 4, and starts by minute 20\n"),
    (&["drop", "4"], "stack 4 is withdrawn\n"),
    (&["why"], "no stack waits\n"),
    (&["wait", "10"], "it is minute 10\n"),
    (&["end", "1"], "over\t1\t10\nstack 1 is over in minute 10\n"),
    (&["longest", "4", "A", "9"], "no\t21\nno 21: minute 9 is past: it is minute 10\n"),
    (&["change"], "the desk is a Promise Desk\n"),
];

const WHY: &str = "\
stack 2 waits, minute 19, 1 with 6
stack 3 waits, minute 29, 2 with 8
stack 2 waits: in minute 19 stack 1 has 6
stack 3 waits: in minute 29 stack 2 has 8
";

const PROFILE: &str = "\
free\t0\t4
free\t20\t2
free\t30\t6
free\t55\t10
4 nodes are free from minute 0 on
2 nodes are free from minute 20 on
6 nodes are free from minute 30 on
10 nodes are free from minute 55 on
";

const LOOSE: &[Said] = &[
    (&["in", "6", "20", "A"], "took\t1\t-\nstart\t1\t0\nstack 1 is taken\nstack 1 starts in minute 0\n"),
    (&["in", "8", "10", "A"], "took\t2\t-\nhead\t2\t20\nstack 2 is taken\nstack 2 waits first, and starts by minute 20\n"),
    (&["why"], "a Loose Desk plans no stack\n"),
    (&["profile"], "a Loose Desk has no profile\n"),
    (&["index"], "a Loose Desk has no profile\n"),
    (&["longest", "4", "A", "0"], "a Loose Desk promises no minute\n"),
    (&["change"], "took\t2\t20\nthe desk is a Promise Desk\nstack 2 is promised minute 20\n"),
];

pub fn sentences() -> String {
    let mut count = 0;
    for (kind, said) in [("promise", PROMISE), ("loose", LOOSE)] {
        let place = Place::new("words");
        let desk = place.desk();
        let opened = desk.taken(&["open", kind, "10", "--words"]);
        assert!(opened.ends_with("rack is open: it is minute 0\n"), "{opened}");
        for (arguments, printed) in said {
            assert_eq!(desk.run(&[&["--words"], *arguments].concat()).output, *printed, "{arguments:?}");
            count += 1;
        }
        let text = desk.taken(&["text", "--words"]);
        assert_eq!(text, desk.taken(&["text"]), "it has no sentences");
        assert!(desk.taken(&["close", "--words"]).contains("generation 2 begins"));
        assert_eq!(desk.taken(&["prune", "--words"]), "0 generations were removed\n");
        let audited = desk.taken(&["audit", "--words"]);
        assert!(audited.starts_with("ok\t") && audited.ends_with("calls of 2 generations give what is there\n"), "{audited}");
        let again = Place::new("words-refused").desk();
        assert_eq!(again.run(&["open", "loose", "4", "--places", "4", "4", "--words"]).output, PLACES);
        count += 6;
    }
    count += times();
    format!("{count} commands with their sentences; {}", on_a_terminal())
}

/// On a terminal they come by themselves. The command `script` makes one.
fn on_a_terminal() -> &'static str {
    let place = Place::new("words-terminal");
    let desk = place.desk();
    desk.taken(&["open", "promise", "10"]);
    let line = format!("'{}' '{}' in 6 20 A", env!("CARGO_BIN_EXE_rack"), desk.path.display());
    let Ok(ended) = Command::new("script").args(["-qec", &line, "/dev/null"]).stdin(Stdio::null()).output() else {
        return "a terminal was not tested, since there is no command 'script'";
    };
    let printed = String::from_utf8(ended.stdout).unwrap().replace('\r', "");
    assert_eq!(printed, PROMISE[0].1);
    assert!(ended.status.success());
    "on a terminal too"
}

const PLACES: &str = "no\t13\nno 13: places are 64 together and at least 1 a house, and not 4 and 4\n";

/// With times of day, of the day of the present minute and of another.
fn times() -> usize {
    let desk = Clocked::open("words-times", &["promise", "10", "--words"], "2026-11-17T23:50+15:50");
    let said = |arguments: &[&str]| {
        let ended = desk.run(&[arguments, &["--words"]].concat());
        assert_eq!(ended.error, "");
        ended.output.lines().filter(|line| !line.contains('\t') && !line.trim().is_empty()).collect::<Vec<_>>().join("\n")
    };
    assert_eq!(said(&["in", "6", "5", "A"]), "stack 1 is taken, and starts by minute 0 (23:50)\nstack 1 starts in minute 0 (23:50)");
    assert_eq!(said(&["in", "8", "9", "A"]), "stack 2 is taken, and starts by minute 5 (23:55)");
    assert_eq!(said(&["in", "8", "9", "A"]), "stack 3 is taken, and starts by minute 15 (2026-11-18 00:05)");
    let board = said(&["board"]);
    for sentence in [
        "stack 1 of house A, 6 nodes for 5 minutes, has run since minute 0 (23:50)",
        "stack 3 of house A, 8 nodes for 10 minutes, waits, is planned for minute 15 (2026-11-18 00:05) and promised minute 15 (2026-11-18 00:05)",
    ] {
        assert!(board.contains(sentence), "{board}");
    }
    desk.set(15 * 60 + 30);
    let passed = said(&["soonest", "3"]);
    assert!(
        passed.starts_with("stack 1 is over in minute 5 (2026-11-17 23:55)\nstack 2 starts in minute 5 (2026-11-17 23:55)"),
        "{passed}"
    );
    assert!(passed.ends_with("it is minute 15 (2026-11-18 00:05)\nno 11: stack 3 is not waiting"), "{passed}");
    5
}
