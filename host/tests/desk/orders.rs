//! "A call that is taken is appended to `calls-N` and flushed to the disk BEFORE its answer is printed": the order in which commands write,
//! flush, rename and print, as the shim traces it. What is flushed survives a power loss; a kill shows nothing of it.

use super::faults::Shim;
use crate::common::folders::{Desk, Place};
use crate::common::program::Ended;
use std::fs;

/// A command, and what it does in this order. `print` is a write to standard output.
type Order = (&'static [&'static str], &'static [&'static str]);

const CALL: &[&str] = &["write calls-2", "fdatasync calls-2", "print"];
/// What others wrote is flushed before anything is printed that rests on it.
const QUESTION: &[&str] = &["fdatasync calls-2", "print"];
const BEGIN: [&str; 8] = [
    "create calls-3",
    "fsync calls-3",
    "fsync rack",
    "create desk-3.new",
    "write desk-3.new",
    "fsync desk-3.new",
    "rename desk-3",
    "fsync rack",
];

const ORDERS: &[Order] = &[
    (&["in", "6", "20", "A"], &["fsync rack", "fsync orders", "write calls-2", "fdatasync calls-2", "print"]),
    (&["in", "8", "10", "A"], CALL),
    (&["correct", "2", "8", "9"], CALL),
    (&["in", "9", "10", "B"], CALL),
    (&["drop", "3"], &["write calls-2", "fdatasync calls-2"]),
    (&["wait", "20"], CALL),
    (&["end", "2"], CALL),
    (&["change"], &["write calls-2", "fdatasync calls-2"]),
    (&["in", "99", "5", "A"], QUESTION),
    (&["in", "9"], QUESTION),
    (&["board"], QUESTION),
    (&["text"], QUESTION),
    (&["profile"], QUESTION),
    (&["reads"], QUESTION),
    (&["audit"], &["print"]),
    (&["prune"], &["fsync rack"]),
];

pub fn of_writing_and_printing() -> String {
    let place = Place::new("orders");
    let shim = Shim::compiled(&place);
    let desk = Desk { path: place.path.join("orders/rack") };
    fs::create_dir(place.path.join("orders")).unwrap();
    let (trace, clock) = (place.path.join("trace"), place.path.join("clock"));
    let mut count = 0;
    let mut does = |arguments: &[&str], lines: &str, input: &[u8], order: &[&str]| {
        let _ = fs::remove_file(&trace);
        let script = place.path.join("script");
        fs::write(&script, input).unwrap();
        let mut command = desk.command(arguments);
        command.stdin(fs::File::open(script).unwrap()).env("LD_PRELOAD", &shim.library).env("FAULT_TRACE", &trace);
        command.env("RACK_LINES", lines).env("RACK_CLOCK", &clock);
        let ended = Ended::of(&mut command);
        assert!(ended.status.is_some_and(|status| status < 2), "{arguments:?}: {}", ended.error);
        let traced = fs::read_to_string(&trace).unwrap();
        let printed = |line: &str| if line.starts_with("write pipe:") { "print".to_string() } else { line.to_string() };
        assert_eq!(traced.lines().map(printed).collect::<Vec<_>>(), order, "{arguments:?}");
        count += order.len();
    };
    desk.taken(&["open", "promise", "10"]);
    desk.taken(&["close"]);
    for (arguments, order) in ORDERS {
        does(arguments, "10000", b"", order);
    }
    // A script flushes what others wrote once, and its own lines each.
    let script = b"board\nboard\nin\t1\t5\tA\nboard\nin\t1\t5\tB\n";
    does(&[], "10000", script, &[QUESTION, &["print"], CALL, &["print"], CALL].concat());
    // The next generation begins before a call, once there are enough lines.
    let first = ["fsync rack", "fsync orders", "write calls-3", "fdatasync calls-3", "print"];
    does(&["in", "1", "5", "A"], "4", b"", &[&["fdatasync calls-2"][..], &BEGIN, &first].concat());
    // What was never answered is cut off for good before anything else is written.
    fs::write(desk.file("calls-3"), [desk.bytes("calls-3"), b"in\t1".to_vec()].concat()).unwrap();
    does(&["end", "9"], "10000", b"", &["ftruncate calls-3", "fdatasync calls-3", "fdatasync calls-3", "print"]);
    // Minutes that passed: the answer of each wait is printed before the next call is written. The first one's is that a job is over.
    fs::write(desk.file("settings"), "since\t1970-01-01T00:00:00+00:00\t0\n").unwrap();
    fs::write(&clock, (20_000 * 60).to_string()).unwrap();
    let wait = ["write calls-3", "fdatasync calls-3"];
    does(&["in", "1", "5", "A"], "10000", b"", &[&wait[..], &["print"], &wait, &wait, &["print"]].concat());
    format!("{count} calls of {} commands in their order", ORDERS.len() + 4)
}
