//! "four processes with 500 calls each at once: tickets distinct, audit ok".

use crate::common::folders::{Desk, Place};
use std::collections::BTreeSet;
use std::io::{BufRead, BufReader, Write};
use std::process::Stdio;

const PROCESSES: usize = 4;

pub fn four_at_once() -> String {
    let calls = crate::count("CALLS", 500);
    let place = Place::new("crowd");
    let desk = place.desk();
    desk.taken(&["open", "promise", "1024", "--places", "60", "4"]);
    let tickets: Vec<u32> = std::thread::scope(|threads| {
        let all = [0; PROCESSES].map(|_| desk.clone()).into_iter().enumerate();
        let all: Vec<_> = all.map(|(number, desk)| threads.spawn(move || calls_of(&desk, number, calls))).collect();
        all.into_iter().flat_map(|thread| thread.join().unwrap()).collect()
    });
    let distinct: BTreeSet<u32> = tickets.iter().copied().collect();
    assert_eq!(distinct.len(), tickets.len(), "a ticket was given twice");
    assert_eq!(tickets.len() as u64, PROCESSES as u64 * calls.div_ceil(2));
    let all = PROCESSES as u64 * calls;
    assert_eq!(desk.journal().len() as u64, all);
    assert_eq!(desk.taken(&["audit"]), format!("ok\t{all}\n"));
    format!(
        "{PROCESSES} processes with {calls} calls each, {} tickets, all distinct, and {} generations",
        tickets.len(),
        desk.generations().len()
    )
}

/// Submits and ends jobs in turn, by a script to which it waits for the answers; the first two by commands of their own. Its tickets.
fn calls_of(desk: &Desk, number: usize, calls: u64) -> Vec<u32> {
    let mut command = desk.command(&[]);
    let mut child = command.env("RACK_LINES", "300").stdin(Stdio::piped()).spawn().unwrap();
    let (mut ask, mut answers) = (child.stdin.take().unwrap(), BufReader::new(child.stdout.take().unwrap()));
    let mut line = || {
        let mut line = String::new();
        answers.read_line(&mut line).unwrap();
        line.trim_end().split('\t').map(str::to_owned).collect::<Vec<_>>()
    };
    let mut tickets = Vec::new();
    for call in 0..calls {
        if call % 2 == 0 {
            let house = if number == 0 { "B" } else { "A" };
            if number == 1 && call % 100 == 0 {
                let alone = desk.taken(&["in", "1", "5", house]);
                tickets.push(alone.split('\t').nth(1).unwrap().parse().unwrap());
                continue;
            }
            ask.write_all(format!("in\t1\t5\t{house}\n").as_bytes()).unwrap();
            let (took, start) = (line(), line());
            assert_eq!((took[0].as_str(), start[0].as_str(), &took[1]), ("took", "start", &start[1]), "{took:?} {start:?}");
            tickets.push(took[1].parse().unwrap());
        } else {
            let ticket: u32 = *tickets.last().unwrap();
            ask.write_all(format!("end\t{ticket}\n").as_bytes()).unwrap();
            let over = line();
            assert_eq!((over[0].as_str(), over[1].as_str()), ("over", ticket.to_string().as_str()));
        }
    }
    drop(ask);
    assert!(child.wait().unwrap().success());
    tickets
}
