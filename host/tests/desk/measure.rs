//! What docs/PERFORMANCE.md has of a desk in a folder: `DESK=measure cargo test --release --test desk`, on a quiet machine. It is no test.

use crate::common::folders::{Desk, Place};
use crate::common::random::Random;
use std::fs::{self, File};
use std::io::{BufRead, BufReader, Write};
use std::path::Path;
use std::process::Stdio;
use std::time::{Duration, Instant};

/// Scripts and bare appends take turns, so that both meet the same disk.
const BATCHES: usize = 40;
const CALLS: usize = 500;

pub fn all() -> String {
    let place = Place::new("measure");
    flushes(&place);
    for (name, busy) in [("calm", false), ("busy", true)] {
        opening(&place, name, busy);
    }
    "measured".to_string()
}

fn each(time: Duration, count: usize) -> f64 {
    time.as_secs_f64() * 1e6 / count as f64
}

fn median(mut times: Vec<f64>) -> f64 {
    times.sort_by(f64::total_cmp);
    times[times.len() / 2]
}

/// Calls of a script, each flushed, and bare appends of the same lines, by turns on the same disk.
fn flushes(place: &Place) {
    let desk = place.desk();
    let lines: Vec<String> =
        (0..CALLS).map(|n| if n % 2 == 0 { "in\t6\t20\tA\n".to_string() } else { format!("end\t{}\n", n / 2 + 1) }).collect();
    let script = place.path.join("script");
    fs::write(&script, lines.concat()).unwrap();
    let (mut bare, mut called, mut alone) = (Vec::new(), Vec::new(), Vec::new());
    for _ in 0..BATCHES {
        let mut file = File::create(place.path.join("bare")).unwrap();
        let began = Instant::now();
        for line in &lines {
            file.write_all(line.as_bytes()).unwrap();
            file.sync_data().unwrap();
        }
        bare.push(each(began.elapsed(), CALLS));
        let _ = fs::remove_dir_all(&desk.path);
        desk.taken(&["open", "promise", "10"]);
        let output = File::create(place.path.join("printed")).unwrap();
        let began = Instant::now();
        let ended = desk.command(&[]).stdin(File::open(&script).unwrap()).stdout(output).status().unwrap();
        called.push(each(began.elapsed(), CALLS));
        assert!(ended.success());
        let began = Instant::now();
        desk.taken(&["wait", "1"]);
        alone.push(each(began.elapsed(), 1));
    }
    let ratios: Vec<f64> = called.iter().zip(&bare).map(|(called, bare)| called / bare).collect();
    let (alone, bare, called) = (median(alone), median(bare), median(called));
    println!(
        "{BATCHES} scripts of {CALLS} calls: append and flush {bare:.0} us, a call {called:.0} us, {:.0} calls a second",
        1e6 / called
    );
    println!("a call is {:.2} times an append, by the medians; the median of the ratios is {:.2}", called / bare, median(ratios));
    println!("a command of its own, after {CALLS} calls: {:.1} ms", alone / 1e3);
}

/// A folder with 100,000 calls, whose last journal is as long as one gets.
fn opening(place: &Place, name: &str, busy: bool) {
    // Made where flushing costs nothing, and then copied.
    let made = Path::new("/dev/shm").join(format!("desk-{}", std::process::id()));
    fs::create_dir(&made).unwrap();
    let made = Place { path: made };
    let desk = made.desk();
    let random = &mut Random::new(1);
    desk.taken(&["open", "promise", "64"]);
    let mut child = desk.command(&[]).stdin(Stdio::piped()).spawn().unwrap();
    let (mut ask, answers) = (child.stdin.take().unwrap(), BufReader::new(child.stdout.take().unwrap()));
    let mut answers = answers.lines().map(|line| line.unwrap());
    // A question after each call tells where its answer ends, so that the script is made while it is played.
    let (mut calls, mut waiting, mut running) = (0, Vec::new(), Vec::new());
    while calls < 100_000 {
        let text = if waiting.len() + running.len() < if busy { 58 } else { 12 } {
            format!("in\t{}\t{}\tA", random.between(1, 40), random.between(10, 200))
        } else if waiting.is_empty() || random.percent(60) {
            "wait\t1".to_string()
        } else {
            format!("drop\t{}", waiting.remove(random.below(waiting.len() as u32) as usize))
        };
        ask.write_all(format!("{text}\nreads\n").as_bytes()).unwrap();
        loop {
            let printed = answers.next().unwrap();
            match printed.split('\t').collect::<Vec<_>>()[..] {
                ["took", ticket, _] => waiting.push(ticket.to_string()),
                ["start", ticket, _] => {
                    waiting.retain(|other| other != ticket);
                    running.push(ticket.to_string());
                }
                ["over", ticket, _] => running.retain(|other| other != ticket),
                ["reads", _] => break,
                _ => panic!("{text}: {printed}"),
            }
        }
        calls += 1;
    }
    drop(ask);
    assert!(child.wait().unwrap().success());
    let desk = desk.copied(&place.path.join(name));
    let time = |arguments: &[&str]| {
        let times = (0..5).map(|_| {
            let began = Instant::now();
            desk.taken(arguments);
            began.elapsed().as_secs_f64() * 1e3
        });
        median(times.collect())
    };
    let lines = desk.bytes(&format!("calls-{}", desk.generations().len())).iter().filter(|byte| **byte == b'\n').count();
    println!("{name}: {} calls in {} generations, {lines} in the last", desk.journal().len(), desk.generations().len());
    println!("board {:.1} ms, audit {:.1} ms, memory {}", time(&["board"]), time(&["audit"]), memory(&desk));
}

/// The most that a command had at once, read while it waits for a line.
fn memory(desk: &Desk) -> String {
    let mut child = desk.command(&[]).stdin(Stdio::piped()).spawn().unwrap();
    let (mut ask, mut answers) = (child.stdin.take().unwrap(), BufReader::new(child.stdout.take().unwrap()));
    ask.write_all(b"reads\n").unwrap();
    answers.read_line(&mut String::new()).unwrap();
    let status = fs::read_to_string(format!("/proc/{}/status", child.id())).unwrap();
    drop(ask);
    child.wait().unwrap();
    status.lines().find_map(|line| line.strip_prefix("VmHWM:")).unwrap_or("unknown").trim().to_string()
}
