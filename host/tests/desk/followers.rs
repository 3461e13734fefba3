//! `rack DIR follow` beside other commands: who is over, who starts and who is head, as it comes; SIGTERM and a closed pipe end it cleanly.

use super::clocks::Clocked;
use super::played::{line, opening, play};
use crate::common::folders::Place;
use crate::common::program::Ended;
use crate::common::random::Random;
use std::fs::{read_dir, read_link, File};
use std::io::{BufRead, BufReader, Read, Write};
use std::path::PathBuf;
use std::process::{Child, ChildStdout, Command, Stdio};
use std::sync::mpsc::{channel, Receiver};
use std::time::{Duration, Instant};

const SOON: Duration = Duration::from_secs(20);

/// A follower, whose lines come through a channel.
struct Follower {
    child: Child,
    lines: Receiver<String>,
}

impl Follower {
    fn spawn(mut command: Command) -> Follower {
        let mut child = command.stdin(Stdio::null()).stdout(Stdio::piped()).stderr(Stdio::piped()).spawn().unwrap();
        let (send, lines) = channel();
        let output: BufReader<ChildStdout> = BufReader::new(child.stdout.take().unwrap());
        std::thread::spawn(move || output.lines().for_each(|line| drop(send.send(line.unwrap()))));
        Follower { child, lines }
    }

    /// One that has read the desk. It has the journal open then, and others have their turns only after the one in which it reads.
    fn begun(command: Command) -> Follower {
        let (follower, began) = (Follower::spawn(command), Instant::now());
        let journal = |link: PathBuf| link.file_name().is_some_and(|name| name.to_string_lossy().starts_with("calls-"));
        let open =
            || read_dir(format!("/proc/{}/fd", follower.child.id())).unwrap().flatten().any(|fd| read_link(fd.path()).is_ok_and(journal));
        while !open() {
            assert!(began.elapsed() < SOON, "a follower that has begun");
            std::thread::sleep(Duration::from_millis(5));
        }
        follower
    }

    fn next(&self) -> String {
        self.lines.recv_timeout(SOON).expect("a line in time")
    }

    fn told(&self, lines: &[&str]) {
        for line in lines {
            assert_eq!(self.next(), *line);
        }
    }

    /// Asked by SIGTERM it ends with status 0, and prints nothing more. What it said on standard error.
    fn ended(mut self) -> String {
        assert!(Command::new("kill").args(["-TERM", &self.child.id().to_string()]).status().unwrap().success());
        assert_eq!(self.child.wait().unwrap().code(), Some(0));
        assert!(self.lines.recv_timeout(SOON).is_err());
        let mut error = String::new();
        self.child.stderr.take().unwrap().read_to_string(&mut error).unwrap();
        error
    }
}

pub fn follow() -> String {
    by_the_clock();
    without_a_reader();
    waiting_for_its_turn();
    let told = beside_a_script();
    format!("{told} lines told of scripts beside, with generations begun meanwhile; by the clock; ended by SIGTERM and by a closed pipe")
}

fn by_the_clock() {
    let desk = Clocked::open("follow-clock", &["promise", "10"], "2026-11-17T08:00");
    let follower = Follower::begun(desk.command(&["follow"]));
    // What others call is told, but not what they were answered.
    assert_eq!(desk.run(&["in", "6", "5", "A"]).output, "took\t1\t0\nstart\t1\t0\n");
    follower.told(&["start\t1\t0"]);
    assert_eq!(desk.run(&["in", "8", "10", "A"]).output, "took\t2\t5\n");
    // A minute passes, and another.
    desk.set(4 * 60);
    desk.set(5 * 60);
    follower.told(&["over\t1\t5", "start\t2\t5"]);
    assert_eq!(desk.run(&["close"]).status, Some(0));
    assert_eq!(desk.run(&["end", "2"]).output, "over\t2\t5\n");
    follower.told(&["over\t2\t5"]);
    // It says once that the clock was put back.
    desk.set(60);
    assert_eq!(desk.run(&["in", "1", "1", "B"]).output, "took\t3\t5\nstart\t3\t5\n");
    follower.told(&["start\t3\t5"]);
    let error = follower.ended();
    assert_eq!(error.lines().count(), usize::from(!error.is_empty()), "{error}");
    assert_eq!(desk.run(&["audit"]).status, Some(0));
}

/// It ends though nothing is told.
fn without_a_reader() {
    let place = Place::new("follow-closed");
    let desk = place.desk();
    desk.taken(&["open", "promise", "10"]);
    let mut child = desk.command(&["follow"]).stderr(Stdio::piped()).spawn().unwrap();
    std::thread::sleep(Duration::from_millis(100));
    assert_eq!(child.try_wait().unwrap(), None);
    drop(child.stdout.take());
    let began = Instant::now();
    let ended = child.wait_with_output().unwrap();
    assert_eq!((ended.status.code(), String::from_utf8(ended.stderr).unwrap().as_str()), (Some(0), ""));
    assert!(began.elapsed() < SOON);
    // Of a folder that is not there it says so.
    let ended = Ended::of(&mut Place::new("follow-none").desk().command(&["follow"]));
    assert_eq!((ended.status, ended.output.as_str()), (Some(3), ""));
}

/// SIGTERM ends it too while another has the turn and does not give it back.
fn waiting_for_its_turn() {
    let place = Place::new("follow-turn");
    let desk = place.desk();
    desk.taken(&["open", "promise", "10"]);
    let lock = File::open(desk.file("lock")).unwrap();
    lock.lock().unwrap();
    let follower = Follower::spawn(desk.command(&["follow"]));
    std::thread::sleep(Duration::from_millis(300));
    assert_eq!(follower.ended(), "");
    drop(lock);
    desk.taken(&["wait", "1"]);
}

/// A script beside and a new generation every 20 lines: it tells what it prints, all of it and in its order.
fn beside_a_script() -> usize {
    let mut count = 0;
    for seed in 0..4 {
        let (place, random) = (Place::new("follow-script"), &mut Random::new(seed));
        let desk = place.desk();
        let (mut model, arguments) = opening(random);
        desk.taken(&arguments.iter().map(String::as_str).collect::<Vec<_>>());
        let follower = Follower::begun(desk.command(&["follow"]));
        let first = play(&mut model, "in\t1\t1\tA");
        desk.taken(&["in", "1", "1", "A"]);
        let (mut script, mut printed) = (String::new(), first.printed);
        for _ in 0..150 {
            let line = line(&model, random);
            printed += &play(&mut model, &line).printed;
            script += &format!("{line}\n");
        }
        let mut child = desk.command(&[]).env("RACK_LINES", "20").stdin(Stdio::piped()).stdout(Stdio::null()).spawn().unwrap();
        child.stdin.take().unwrap().write_all(script.as_bytes()).unwrap();
        assert!(child.wait().unwrap().code().is_some_and(|code| code < 2));
        let told: Vec<&str> =
            printed.lines().filter(|line| ["over", "start", "head"].contains(&line.split('\t').next().unwrap())).collect();
        follower.told(&told);
        assert_eq!(follower.ended(), "");
        assert!(desk.generations().len() > 3);
        count += told.len();
    }
    count
}
