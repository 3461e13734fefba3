//! "the clock of the machine put forward, back, and over the last minute (a time source that the test sets)": the file that RACK_CLOCK names.

use super::played::{line, play};
use crate::common::folders::{Desk, Place};
use crate::common::model::{Model, LAST_MINUTE, LONGEST_ESTIMATE};
use crate::common::program::Ended;
use crate::common::random::Random;
use crate::common::text::written;
use hingerota_host::Kind;
use std::fs;
use std::path::PathBuf;

/// 2026-11-17T08:00 UTC.
const BEGINNING: i64 = 1_794_902_400;

pub struct Clocked {
    place: Place,
    pub desk: Desk,
    clock: PathBuf,
}

impl Clocked {
    /// A desk since the beginning.
    pub fn open(name: &str, opening: &[&str], time: &str) -> Clocked {
        let place = Place::new(name);
        let clocked = Clocked { desk: place.desk(), clock: place.path.join("clock"), place };
        clocked.set(0);
        let ended = clocked.run(&[&["open"], opening, &["--since", time]].concat());
        assert_eq!((ended.status, ended.error.as_str()), (Some(0), ""));
        clocked
    }

    /// So many seconds after the beginning.
    pub fn set(&self, seconds: i64) {
        let other = self.place.path.join("clock.new");
        fs::write(&other, (BEGINNING + seconds).to_string()).unwrap();
        fs::rename(other, &self.clock).unwrap();
    }

    pub fn command(&self, arguments: &[&str]) -> std::process::Command {
        let mut command = self.desk.command(arguments);
        command.env("RACK_CLOCK", &self.clock);
        command
    }

    pub fn run(&self, arguments: &[&str]) -> Ended {
        Ended::of(&mut self.command(arguments))
    }

    fn prints(&self, arguments: &[&str], output: &str, error: &str) {
        let ended = self.run(arguments);
        assert_eq!((ended.output.as_str(), ended.error.as_str()), (output, error), "{arguments:?}");
    }
}

pub fn forward_back_and_over() -> String {
    full_minutes();
    days_without_power();
    over_the_last_minute();
    settings();
    let (mut commands, mut back, mut over, mut minutes) = (0, 0, 0, 0);
    let desks = crate::count("CLOCKS", 20);
    for seed in 0..desks {
        let walked = walk(seed);
        commands += walked[0];
        back += walked[1];
        over += walked[2];
        minutes += walked[3];
    }
    format!("{commands} commands on {desks} desks, the clock put back before {back} and past the last minute before {over}; {minutes} minutes passed")
}

const BEHIND: &str = "rack: the machine's clock is 5 minutes behind the desk's, and no minute passes\n";

fn full_minutes() {
    let desk = Clocked::open("clock-minutes", &["promise", "10"], "2026-11-17T10:00+02:00");
    desk.prints(&["in", "6", "5", "A"], "took\t1\t0\nstart\t1\t0\n", "");
    desk.set(59);
    desk.prints(&["in", "8", "10", "A"], "took\t2\t5\n", "");
    desk.set(60);
    desk.prints(&["soonest", "2"], "soonest\t2\t1\n", "");
    assert_eq!(desk.desk.journal(), ["in\t6\t5\tA", "in\t8\t10\tA", "wait\t1"]);
    desk.set(5 * 60 + 7);
    desk.prints(&["in", "4", "1", "A"], "over\t1\t5\nstart\t2\t5\ntook\t3\t15\n", "");
    assert_eq!(desk.desk.journal()[3..], ["wait\t4", "in\t4\t1\tA"]);
    // Back, and no minute passes; and forward again, past where it was.
    desk.set(7);
    desk.prints(&["soonest", "3"], "soonest\t3\t5\n", BEHIND);
    desk.prints(&["drop", "3"], "", BEHIND);
    desk.set(6 * 60);
    desk.prints(&["profile"], "free\t6\t2\nfree\t15\t10\n", "");
    // Before the beginning.
    desk.set(-1);
    let ended = desk.run(&["audit"]);
    assert_eq!((ended.output.as_str(), ended.error.as_str()), ("ok\t7\n", ""));
    assert!(desk.run(&["profile"]).error.contains("7 minutes behind"));
}

fn days_without_power() {
    let desk = Clocked::open("clock-days", &["loose", "10", "--minute", "100"], "@1794902400");
    desk.prints(&["in", "6", "600", "A"], "took\t1\t-\nstart\t1\t100\n", "");
    desk.set(30 * 24 * 60 * 60 + 59);
    desk.prints(&["in", "1", "5", "A"], "over\t1\t700\ntook\t2\t-\nstart\t2\t43300\n", "");
    let waits = ["wait\t10080"; 4];
    assert_eq!(desk.desk.journal()[1..6], [&waits[..], &["wait\t2880"]].concat());
    assert_eq!(desk.desk.taken(&["audit"]), "ok\t7\n");
}

fn over_the_last_minute() {
    let desk = Clocked::open("clock-last", &["promise", "10", "--minute", "999990"], "2026-11-17T08:00Z");
    desk.prints(&["in", "6", "5", "A"], "took\t1\t999990\nstart\t1\t999990\n", "");
    desk.set(10 * 60);
    desk.prints(&["profile"], "over\t1\t999995\nfree\t1000000\t10\n", "");
    desk.set(11 * 60);
    let stands = "rack: the desk stands at the last minute, 1,000,000, and no minute passes any more\n";
    desk.prints(&["profile"], "free\t1000000\t10\n", stands);
    desk.prints(&["in", "1", "5", "A"], "no\t6\n", stands);
    desk.prints(&["wait", "1"], "no\t6\n", stands);
    assert_eq!(desk.desk.journal(), ["in\t6\t5\tA", "wait\t10"]);
}

/// What is no time, and a settings file that is damaged.
fn settings() {
    let place = Place::new("clock-settings");
    let desk = place.desk();
    for time in ["", "8:00", "yesterday", "2026-02-30T08:00", "2026-11-17T25:00", "@", "@-5", "@1e3"] {
        assert_eq!(desk.run(&["open", "promise", "4", "--since", time]).status, Some(2), "{time}");
        assert!(!desk.path.exists());
    }
    desk.taken(&["open", "promise", "4", "--since", "now"]);
    let settings = String::from_utf8(desk.bytes("settings")).unwrap();
    assert!(settings.starts_with("since\t20") && settings.ends_with("+00:00\t0\n"), "{settings}");
    desk.taken(&["board"]);
    for damaged in ["", "since\t-", "since\t2026-11-17\t0\n", "since\t2026-11-17T08:00:00+00:00\n", "since\t@7\t0\n", "sinse\t-\n", "\n\n"]
    {
        fs::write(desk.file("settings"), damaged).unwrap();
        let ended = desk.run(&["board"]);
        assert_eq!(ended.status, Some(3), "{damaged:?}");
        assert!(ended.error.contains("settings is damaged"), "{}", ended.error);
    }
    fs::remove_file(desk.file("settings")).unwrap();
    assert_eq!(desk.run(&["board"]).status, Some(3));
}

/// Random commands while the clock is put forward and back, on the model too.
fn walk(seed: u64) -> [u64; 4] {
    let random = &mut Random::new(seed ^ 0x636c_6f63);
    let kind = random.one_of(&[("promise", Kind::Promise), ("loose", Kind::Loose)]);
    let minute = if seed.is_multiple_of(4) { LAST_MINUTE - 2_000 } else { 0 };
    let desk = Clocked::open("clock-walk", &[kind.0, "10", "--minute", &minute.to_string()], "2026-11-17T08:00");
    let (refusal, mut model) = Model::open(kind.1, 10, minute, 1, 0, [63, 1]);
    assert_eq!(refusal, 0);
    let (mut seconds, mut counts) = (0, [0; 4]);
    for _ in 0..25 {
        seconds += match random.below(10) {
            0 | 1 => -i64::from(random.below(7_200)),
            2 => i64::from(random.below(30 * 24 * 3_600)),
            _ => i64::from(random.below(1_200)),
        };
        desk.set(seconds);
        let due = i64::from(minute) + seconds.div_euclid(60);
        let mut expected = String::new();
        let before = model.clock;
        while i64::from(model.clock) < due && model.clock < LAST_MINUTE {
            let minutes = (due - i64::from(model.clock)).min((LAST_MINUTE - model.clock).into()).min(LONGEST_ESTIMATE.into());
            let passed = play(&mut model, &format!("wait\t{minutes}"));
            assert!(passed.kept);
            expected += &passed.printed;
        }
        let (back, over) = (due < model.clock.into(), due > LAST_MINUTE.into());
        counts = [counts[0] + 1, counts[1] + u64::from(back), counts[2] + u64::from(over), counts[3] + u64::from(model.clock - before)];
        let line = line(&model, random);
        let fields: Vec<&str> = line.split('\t').collect();
        if ["", "hello", "desk"].contains(&fields[0]) {
            continue;
        }
        expected += &play(&mut model, &line).printed;
        let ended = desk.run(&fields);
        assert_eq!(ended.output, expected, "seed {seed}: {line}, {}", ended.error);
        assert_eq!(ended.error.contains("behind the desk's, and no minute passes"), back, "{}", ended.error);
        assert_eq!(ended.error.contains("the desk stands at the last minute"), over, "{}", ended.error);
    }
    assert!(desk.run(&["text"]).output.as_bytes().ends_with(&written(&model)), "seed {seed}");
    assert_eq!(desk.run(&["audit"]).status, Some(0));
    counts
}
