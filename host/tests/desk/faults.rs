//! "write, flush and rename made to fail, [...] by a shim loaded before the C library (compiled by the test with gcc), at every call in turn:
//! status 3, a sentence, nothing answered that is not kept, and the next command works once the fault is gone". And so with the process
//! killed before and after every such call, and in the middle of every write.

use crate::common::folders::{Desk, Place};
use crate::common::program::Ended;
use std::fs;
use std::path::{Path, PathBuf};
use std::process::Command;

/// How a call fails: the shim's name for it, and the number of the error.
const MODES: [(&str, &str); 6] = [("fail", "5"), ("from", "28"), ("half", "28"), ("kill", "0"), ("after", "0"), ("torn", "0")];

/// A command, with the desk it is for.
struct Case {
    name: &'static str,
    arguments: &'static [&'static str],
    /// Lines on standard input, if it plays a script.
    script: &'static [&'static str],
    /// The number of seconds since 1970.
    clock: &'static str,
    /// What its journal has before, in the last generation.
    journal: Option<&'static str>,
}

const CALL: Case = Case { name: "in", arguments: &["in", "3", "20", "A"], script: &[], clock: "0", journal: None };

const CASES: &[Case] = &[
    CALL,
    Case { name: "first", journal: Some(""), ..CALL },
    Case { name: "end", arguments: &["end", "1"], ..CALL },
    Case { name: "board", arguments: &["board"], ..CALL },
    Case { name: "close", arguments: &["close"], ..CALL },
    Case { name: "prune", arguments: &["prune"], ..CALL },
    Case { name: "script", arguments: &[], script: &["in\t1\t5\tA", "end\t1", "in\t99\t1\tA", "wait\t7", "board"], ..CALL },
    Case { name: "full", arguments: &["drop", "2", "--words"], ..CALL },
    Case { name: "minutes", arguments: &["profile"], clock: "1200000", ..CALL },
    Case { name: "tail", journal: Some("in\t6\t20\tA\nin\t8\t"), ..CALL },
    Case { name: "repair", arguments: &["repair", "--to-line", "1"], journal: Some("wait\t1\nend\t9\n"), ..CALL },
];

pub struct Shim {
    pub library: PathBuf,
    count: PathBuf,
    clock: PathBuf,
}

impl Shim {
    pub fn compiled(place: &Place) -> Shim {
        let source = Path::new(env!("CARGO_MANIFEST_DIR")).join("tests/desk/shim.c");
        let library = place.path.join("shim.so");
        let flags = ["-shared", "-fPIC", "-O1", "-Wall", "-Wextra", "-Werror"];
        let done = Command::new("gcc").args(flags).arg("-o").arg(&library).arg(source).status().expect("gcc");
        assert!(done.success());
        Shim { library, count: place.path.join("count"), clock: place.path.join("clock") }
    }

    /// Runs a command with a fault at a call; at 0 with none.
    fn run(&self, case: &Case, desk: &Desk, at: u64, (mode, number): (&str, &str)) -> Ended {
        let mut command = desk.command(case.arguments);
        command.env("LD_PRELOAD", &self.library).env("FAULT_COUNT", &self.count).env("FAULT_AT", at.to_string());
        command.env("FAULT_MODE", mode).env("FAULT_ERRNO", number).env("RACK_CLOCK", &self.clock);
        command.env("RACK_LINES", if case.name == "full" { "2" } else { "10000" });
        let lines: String = case.script.iter().map(|line| format!("{line}\n")).collect();
        Ended::given(&mut command, lines.as_bytes())
    }

    fn counted(&self) -> u64 {
        fs::read_to_string(&self.count).unwrap().parse().unwrap()
    }

    /// What the desk is, once the fault is gone.
    fn text(&self, desk: &Desk) -> String {
        let ended = Ended::of(desk.command(&["text"]).env("RACK_CLOCK", &self.clock));
        assert_eq!(ended.status, Some(0), "{}", ended.error);
        ended.output[ended.output.find("desk\t").unwrap()..].to_string()
    }
}

/// What a case gives without a fault: the desk before, and after each answer; and the answers.
struct Sound {
    texts: Vec<String>,
    answers: Vec<String>,
    calls: u64,
}

#[derive(Default)]
struct Count {
    calls: u64,
    failed: u64,
    killed: u64,
    kept: u64,
}

pub fn at_every_call() -> String {
    let place = Place::new("faults");
    let shim = Shim::compiled(&place);
    let (mut count, every) = (Count::default(), crate::count("FAULTS", 1) as usize);
    for case in CASES {
        fs::write(&shim.clock, case.clock).unwrap();
        let base = base(&place, case);
        let sound = sound(&shim, case, &base);
        count.calls += sound.calls;
        for (place, mode) in MODES.into_iter().enumerate() {
            for at in ((1 + place % every) as u64..=sound.calls).step_by(every) {
                let desk = base.copy("tried");
                let ended = shim.run(case, &desk, at, mode);
                judge(&shim, case, &sound, &desk, &ended, &format!("{} with {} at {at}", case.name, mode.0), &mut count);
            }
        }
    }
    let opened = openings(&shim, &place, every, &mut count);
    let Count { calls, failed, killed, kept } = count;
    format!(
        "{} commands with {calls} calls of writing, flushing, renaming and the like; {failed} runs with a call that fails, {killed} killed at \
         one; {kept} kept what they had not answered; {opened} openings",
        CASES.len() + 1
    )
}

/// The desk that a case begins with: two generations, in the second a job that runs and one that waits.
fn base(place: &Place, case: &Case) -> Desk {
    let desk = place.desk();
    let _ = fs::remove_dir_all(&desk.path);
    let clock: &[&str] = if case.name == "minutes" { &["--since", "@0"] } else { &[] };
    desk.taken(&[&["open", "promise", "10"], clock].concat());
    // The first generations go by another clock.
    let stopped = place.path.join("stopped");
    fs::write(&stopped, "0").unwrap();
    for arguments in [&["wait", "1"][..], &["close"], &["close"], &["in", "6", "20", "A"], &["in", "8", "10", "A"]] {
        let ended = Ended::of(desk.command(arguments).env("RACK_CLOCK", &stopped));
        assert_eq!(ended.status, Some(0), "{}", ended.error);
    }
    if let Some(journal) = case.journal {
        fs::write(desk.file("calls-3"), journal).unwrap();
    }
    desk
}

fn sound(shim: &Shim, case: &Case, base: &Desk) -> Sound {
    let desk = base.copy("sound");
    let damaged = case.name == "repair";
    let mut sound = Sound { texts: Vec::new(), answers: Vec::new(), calls: 0 };
    if !damaged {
        sound.texts.push(shim.text(&desk.copy("before")));
    }
    let ended = shim.run(case, &desk, 0, MODES[0]);
    sound.calls = shim.counted();
    assert!(ended.status == Some(0) || case.name == "script" && ended.status == Some(1), "{}: {}", case.name, ended.error);
    if case.script.is_empty() {
        sound.answers.push(ended.output);
        sound.texts.push(shim.text(&desk));
        return sound;
    }
    let steps = base.copy("steps");
    for line in case.script {
        sound.answers.push(steps.run(&line.split('\t').collect::<Vec<_>>()).output);
        sound.texts.push(shim.text(&steps));
    }
    assert_eq!(ended.output, sound.answers.concat());
    sound
}

fn judge(shim: &Shim, case: &Case, sound: &Sound, desk: &Desk, ended: &Ended, what: &str, count: &mut Count) {
    match ended.status {
        None => count.killed += 1,
        Some(3) => {
            count.failed += 1;
            let said = ended.error.lines().filter(|line| line.starts_with("rack: ")).count();
            assert!(said > 0 && said == ended.error.lines().count(), "{what}: {}", ended.error);
        }
        status => panic!("{what}: status {status:?}, {}", ended.error),
    }
    // What was answered, as far as it was printed.
    let mut rest = ended.output.as_str();
    let answered = sound.answers.iter().take_while(|answer| rest.strip_prefix(answer.as_str()).map(|left| rest = left).is_some()).count();
    let next = sound.answers.get(answered).map_or("", String::as_str);
    assert!(next.starts_with(rest), "{what}: printed {:?}", ended.output);
    if case.name == "repair" {
        return repaired(shim, sound, desk, what);
    }
    let text = shim.text(desk);
    // Of an answer that is printed in part the call is kept.
    let least = answered + usize::from(!rest.is_empty());
    let kept = (least..=answered + 1).find(|place| sound.texts.get(*place) == Some(&text));
    let Some(kept) = kept else { panic!("{what}: after {answered} answers the desk is\n{text}") };
    if ended.error.contains("nothing was changed") {
        assert_eq!(sound.texts[answered], text, "{what}: {}", ended.error);
    }
    count.kept += u64::from(kept > answered && sound.texts[kept] != sound.texts[answered]);
    assert_eq!(desk.taken(&["audit"]).split('\t').next(), Some("ok"), "{what}");
    // The next command works.
    let next = Ended::of(desk.command(&["in", "1", "1", "B"]).env("RACK_CLOCK", &shim.clock));
    assert_eq!(next.status, Some(0), "{what}: {}", next.error);
}

/// It is still damaged, and can be repaired; or it is repaired.
fn repaired(shim: &Shim, sound: &Sound, desk: &Desk, what: &str) {
    let ended = desk.run(&["text"]);
    if ended.status == Some(3) {
        assert!(ended.error.contains("calls-3, line 2, is damaged"), "{what}: {}", ended.error);
        assert_eq!(desk.run(&["repair", "--to-line", "1"]).status, Some(0), "{what}");
    }
    assert_eq!(shim.text(desk), sound.texts[0], "{what}");
}

/// A folder is there whole, or not at all.
fn openings(shim: &Shim, place: &Place, every: usize, count: &mut Count) -> u64 {
    let case = Case { name: "open", arguments: &["open", "loose", "4"], ..CALL };
    let desk = place.desk();
    let _ = fs::remove_dir_all(&desk.path);
    assert_eq!(shim.run(&case, &desk, 0, MODES[0]).status, Some(0));
    let (calls, text) = (shim.counted(), shim.text(&desk));
    count.calls += calls;
    let mut openings = 0;
    for mode in MODES {
        for at in (1..=calls).step_by(every) {
            fs::remove_dir_all(&desk.path).unwrap();
            let (ended, what) = (shim.run(&case, &desk, at, mode), format!("open with {} at {at}", mode.0));
            match ended.status {
                None => count.killed += 1,
                Some(3) => count.failed += 1,
                status => panic!("{what}: status {status:?}"),
            }
            assert_eq!((ended.output.as_str(), ended.error.is_empty()), ("", ended.status.is_none()), "{what}");
            let there = desk.path.exists();
            assert!(!there || ended.status.is_none() || mode.0 == "from", "{what}: it is there");
            if !there {
                desk.taken(case.arguments);
            }
            assert_eq!(shim.text(&desk), text, "{what}");
            desk.taken(&["in", "1", "1", "B"]);
            openings += 1;
        }
    }
    openings
}
