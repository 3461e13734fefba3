//! "killed (SIGKILL) at random moments of random scripts, 2,000 times: each answer printed is in the journal, and the desk is the model's".

use super::played::{line, opening, play, Outcome};
use crate::common::folders::{Desk, Place};
use crate::common::model::Model;
use crate::common::random::Random;
use crate::common::text::written;
use std::io::{Read, Write};
use std::process::{Child, Stdio};
use std::sync::atomic::{AtomicU64, Ordering};
use std::sync::Mutex;
use std::time::Duration;

/// A desk is killed so often before another is opened.
const KILLS_A_DESK: u64 = 25;
const LINES: usize = 60;

#[derive(Default, Clone)]
struct Count {
    kills: u64,
    /// Scripts that were over before.
    late: u64,
    answers: u64,
    /// Calls that were kept and whose answers were not printed.
    unanswered: u64,
    /// Journals that had an unclosed line.
    tails: u64,
    generations: u64,
}

pub fn at_random_moments() -> String {
    let kills = crate::count("KILLS", 2_000);
    let (next, all) = (AtomicU64::new(0), Mutex::new(Count::default()));
    std::thread::scope(|threads| {
        for _ in 0..2 {
            threads.spawn(|| loop {
                let desk = next.fetch_add(1, Ordering::Relaxed);
                if all.lock().unwrap().kills >= kills {
                    return;
                }
                one_desk(desk, &all);
            });
        }
    });
    let Count { kills, late, answers, unanswered, tails, generations } = all.into_inner().unwrap();
    assert!(answers > kills, "{answers} answers");
    format!(
        "{kills} kills ({late} more scripts were over before), {answers} answers printed and all kept, {unanswered} calls kept whose answers \
         were not printed, {tails} unclosed lines, {generations} generations"
    )
}

fn one_desk(number: u64, all: &Mutex<Count>) {
    let random = &mut Random::new(number ^ 0x6b69_6c6c);
    let place = Place::new(&format!("kills-{number}"));
    let desk = place.desk();
    let (mut model, arguments) = opening(random);
    desk.taken(&arguments.iter().map(String::as_str).collect::<Vec<_>>());
    let mut kept = Vec::new();
    let mut count = Count::default();
    while count.kills < KILLS_A_DESK {
        if random.percent(10) {
            kill_close(&desk, random, &mut count);
        } else {
            kill_script(&desk, &mut model, &mut kept, random, &mut count);
        }
        assert_eq!(desk.journal(), kept, "desk {number}");
        let ended = desk.run(&["text"]);
        assert_eq!(ended.status, Some(0), "desk {number}: {}", ended.error);
        assert_eq!(ended.output.as_bytes(), written(&model), "desk {number}");
        count.tails += u64::from(ended.error.contains("never answered"));
    }
    assert_eq!(desk.taken(&["audit"]), format!("ok\t{}\n", kept.len()), "desk {number}");
    count.generations = desk.generations().len() as u64;
    let mut all = all.lock().unwrap();
    all.kills += count.kills;
    all.late += count.late;
    all.answers += count.answers;
    all.unanswered += count.unanswered;
    all.tails += count.tails;
    all.generations += count.generations;
}

/// Kills it after a while; whether it still ran.
fn kill(child: &mut Child, microseconds: u32) -> bool {
    std::thread::sleep(Duration::from_micros(microseconds.into()));
    child.kill().unwrap();
    child.wait().unwrap().code().is_none()
}

fn kill_close(desk: &Desk, random: &mut Random, count: &mut Count) {
    let mut child = desk.command(&["close"]).spawn().unwrap();
    if kill(&mut child, random.below(4_000)) {
        count.kills += 1;
    } else {
        count.late += 1;
    }
}

fn kill_script(desk: &Desk, model: &mut Model, kept: &mut Vec<String>, random: &mut Random, count: &mut Count) {
    let mut after = model.clone();
    let mut lines = Vec::new();
    for _ in 0..LINES {
        let line = line(&after, random);
        let outcome = play(&mut after, &line);
        lines.push((line, outcome));
    }
    let script: String = lines.iter().map(|(line, _)| format!("{line}\n")).collect();
    let mut command = desk.command(&[]);
    command.env("RACK_LINES", random.one_of(&["7", "40", "10000"])).stdin(Stdio::piped()).stderr(Stdio::null());
    let mut child = command.spawn().unwrap();
    let (mut input, mut output) = (child.stdin.take().unwrap(), child.stdout.take().unwrap());
    let mut printed = String::new();
    let killed = std::thread::scope(|threads| {
        threads.spawn(move || {
            let _ = input.write_all(script.as_bytes());
        });
        let reader = threads.spawn(|| output.read_to_string(&mut printed));
        let killed = kill(&mut child, random.below(30_000));
        reader.join().unwrap().unwrap();
        killed
    });
    count.kills += u64::from(killed);
    count.late += u64::from(!killed);
    let (least, most) = answered(&lines, &printed, count);
    let journal = desk.journal();
    assert!(journal.len() >= kept.len(), "a call is lost");
    let calls: Vec<&(String, Outcome)> = lines.iter().filter(|(_, outcome)| outcome.kept).collect();
    let new = journal.len() - kept.len();
    assert!((least..=most).contains(&new), "{new} calls are kept, and not {least} to {most}");
    count.unanswered += u64::from(new == most && most > least);
    for (line, _) in &calls[..new] {
        play(model, line);
        kept.push(line.clone());
    }
}

/// The calls that were answered, at least, and those that may be kept: what prints nothing may have been answered, and one more call may be
/// kept whose answer was not printed.
fn answered(lines: &[(String, Outcome)], printed: &str, count: &mut Count) -> (usize, usize) {
    let (mut rest, mut calls, mut least) = (printed, 0, 0);
    for (line, outcome) in lines {
        if !outcome.printed.is_empty() {
            if rest.is_empty() {
                return (least, calls + usize::from(outcome.kept));
            }
            rest = rest.strip_prefix(&outcome.printed).unwrap_or_else(|| panic!("{line}: {rest:?}, and not {:?}", outcome.printed));
            count.answers += 1;
        }
        calls += usize::from(outcome.kept);
        if !outcome.printed.is_empty() {
            least = calls;
        }
    }
    assert_eq!(rest, "");
    (least, calls)
}
