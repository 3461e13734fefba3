//! Seasons, on a model written from document 02's words: it prints what the gate's program `crates/seasons` is held to, and what the season
//! program prints for random ones. SEASON names that program, with its arguments; by default it is `target/bin/season`, and where that is not
//! built, random seasons are left out.

mod common;
mod seasons {
    pub mod season;
}

use common::gate;
use common::random::Random;
use seasons::season;
use std::fs::read;
use std::io::Write;
use std::path::{Path, PathBuf};
use std::process::{Command, Stdio};

/// So many random seasons, where SEASONS says nothing else.
const SEASONS: u64 = 1_000;

fn root() -> PathBuf {
    Path::new(env!("CARGO_MANIFEST_DIR")).join("..")
}

fn prints(path: &Path, expected: &[u8]) {
    assert!(season::printout(&read(path).unwrap()).as_bytes() == expected, "{}", path.display());
}

#[test]
fn seasons_of_the_gate() {
    for (path, expected) in gate::printouts(&root().join("crates/seasons")) {
        prints(&path, &expected);
    }
}

#[test]
fn season_of_the_readme() {
    let season = root().join("examples/workload.season");
    prints(&season, &read(season.with_extension("out")).unwrap());
}

/// The program and its arguments.
fn program() -> Option<Vec<String>> {
    if let Ok(named) = std::env::var("SEASON") {
        return Some(named.split_whitespace().map(str::to_owned).collect());
    }
    let built = root().join("target/bin/season");
    built.exists().then(|| vec![built.display().to_string()])
}

fn printed(program: &[String], list: &[u8]) -> Vec<u8> {
    let mut child =
        Command::new(&program[0]).args(&program[1..]).stdin(Stdio::piped()).stdout(Stdio::piped()).spawn().expect("the season program");
    child.stdin.take().unwrap().write_all(list).unwrap();
    let ended = child.wait_with_output().unwrap();
    assert!(ended.status.success());
    ended.stdout
}

/// A line that lacks the form, of these numbers.
fn formless(line: &str, random: &mut Random) -> String {
    match random.below(6) {
        0 => String::new(),
        1 => format!("{line}\t"),
        2 => format!("0{line}"),
        3 => line.replace('\t', " "),
        4 => line.rsplit_once('\t').unwrap().0.to_string(),
        _ => format!("12345678{line}"),
    }
}

fn random_list(random: &mut Random) -> String {
    let kind = random.one_of(&["promise", "loose"]);
    let nodes = random.one_of(&[1, 2, 3, 4, 8, 10, 16, 64, 1_024]);
    let clearing = random.one_of(&[0, 0, 1, 7, 30]);
    let longest = random.one_of(&[1, 5, 7, 20, 60, 121, 481, 1_000, 10_080, 10_080]);
    let mut minute = random.one_of(&[0, 0, 0, 0, 0, 989_000, 999_000, 999_900]);
    let (lines, crowded) = (random.one_of(&[3, 10, 40, 120, 200]), random.below(60));
    let mut list = format!("{kind}\t{nodes}\t{clearing}\t{longest}\n");
    for _ in 0..lines {
        if !random.percent(crowded) {
            minute += match random.below(4) {
                0 => 1,
                1 => random.between(1, 10),
                2 => random.between(1, 30),
                _ => random.between(1, longest / 3 + 2),
            };
        }
        if random.below(400) == 0 {
            minute += 1_000_000;
        }
        let arrival = if random.percent(3) { minute.saturating_sub(random.between(1, 5)) } else { minute };
        let width = random.one_of(&[nodes, (nodes / 2).max(1), (nodes / 4).max(1)]);
        let asked = if random.percent(4) { random.one_of(&[0, nodes + 1]) } else { random.between(1, width) };
        let estimate = if random.percent(4) { random.one_of(&[0, longest + 1]) } else { random.between(1, longest) };
        let length = match random.below(8) {
            0 => random.one_of(&[0, 1]),
            1 => estimate + 3,
            2 => 2 * estimate + 10,
            3 => estimate.max(1),
            _ => random.between(1, estimate.max(1)),
        };
        let line = format!("{arrival}\t{asked}\t{estimate}\t{length}");
        list += &if random.percent(4) { formless(&line, random) } else { line };
        list.push('\n');
    }
    if random.percent(10) {
        list.pop();
    }
    list
}

#[test]
fn random_seasons() {
    let Some(program) = program() else {
        eprintln!("no season program: random seasons are left out");
        return;
    };
    let count = std::env::var("SEASONS").map_or(SEASONS, |n| n.parse().expect("SEASONS is a number"));
    for number in 0..count {
        let list = random_list(&mut Random::new(number));
        let (expected, printed) = (season::printout(list.as_bytes()), printed(&program, list.as_bytes()));
        assert!(expected.as_bytes() == printed, "season {number}:\n{list}\nprints\n{}", String::from_utf8_lossy(&printed));
    }
}
