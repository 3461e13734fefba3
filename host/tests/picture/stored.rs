//! What is printed is what is stored; what is stored is right by a second way; and it is XML.

use super::desks::{data, InFolder, DESKS};
use super::places::compare;
use crate::common::program::{rack, same, Ended};
use std::fs;
use std::path::{Path, PathBuf};
use std::process::{Command, Stdio};

/// What is stored of each desk: the ending, and the command.
const KINDS: &[(&str, &[&str])] = &[("svg", &["picture"]), ("html", &["page"])];

pub fn as_printed() -> String {
    let writes = std::env::var("PICTURES").is_ok_and(|said| said == "write");
    let mut count = 0;
    for desk in DESKS {
        let folder = InFolder::new(desk);
        for (ending, command) in KINDS {
            let (path, printed) = (data(desk.0, ending), folder.taken(command));
            if writes {
                fs::write(&path, &printed).unwrap();
            }
            same(&path, printed.as_bytes(), &fs::read(&path).unwrap_or_default());
            count += 1;
        }
        if desk.1.is_none() {
            assert_eq!(from(&data(desk.0, "desk"), &[]), folder.taken(&["picture"]), "from lines, and from a folder");
        }
    }
    readme(writes);
    format!("{count} pictures and pages of {} desks are those that are stored, and the README's picture", DESKS.len())
}

/// Its picture is one of these.
fn readme(writes: bool) {
    let (path, drawn) = (Path::new(env!("CARGO_MANIFEST_DIR")).join("../docs/plan.svg"), data("clearing", "svg"));
    if writes {
        fs::copy(&drawn, &path).unwrap();
    }
    same(&path, &fs::read(&path).unwrap_or_default(), &fs::read(drawn).unwrap());
}

/// The picture of a desk's lines.
pub fn from(path: &Path, options: &[&str]) -> String {
    let ended = Ended::of(rack(&["--from"]).arg(path).arg("picture").args(options).stdout(Stdio::piped()));
    assert_eq!((ended.status, ended.error.as_str()), (Some(0), ""), "{}", path.display());
    ended.output
}

fn minutes(label: &str) -> f64 {
    label.parse().unwrap()
}

/// Of `00:05`, the minute since 23:50.
fn since_ten_to_midnight(label: &str) -> f64 {
    let (hours, minutes) = label.split_once(':').unwrap();
    let of_day: i32 = hours.parse::<i32>().unwrap() * 60 + minutes.parse::<i32>().unwrap();
    (of_day - (23 * 60 + 50)).rem_euclid(24 * 60).into()
}

/// All desks of the scripts' data too, as far as their lines are accepted.
pub fn second_way() -> String {
    let (mut bars, mut cut) = (0, 0);
    for (name, clock) in DESKS {
        let (svg, lines) = (fs::read_to_string(data(name, "svg")).unwrap(), fs::read(data(name, "desk")).unwrap());
        bars += if clock.is_some() { compare(&svg, &lines, since_ten_to_midnight) } else { compare(&svg, &lines, minutes) };
    }
    let others = accepted();
    for (path, lines) in &others {
        bars += compare(&from(path, &[]), lines, minutes);
        let clock = crate::common::text::read(lines).unwrap().clock;
        for minutes_more in [2, 47, 700] {
            let until = (clock + minutes_more).to_string();
            cut += compare(&from(path, &["--until", &until]), lines, minutes);
        }
    }
    format!("{bars} bars lie where the record says on {} desks, and {cut} with --until", DESKS.len() + others.len())
}

fn accepted() -> Vec<(PathBuf, Vec<u8>)> {
    let scripts = Path::new(env!("CARGO_MANIFEST_DIR")).join("tests/scripts/data");
    let mut found = Vec::new();
    for folder in ["text", "from"] {
        for entry in fs::read_dir(scripts.join(folder)).unwrap() {
            let path = entry.unwrap().path();
            let lines = fs::read(&path).unwrap();
            if path.extension().is_some_and(|e| e == "desk") && crate::common::text::read(&lines).is_ok() {
                found.push((path, lines));
            }
        }
    }
    found.sort();
    found
}

pub fn parses() -> String {
    let mut count = 0;
    for (name, _) in DESKS {
        for (ending, _) in KINDS {
            let path = data(name, ending);
            let parsed = Command::new("xmllint").args(["--noout", "--nonet"]).arg(&path).stdin(Stdio::null()).output();
            let Ok(parsed) = parsed else {
                return "not parsed, since there is no xmllint (Debian's libxml2-utils)".to_string();
            };
            assert!(parsed.status.success() && parsed.stderr.is_empty(), "{}", String::from_utf8_lossy(&parsed.stderr));
            count += 1;
        }
    }
    format!("{count} pictures and pages parse as XML")
}
