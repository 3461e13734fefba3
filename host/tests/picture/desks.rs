//! The eight desks of `data/`: their lines, and for one the clock that it follows.

use crate::common::folders::{Desk, Place};
use crate::common::program::Ended;
use std::fs;
use std::path::{Path, PathBuf};
use std::process::Command;

/// A name; and the line of settings with the seconds since 1970, where it follows the clock.
type Named = (&'static str, Option<(&'static str, i64)>);

/// 2026-11-17T23:57, two hours east of Greenwich: minute 7 of a desk that began at 23:50.
const NEARLY_MIDNIGHT: (&str, i64) = ("since\t2026-11-17T23:50:00+02:00\t0\n", 1_794_952_620);

pub const DESKS: &[Named] = &[
    ("empty", None),
    ("one", Some(NEARLY_MIDNIGHT)),
    ("full", None),
    ("full-loose", None),
    ("clearing", None),
    ("gaps", None),
    ("long-and-short", None),
    ("last-minute", None),
];

pub fn data(name: &str, ending: &str) -> PathBuf {
    Path::new(env!("CARGO_MANIFEST_DIR")).join("tests/picture/data").join(format!("{name}.{ending}"))
}

/// A desk of these in a folder.
pub struct InFolder {
    pub place: Place,
    pub desk: Desk,
}

impl InFolder {
    pub fn new((name, clock): &Named) -> InFolder {
        let place = Place::new(&format!("picture-{name}"));
        let desk = place.desk();
        desk.taken(&["open", "promise", "1"]);
        fs::copy(data(name, "desk"), desk.file("desk-1")).unwrap();
        let made = InFolder { place, desk };
        if let Some((settings, seconds)) = clock {
            fs::write(made.desk.file("settings"), settings).unwrap();
            made.set(*seconds);
        }
        made
    }

    fn clock(&self) -> PathBuf {
        self.place.path.join("clock")
    }

    /// Seconds since 1970.
    pub fn set(&self, seconds: i64) {
        let other = self.place.path.join("clock.new");
        fs::write(&other, seconds.to_string()).unwrap();
        fs::rename(other, self.clock()).unwrap();
    }

    pub fn command(&self, arguments: &[&str]) -> Command {
        let mut command = self.desk.command(arguments);
        if self.clock().exists() {
            command.env("RACK_CLOCK", self.clock());
        }
        command
    }

    pub fn run(&self, arguments: &[&str]) -> Ended {
        Ended::of(&mut self.command(arguments))
    }

    /// What it prints; it is taken.
    pub fn taken(&self, arguments: &[&str]) -> String {
        let ended = self.run(arguments);
        assert_eq!((ended.status, ended.error.as_str()), (Some(0), ""), "{arguments:?}");
        ended.output
    }
}
