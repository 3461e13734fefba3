//! Folders of desks, to be tested: made anew for each test, below the build's own folder for such.

use super::program::{rack, Ended};
use std::fs;
use std::path::{Path, PathBuf};
use std::process::{Command, Stdio};

/// A place of its own, removed when it is dropped.
pub struct Place {
    pub path: PathBuf,
}

impl Place {
    pub fn new(name: &str) -> Place {
        let path = Path::new(env!("CARGO_TARGET_TMPDIR")).join(format!("desk-{}-{name}", std::process::id()));
        let _ = fs::remove_dir_all(&path);
        fs::create_dir_all(&path).unwrap();
        Place { path }
    }

    /// The folder of a desk in it.
    pub fn desk(&self) -> Desk {
        Desk { path: self.path.join("rack") }
    }
}

impl Drop for Place {
    fn drop(&mut self) {
        let _ = fs::remove_dir_all(&self.path);
    }
}

#[derive(Clone)]
pub struct Desk {
    pub path: PathBuf,
}

impl Desk {
    pub fn command(&self, arguments: &[&str]) -> Command {
        let mut command = rack(&[]);
        command.arg(&self.path).args(arguments).stdin(Stdio::null()).stdout(Stdio::piped());
        command
    }

    pub fn run(&self, arguments: &[&str]) -> Ended {
        Ended::of(&mut self.command(arguments))
    }

    /// What it prints; it is taken.
    pub fn taken(&self, arguments: &[&str]) -> String {
        let ended = self.run(arguments);
        assert_eq!((ended.status, ended.error.as_str()), (Some(0), ""), "{arguments:?}: {}", ended.output);
        ended.output
    }

    pub fn file(&self, name: &str) -> PathBuf {
        self.path.join(name)
    }

    pub fn bytes(&self, name: &str) -> Vec<u8> {
        fs::read(self.file(name)).unwrap()
    }

    pub fn text(&self) -> Vec<u8> {
        self.taken(&["text"]).into_bytes()
    }

    /// The numbers of its generations.
    pub fn generations(&self) -> Vec<u64> {
        let names = fs::read_dir(&self.path).unwrap().map(|entry| entry.unwrap().file_name().into_string().unwrap());
        let mut numbers: Vec<u64> = names.filter_map(|name| name.strip_prefix("desk-")?.parse().ok()).collect();
        numbers.sort();
        numbers
    }

    /// The whole lines of all its journals, in their order.
    pub fn journal(&self) -> Vec<String> {
        let mut lines = Vec::new();
        for number in self.generations() {
            let text = String::from_utf8(self.bytes(&format!("calls-{number}"))).unwrap();
            lines.extend(text.split_inclusive('\n').filter_map(|line| line.strip_suffix('\n')).map(str::to_owned));
        }
        lines
    }

    /// Another folder beside it with the same files.
    pub fn copy(&self, name: &str) -> Desk {
        self.copied(&self.path.with_file_name(name))
    }

    pub fn copied(&self, path: &Path) -> Desk {
        let _ = fs::remove_dir_all(path);
        fs::create_dir(path).unwrap();
        for entry in fs::read_dir(&self.path).unwrap() {
            let entry = entry.unwrap();
            fs::copy(entry.path(), path.join(entry.file_name())).unwrap();
        }
        Desk { path: path.to_owned() }
    }
}
