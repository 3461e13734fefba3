//! What a program of the gate plays and prints: `args` has the names of its files, `data` the files, and `stdout` each name and its printout.

use std::fs::{read, read_to_string};
use std::path::{Path, PathBuf};

/// Each file that the program of a crate plays, with the printout that it is held to.
pub fn printouts(folder: &Path) -> Vec<(PathBuf, Vec<u8>)> {
    let (args, stdout) = (read_to_string(folder.join("args")).unwrap(), read(folder.join("stdout")).unwrap());
    let names: Vec<&str> = args.lines().collect();
    let is_name = |line: &[u8]| names.iter().any(|name| line.strip_suffix(b"\n") == Some(name.as_bytes()));
    let mut lines = stdout.split_inclusive(|byte| *byte == b'\n').peekable();
    let mut printouts = Vec::new();
    for name in &names {
        assert_eq!(lines.next(), Some(format!("{name}\n").as_bytes()));
        let mut printout = Vec::new();
        while let Some(line) = lines.next_if(|line| !is_name(line)) {
            printout.extend(line);
        }
        printouts.push((folder.join("data").join(name), printout));
    }
    assert_eq!(lines.next(), None);
    printouts
}
