//! Generations: how a folder begins, how the next generation begins and old ones go, and how all are compared.

use super::clock::Since;
use super::folder::{failed, flush, settings_line, Folder};
use super::held::{replay, restored};
use super::journal::Journal;
use crate::page::Page;
use crate::script::Rack;
use crate::Failure;
use std::fs;
use std::os::unix::fs::DirBuilderExt;
use std::path::{Path, PathBuf};

/// So many generations stay.
const KEPT: usize = 2;

/// Whether something has this name.
pub fn is_there(path: &Path) -> bool {
    fs::symlink_metadata(path).is_ok()
}

/// Makes the folder of a desk that was opened: all of it under another name beside, flushed and renamed, so that it is there whole or not at
/// all.
pub fn make(path: &Path, shared: bool, rack: &Rack, since: &Option<Since>) -> Result<(), Failure> {
    let other = beside(path)?;
    let parent = Folder::parent(path);
    fs::DirBuilder::new().mode(if shared { 0o777 } else { 0o775 }).create(&other).map_err(failed(&other, "made"))?;
    let made = fill(&other, rack, since).and_then(|()| fs::rename(&other, path).map_err(failed(path, "made")));
    if let Err(failure) = made {
        remove(&other);
        return Err(failure);
    }
    flush(parent).inspect_err(|_| {
        // Not to be found half there: away by one rename.
        if fs::rename(path, &other).is_ok() {
            remove(&other);
        }
    })
}

/// A name that nobody else uses at the same time.
fn beside(path: &Path) -> Result<PathBuf, Failure> {
    let name = path.file_name().ok_or_else(|| format!("{} is no name of a folder", path.display()))?;
    Ok(Folder::parent(path).join(format!(".{}.{}.new", name.display(), std::process::id())))
}

fn remove(path: &Path) {
    let _ = fs::remove_dir_all(path);
}

fn fill(path: &Path, rack: &Rack, since: &Option<Since>) -> Result<(), Failure> {
    let folder = Folder::at(path)?;
    folder.create(&folder.lock())?;
    folder.write_whole(&folder.settings(), settings_line(since).as_bytes())?;
    begin(&folder, 1, &rack.desk.text())
}

/// Begins a generation: an empty journal, there for good, and then the desk under another name, flushed, renamed, the folder flushed.
pub fn begin(folder: &Folder, number: u64, text: &[u8]) -> Result<(), Failure> {
    let calls = folder.calls(number);
    folder.create(&calls)?.sync_all().map_err(failed(&calls, "flushed"))?;
    folder.flush()?;
    folder.write_whole(&folder.desk(number), text)?;
    folder.flush()
}

/// Removes all but the last two generations, the oldest first, and what was left of such before. So many.
pub fn prune(folder: &Folder) -> Result<usize, Failure> {
    let (desks, calls) = (folder.numbers("desk-")?, folder.numbers("calls-")?);
    let Some(first) = desks.len().checked_sub(KEPT).map(|place| desks[place]) else {
        return Ok(0);
    };
    let gone = |path: PathBuf| fs::remove_file(&path).map_err(failed(&path, "removed"));
    let old = |numbers: &[u64]| numbers.iter().copied().filter(|number| *number < first).collect::<Vec<_>>();
    // A generation without its desk is none: its calls go after it.
    for number in old(&desks) {
        gone(folder.desk(number))?;
    }
    for number in old(&calls) {
        gone(folder.calls(number))?;
    }
    folder.flush()?;
    Ok(old(&desks).len())
}

/// Plays every generation from its desk and compares it with the desk of the next. The number of generations and of calls.
pub fn audit(folder: &Folder) -> Result<(usize, u64), Failure> {
    let numbers = folder.numbers("desk-")?;
    if numbers.is_empty() {
        folder.last()?;
    }
    let mut calls = 0;
    for (place, number) in numbers.iter().enumerate() {
        let (text, lines) = played(folder, *number)?;
        calls += lines;
        if let Some(next) = numbers.get(place + 1) {
            if *next != number + 1 {
                return Err(format!("{} is missing, and {} is there", folder.desk(number + 1).display(), folder.desk(*next).display()));
            }
            restored(folder, *next)?;
            compare(folder, *number, &text, &folder.read(&folder.desk(*next))?)?;
        }
    }
    Ok((numbers.len(), calls))
}

/// The text of a generation's desk after its calls, and how many these are. Nothing is written.
fn played(folder: &Folder, number: u64) -> Result<(Vec<u8>, u64), Failure> {
    let (mut rack, mut journal) = (restored(folder, number)?, Journal::open(folder, number, false)?);
    let news = journal.news()?;
    replay(&mut rack, &mut journal, &news, &mut Page::default())?;
    if news.tail() > 0 {
        eprintln!("rack: {}: {} bytes after line {} were never answered", journal.path.display(), news.tail(), journal.lines);
    }
    Ok((rack.desk.text(), journal.lines))
}

/// Where the desk that the calls give differs from the next one.
fn compare(folder: &Folder, number: u64, given: &[u8], next: &[u8]) -> Result<(), Failure> {
    if given == next {
        return Ok(());
    }
    let lines = |text: &[u8]| String::from_utf8_lossy(text).lines().map(|line| line.replace('\t', " ")).collect::<Vec<_>>();
    let (given, next) = (lines(given), lines(next));
    let place = given.iter().zip(&next).take_while(|(given, next)| given == next).count();
    let line = |lines: &[String]| lines.get(place).map_or("no line".to_string(), |line| format!("'{line}'"));
    let (desk, calls) = (folder.desk(number + 1), folder.calls(number));
    Err(format!("{}, line {}, is {}, and {} gives {}", desk.display(), place + 1, line(&next), calls.display(), line(&given)))
}
