//! `rack DIR page --to FILE`: the page for the screen in the corridor, written anew in each minute.

use super::commands::Output;
use super::folder::{failed, Folder};
use super::held::Held;
use super::system::{asked_to_end, end_when_asked};
use super::turn::Lock;
use crate::page::Page;
use crate::page_html::page;
use crate::Failure;
use std::fs::{self, File};
use std::io::Write;
use std::path::Path;
use std::time::Duration;

/// So often it looks whether a minute has passed.
const PAUSE: Duration = Duration::from_millis(100);

/// Until it is asked to end. Between turns others have theirs.
pub fn screen(folder: Folder, mut lock: Lock, output: &mut Output, path: &Path) -> Result<(), Failure> {
    end_when_asked();
    let Some(turn) = lock.take_unless_asked()? else {
        return Ok(());
    };
    let mut held = Held::load(folder)?;
    drop(turn);
    loop {
        let minute = held.minute_of_clock()?;
        let Some(html) = look(&mut held, &mut lock, output)? else {
            return Ok(());
        };
        rewrite(path, &html)?;
        while held.minute_of_clock()? == minute {
            if asked_to_end() {
                return Ok(());
            }
            std::thread::sleep(PAUSE);
        }
    }
}

/// The page of the desk as it stands, after the minutes that have passed, each wait in a turn of its own. None where it was asked to end while
/// it waited for its turn.
fn look(held: &mut Held, lock: &mut Lock, output: &mut Output) -> Result<Option<String>, Failure> {
    loop {
        let mut passed = Page::default();
        let Some(turn) = lock.take_unless_asked()? else {
            return Ok(None);
        };
        held.refresh(&mut Page::default())?;
        if !held.let_minutes_pass(&mut passed)? {
            held.flush()?;
            return Ok(Some(page(&held.rack.desk, held.times())));
        }
        drop(turn);
        let sentences = if output.words { held.sayer().passed(passed.text()) } else { String::new() };
        // Whether somebody reads it or not.
        output.told(&(passed.text().to_string() + &sentences))?;
    }
}

/// A new file renamed over it, so that whoever reads it finds one page, and a whole one.
fn rewrite(path: &Path, text: &str) -> Result<(), Failure> {
    let name = path.file_name().ok_or_else(|| format!("{} is no name of a file", path.display()))?;
    let other = Folder::parent(path).join(format!(".{}.{}.new", name.display(), std::process::id()));
    let written = File::create(&other)
        .and_then(|mut file| file.write_all(text.as_bytes()).and_then(|()| file.sync_all()))
        .map_err(failed(&other, "written"))
        .and_then(|()| fs::rename(&other, path).map_err(failed(path, "renamed into place")));
    if written.is_err() {
        let _ = fs::remove_file(&other);
    }
    written
}
