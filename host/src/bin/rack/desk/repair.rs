//! A damaged journal goes on, by hand, after some of its lines. What it held stays beside it.

use super::folder::Folder;
use super::held::{replay, restored};
use super::journal::Journal;
use crate::page::Page;
use crate::Failure;
use std::path::{Path, PathBuf};

/// What a repair left.
pub struct Repaired {
    pub journal: PathBuf,
    /// So many lines are no more in the journal.
    pub lines: u64,
    /// Where all that it held stands.
    pub kept: PathBuf,
}

/// Leaves so many lines of the last journal, all of which have to be whole. None where nothing is damaged: then every line was answered.
pub fn repair(folder: &Folder, to_line: u64) -> Result<Option<Repaired>, Failure> {
    let number = folder.last()?;
    let (mut rack, mut journal) = (restored(folder, number)?, Journal::open(folder, number, false)?);
    let news = journal.news()?;
    let Err(damage) = replay(&mut rack, &mut journal, &news, &mut Page::default()) else {
        return Ok(None);
    };
    if journal.lines < to_line {
        return Err(format!("{damage}. At most {} lines can be kept", journal.lines));
    }
    let left: Vec<u8> = news.lines().take(to_line as usize).flat_map(|line| [line, b"\n"].concat()).collect();
    let kept = unused(&journal.path);
    folder.write_whole(&kept, &folder.read(&journal.path)?)?;
    folder.flush()?;
    folder.write_whole(&journal.path, &left)?;
    folder.flush()?;
    Ok(Some(Repaired { lines: news.lines().count() as u64 - to_line, journal: journal.path, kept }))
}

/// A name beside a journal that nothing has.
fn unused(journal: &Path) -> PathBuf {
    let named = |place: u32| {
        let mut name = journal.as_os_str().to_owned();
        name.push(format!(".cut-{place}"));
        PathBuf::from(name)
    };
    (1..).map(named).find(|path| !path.exists()).unwrap_or_else(|| named(0))
}
