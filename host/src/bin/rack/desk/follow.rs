//! `rack DIR follow`: who is over and who starts, as it comes, for a controller at the other end of a pipe.

use super::commands::Output;
use super::folder::Folder;
use super::held::Held;
use super::system::{asked_to_end, end_when_asked, sleep_until_closed};
use super::turn::Lock;
use crate::page::Page;
use crate::Failure;
use std::time::Duration;

/// So often it looks whether somebody has called, or a minute has passed.
const PAUSE: Duration = Duration::from_millis(50);

/// Until it is asked to end or the reader of the pipe is gone. Between turns others have theirs.
pub fn follow(folder: Folder, mut lock: Lock, output: &mut Output) -> Result<(), Failure> {
    end_when_asked();
    let Some(turn) = lock.take_unless_asked()? else {
        return Ok(());
    };
    let mut held = Held::load(folder)?;
    drop(turn);
    while let Some(page) = look(&mut held, &mut lock)? {
        let mut text = told(&page);
        if output.words {
            text += &held.sayer().lines(&text);
        }
        if !output.told(&text)? {
            break;
        }
        while !asked_to_end() && !held.is_behind()? {
            if sleep_until_closed(output.descriptor(), PAUSE) {
                return Ok(());
            }
        }
        if asked_to_end() {
            break;
        }
    }
    Ok(())
}

/// What came since the last look, and of the minutes that passed at most one wait: its answer is printed before the next is made. None where it
/// was asked to end while it waited for its turn.
fn look(held: &mut Held, lock: &mut Lock) -> Result<Option<Page>, Failure> {
    let mut page = Page::default();
    let Some(_turn) = lock.take_unless_asked()? else {
        return Ok(None);
    };
    held.refresh(&mut page)?;
    held.let_minutes_pass(&mut page)?;
    held.flush()?;
    Ok(Some(page))
}

/// "prints `over`, `start`, `head` lines".
fn told(page: &Page) -> String {
    let told = |line: &&str| ["over\t", "start\t", "head\t"].iter().any(|word| line.starts_with(word));
    page.text().split_inclusive('\n').filter(told).collect()
}
