//! The desk of a folder as a process has it: `desk-N` read back, with the lines of `calls-N` played on it.

use super::clock::{self, Since, Times};
use super::folder::Folder;
use super::generations;
use super::journal::{Journal, Named, News};
use super::say::{no, Sayer};
use crate::fields::fields;
use crate::page::{Done, Page};
use crate::script::Rack;
use crate::{words, Failure};
use hingerota_host::Refusal;

/// "by itself after 10,000 lines begins the next generation". A test sets less: RACK_LINES.
const GENERATION: u64 = 10_000;

/// The longest wait, and the last minute. The library judges every wait; these say how to ask for many minutes.
const LONGEST_WAIT: i64 = 10_080;
const LAST_MINUTE: i64 = 1_000_000;

pub struct Held {
    pub folder: Folder,
    pub rack: Rack,
    pub since: Option<Since>,
    journal: Journal,
    /// What was said last of the machine's clock, so that it is said once.
    said: String,
}

/// The desk of a generation before its calls.
pub fn restored(folder: &Folder, number: u64) -> Result<Rack, Failure> {
    let path = folder.desk(number);
    Rack::restored(&folder.read(&path)?).map_err(|refusal| format!("{} is damaged, {}", path.display(), no(refusal, &[])))
}

/// Plays the new lines of a journal, each a call that is taken; where one is not, it is damaged, and this says so.
pub fn replay(rack: &mut Rack, journal: &mut Journal, news: &News, page: &mut Page) -> Result<(), Failure> {
    for line in news.lines() {
        let fields = fields(line);
        let done = if words::is_call(&fields) { words::play(rack, &fields, page) } else { Err(Refusal::LACKS_THE_FORM) };
        done.map_err(|refusal| damaged(journal, line, refusal))?;
        journal.played(line);
    }
    Ok(())
}

fn damaged(journal: &Journal, line: &[u8], refusal: Refusal) -> Failure {
    let shown = line.escape_ascii().to_string().replace("\\t", " ");
    let shown = if shown.len() > 80 { format!("{}..", &shown[..80]) } else { shown };
    let (path, place) = (journal.path.display(), journal.lines + 1);
    let (number, reason) = (refusal.number(), refusal.reason());
    format!("{path}, line {place}, is damaged: '{shown}' gives no {number}, {reason}; nothing was written")
}

impl Held {
    /// In its turn.
    pub fn load(folder: Folder) -> Result<Held, Failure> {
        let (number, since) = (folder.last()?, folder.since()?);
        for path in [folder.settings(), folder.desk(number), folder.calls(number)] {
            folder.hand_over_own(&path)?;
        }
        let (rack, journal) = (restored(&folder, number)?, Journal::open(&folder, number, true)?);
        let mut held = Held { folder, rack, since, journal, said: String::new() };
        held.catch_up(&mut Page::default())?;
        Ok(held)
    }

    pub fn number(&self) -> u64 {
        self.journal.number
    }

    pub fn sayer(&self) -> Sayer<'_> {
        Sayer { desk: &self.rack.desk, since: self.since.as_ref() }
    }

    pub fn times(&self) -> Times<'_> {
        Times { since: self.since.as_ref(), now: self.rack.desk.clock() }
    }

    /// Plays what others have written since, in its turn. What these lines print goes to the page.
    pub fn refresh(&mut self, page: &mut Page) -> Result<(), Failure> {
        let (number, named) = (self.number(), self.journal.named()?);
        if named == Named::Another {
            return self.load_anew(self.folder.last()?, page);
        }
        // Where it has been removed, as one of an old generation, what it got before is still there to be read.
        if named != Named::Same {
            self.catch_up(page)?;
        }
        while self.folder.desk(self.number() + 1).exists() {
            self.load_anew(self.number() + 1, page)?;
        }
        if named == Named::None && self.number() == number {
            let last = self.folder.last()?;
            eprintln!("rack: {} has been removed; going on with {}", self.journal.path.display(), self.folder.calls(last).display());
            self.load_anew(last, page)?;
        }
        Ok(())
    }

    /// Whether a turn would find something new: another's line, another generation, or a minute that has passed.
    pub fn is_behind(&self) -> Result<bool, Failure> {
        if self.journal.named()? != Named::Same || self.folder.desk(self.number() + 1).exists() {
            return Ok(true);
        }
        let due = self.since.as_ref().map(|since| clock::now().map(|now| since.minute_at(now))).transpose()?;
        Ok(due.is_some_and(|due| due.min(LAST_MINUTE) > i64::from(self.rack.desk.clock())))
    }

    /// The minute of the clock that the desk follows, or else of the machine's.
    pub fn minute_of_clock(&self) -> Result<i64, Failure> {
        let now = clock::now()?;
        Ok(self.since.as_ref().map_or_else(|| clock::minute(now), |since| since.minute_at(now)))
    }

    fn load_anew(&mut self, number: u64, page: &mut Page) -> Result<(), Failure> {
        let reads = self.rack.reads;
        self.since = self.folder.since()?;
        self.rack = restored(&self.folder, number)?;
        self.rack.reads = reads;
        self.journal = Journal::open(&self.folder, number, true)?;
        self.catch_up(page)
    }

    fn catch_up(&mut self, page: &mut Page) -> Result<(), Failure> {
        let news = self.journal.news()?;
        replay(&mut self.rack, &mut self.journal, &news, page).map_err(|damage| {
            let (folder, lines) = (self.folder.path.display(), self.journal.lines);
            format!("{damage}. 'rack {folder} repair --to-line {lines}' goes on after the lines before it")
        })?;
        if news.tail() > 0 {
            let (path, lines) = (self.journal.path.display(), self.journal.lines);
            self.journal.cut().map_err(|e| format!("{path} cannot be cut off after line {lines}: {e}"))?;
            eprintln!("rack: {path}: {} bytes after line {lines} were never answered, and are cut off", news.tail());
        }
        Ok(())
    }

    /// Plays a line in its turn. A call that is taken is kept before this returns; a refused one and a question are not written.
    pub fn play(&mut self, fields: &[&[u8]], page: &mut Page) -> Result<Done, Failure> {
        let is_call = words::is_call(fields);
        if is_call && self.journal.lines >= generation() {
            self.begin_next()?;
        }
        let done = words::play(&mut self.rack, fields, page);
        if done.is_ok() && is_call {
            self.keep(&fields.join(&b'\t'))?;
        } else {
            self.journal.flush()?;
        }
        Ok(done)
    }

    /// Before the first line of a generation its desk's name has to be there for good, and of the first generation the folder's.
    fn keep(&mut self, line: &[u8]) -> Result<(), Failure> {
        if self.journal.lines == 0 {
            self.folder.flush_with_parent()?;
        }
        self.journal.append(line)
    }

    /// Before anything is printed that rests on what others wrote.
    pub fn flush(&mut self) -> Result<(), Failure> {
        self.journal.flush()
    }

    /// Begins the next generation.
    pub fn begin_next(&mut self) -> Result<(), Failure> {
        let number = self.number() + 1;
        self.journal.flush()?;
        generations::begin(&self.folder, number, &self.rack.desk.text())?;
        self.journal = Journal::open(&self.folder, number, true)?;
        Ok(())
    }

    /// Where minutes have passed on the clock that the desk follows, lets them pass, up to the longest wait: whether there were any. It is a call
    /// like any, whose answer is to be printed before the next is made.
    pub fn let_minutes_pass(&mut self, page: &mut Page) -> Result<bool, Failure> {
        let Some(since) = &self.since else {
            return Ok(false);
        };
        let due = since.minute_at(clock::now()?);
        let minutes = (due.min(LAST_MINUTE) - i64::from(self.rack.desk.clock())).min(LONGEST_WAIT);
        if minutes <= 0 {
            self.say_of_clock(due);
            return Ok(false);
        }
        let done = self.play(&[b"wait", minutes.to_string().as_bytes()], page)?;
        done.map_err(|refusal| format!("{minutes} minutes have passed, and the desk refuses them, {}", no(refusal, &[])))?;
        Ok(true)
    }

    fn say_of_clock(&mut self, due: i64) {
        let now = i64::from(self.rack.desk.clock());
        let said = if due < now {
            format!("the machine's clock is {} minutes behind the desk's, and no minute passes", now - due)
        } else if due > LAST_MINUTE {
            "the desk stands at the last minute, 1,000,000, and no minute passes any more".to_string()
        } else {
            String::new()
        };
        if !said.is_empty() && said != self.said {
            eprintln!("rack: {said}");
        }
        self.said = said;
    }
}

fn generation() -> u64 {
    std::env::var("RACK_LINES").ok().and_then(|lines| lines.parse().ok()).unwrap_or(GENERATION)
}
