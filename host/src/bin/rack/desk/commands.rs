//! The commands on a folder: what each does in its turn, and what it prints after.

use super::arguments::{asked, Asked, Command};
use super::clock::Since;
use super::folder::Folder;
use super::follow::follow;
use super::generations;
use super::held::Held;
use super::repair::repair;
use super::say::{refused_opening, Sayer};
use super::screen::screen;
use super::turn::Lock;
use crate::fields::{fields, number};
use crate::lines::{Line, Lines};
use crate::page::Page;
use crate::page_html::page;
use crate::picture::picture;
use crate::script;
use crate::{file, Failure};
use hingerota_host::Refusal;
use std::ffi::OsString;
use std::fs::File;
use std::io::{self, BufReader, ErrorKind, IsTerminal, Write};
use std::os::fd::{AsFd, BorrowedFd};
use std::path::Path;

/// How a command ended that could read and write.
pub enum Ended {
    Taken,
    /// It was refused, a line of its script too; the number was printed.
    Refused,
    /// It was refused for what no number says.
    Declined(String),
    /// The arguments are wrong, and why.
    Misused(String),
}

/// Standard output.
pub struct Output {
    file: File,
    /// Whether sentences are printed too.
    pub words: bool,
    /// Whether it is a picture or a page, so that what minutes give that have passed goes to standard error.
    whole: bool,
}

impl Output {
    fn new(words: bool) -> Result<Output, Failure> {
        Ok(Output { file: file(io::stdout())?, words: words || io::stdout().is_terminal(), whole: false })
    }

    fn print(&mut self, text: &str) -> Result<(), Failure> {
        self.file.write_all(text.as_bytes()).map_err(|e| format!("the printout cannot be written: {e}; what was taken is kept"))
    }

    /// What minutes gave that have passed.
    fn print_passed(&mut self, text: &str) -> Result<(), Failure> {
        if self.whole {
            let _ = io::stderr().write_all(text.as_bytes());
            return Ok(());
        }
        self.print(text)
    }

    /// Whether somebody reads it still.
    pub fn told(&mut self, text: &str) -> Result<bool, Failure> {
        match self.file.write_all(text.as_bytes()) {
            Err(e) if e.kind() == ErrorKind::BrokenPipe => Ok(false),
            Err(e) => Err(format!("the printout cannot be written: {e}")),
            Ok(()) => Ok(true),
        }
    }

    pub fn descriptor(&self) -> BorrowedFd<'_> {
        self.file.as_fd()
    }
}

/// A folder, and the desk in it once it was read.
struct Session {
    folder: Folder,
    lock: Lock,
    held: Option<Held>,
    output: Output,
}

impl Session {
    /// The desk as it stands, in its turn.
    fn held(&mut self) -> Result<&mut Held, Failure> {
        let held = match self.held.take() {
            Some(mut held) => {
                held.refresh(&mut Page::default())?;
                held
            }
            None => Held::load(self.folder.clone())?,
        };
        Ok(self.held.insert(held))
    }

    /// Does something with the desk in its turn, after the minutes that have passed. Each wait has a turn of its own, and what it gives is
    /// printed before the next call: so at most one call is ever kept whose answer was not printed.
    fn in_turn<T>(&mut self, act: impl FnOnce(&mut Held) -> Result<T, Failure>) -> Result<T, Failure> {
        loop {
            let (words, turn, mut page) = (self.output.words, self.lock.take()?, Page::default());
            let held = self.held()?;
            if !held.let_minutes_pass(&mut page)? {
                return act(held);
            }
            let sentences = if words { held.sayer().passed(page.text()) } else { String::new() };
            drop(turn);
            self.output.print_passed(&(page.text().to_string() + &sentences))?;
        }
    }

    /// Prints a picture or a page of the desk, or says why there is none.
    fn whole(&mut self, draw: impl FnOnce(&Held) -> Result<String, String>) -> Result<Ended, Failure> {
        self.output.whole = true;
        let drawn = self.in_turn(|held| held.flush().map(|()| draw(held)))?;
        match drawn {
            Ok(text) => self.output.print(&text).map(|()| Ended::Taken),
            Err(why) => Ok(Ended::Declined(why)),
        }
    }

    /// Plays a line, and once its turn is over prints what it gives. Whether it was taken.
    fn line(&mut self, fields: &[&[u8]]) -> Result<bool, Failure> {
        let words = self.output.words;
        let (text, taken) = self.in_turn(|held| {
            let mut page = Page::default();
            let done = held.play(fields, &mut page)?;
            if let Err(refusal) = done {
                page.no(refusal);
            }
            let sentences = match done {
                _ if !words => String::new(),
                Ok(()) => held.sayer().taken(fields, page.text()),
                Err(refusal) => held.sayer().refused(fields, refusal),
            };
            Ok((page.text().to_string() + &sentences, done.is_ok()))
        })?;
        self.output.print(&text)?;
        Ok(taken)
    }

    /// Plays the lines on standard input, each in a turn of its own.
    fn script(&mut self) -> Result<Ended, Failure> {
        let mut lines = Lines::new(BufReader::new(file(io::stdin())?));
        let mut ended = Ended::Taken;
        while let Some(line) = lines.next().map_err(|e| format!("the script cannot be read: {e}"))? {
            let fields = match line {
                Line::Closed(bytes) => fields(bytes),
                Line::Formless => Vec::new(),
            };
            if !self.line(&fields)? {
                ended = Ended::Refused;
            }
        }
        Ok(ended)
    }

    /// Does something with the desk in its turn, and prints a sentence that it gives.
    fn once(&mut self, act: impl FnOnce(&mut Held) -> Result<String, Failure>) -> Result<Ended, Failure> {
        let said = self.in_turn(act)?;
        self.say(&said)?;
        Ok(Ended::Taken)
    }

    fn say(&mut self, sentence: &str) -> Result<(), Failure> {
        if self.output.words {
            self.output.print(&format!("{sentence}\n"))?;
        }
        Ok(())
    }

    /// Compares what is there, and changes nothing: no minute passes.
    fn audit(&mut self) -> Result<Ended, Failure> {
        let (generations, calls) = {
            let _turn = self.lock.take()?;
            generations::audit(&self.folder)?
        };
        self.output.print(&format!("ok\t{calls}\n"))?;
        let plural = if generations == 1 { "" } else { "s" };
        self.say(&format!("{calls} calls of {generations} generation{plural} give what is there"))?;
        Ok(Ended::Taken)
    }

    fn repair(&mut self, to_line: u64) -> Result<Ended, Failure> {
        let repaired = {
            let _turn = self.lock.take()?;
            repair(&self.folder, to_line)?
        };
        let Some(repaired) = repaired else {
            return Ok(Ended::Declined("no line is damaged; nothing was changed".to_string()));
        };
        let (journal, kept) = (repaired.journal.display(), repaired.kept.display());
        eprintln!("rack: {journal} goes on after line {to_line}; {} lines were taken out, and {kept} has all that it held", repaired.lines);
        Ok(Ended::Taken)
    }
}

/// Opens a desk and makes its folder.
fn open(path: &Path, shared: bool, given: &[Vec<u8>], since: &Option<String>, output: &mut Output) -> Result<Ended, Failure> {
    let fields: Vec<&[u8]> = given.iter().map(Vec::as_slice).collect();
    let rack = match script::open(&fields) {
        Err(Refusal::LACKS_THE_FORM) => return Ok(Ended::Misused("numbers of 'open' have 1 to 7 digits".to_string())),
        Err(refusal) => {
            output.print(Page::refused(refusal).text())?;
            if output.words {
                output.print(&refused_opening(&fields, refusal))?;
            }
            return Ok(Ended::Refused);
        }
        Ok(rack) => rack,
    };
    let minute = number(fields[3]).map_err(|refusal| refusal.to_string())?;
    let since = match since.as_ref().map(|time| Since::new(time, minute)).transpose() {
        Err(misused) => return Ok(Ended::Misused(misused)),
        Ok(since) => since,
    };
    if generations::is_there(path) {
        return Ok(Ended::Declined(format!("{} is there already; nothing was changed", path.display())));
    }
    generations::make(path, shared, &rack, &since)?;
    if output.words {
        let now = Sayer { desk: &rack.desk, since: since.as_ref() }.now();
        output.print(&format!("the desk in {} is open: it is {now}\n", path.display()))?;
    }
    Ok(Ended::Taken)
}

/// Runs a command by the name of its folder and the arguments after it.
pub fn run(path: &OsString, rest: &[OsString]) -> Result<Ended, Failure> {
    let Asked { path, words, shared, command } = match asked(path, rest) {
        Ok(asked) => asked,
        Err(misused) => return Ok(Ended::Misused(misused)),
    };
    let mut output = Output::new(words)?;
    if let Command::Open { fields, since } = &command {
        return open(&path, shared, fields, since, &mut output);
    }
    let folder = Folder::at(&path)?;
    if folder.others_may_write && !shared {
        return Ok(Ended::Declined(format!("others may write {}: 'chmod o-w' forbids it, and --shared allows it", path.display())));
    }
    let lock = Lock::open(&folder)?;
    let mut session = Session { folder, lock, held: None, output };
    match command {
        Command::Open { .. } => Ok(Ended::Taken),
        Command::Line(fields) => {
            let fields: Vec<&[u8]> = fields.iter().map(Vec::as_slice).collect();
            Ok(if session.line(&fields)? { Ended::Taken } else { Ended::Refused })
        }
        Command::Script => session.script(),
        Command::Close => session.once(|held| held.begin_next().map(|()| format!("generation {} begins", held.number()))),
        Command::Prune => session.once(|held| generations::prune(&held.folder).map(|gone| format!("{gone} generations were removed"))),
        Command::Audit => session.audit(),
        Command::Repair { to_line } => session.repair(to_line),
        Command::Picture { until } => session.whole(|held| picture(&held.rack.desk, held.times(), until)),
        Command::Page { to: None } => session.whole(|held| Ok(page(&held.rack.desk, held.times()))),
        Command::Page { to: Some(file) } => screen(session.folder, session.lock, &mut session.output, &file).map(|()| Ended::Taken),
        Command::Follow => follow(session.folder, session.lock, &mut session.output).map(|()| Ended::Taken),
    }
}
