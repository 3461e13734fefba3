//! `rack`: plays a script of lines from standard input on a desk, which the first line opens or the lines of a file give, or says whether
//! lines give a desk. What a line prints is written before the next line is read. Or it keeps a desk in a folder (`desk`). Everything that
//! is decided, refusals too, is decided by the library: this reads lines and writes answers.

mod desk;
mod fields;
mod lines;
mod page;
mod page_html;
mod picture;
mod script;
mod words;

use desk::{Ended, Times};
use hingerota_host::{LOGIC, VERSION};
use lines::Lines;
use page::Page;
use script::{Rack, Script};
use std::ffi::OsString;
use std::fs::{self, File};
use std::io::{self, BufReader, Read, Write};
use std::os::fd::AsFd;
use std::os::unix::ffi::OsStrExt;
use std::path::Path;
use std::process::ExitCode;

/// Reading or writing failed, and why.
type Failure = String;

/// Standard input or output as a file: the standard library's own hide that a descriptor is open the other way alone.
fn file(descriptor: impl AsFd) -> Result<File, Failure> {
    descriptor.as_fd().try_clone_to_owned().map(File::from).map_err(|e| e.to_string())
}

fn write(output: &mut File, text: &str) -> Result<(), Failure> {
    output.write_all(text.as_bytes()).map_err(|e| format!("the printout cannot be written: {e}"))
}

/// Plays what is left of a script.
fn play(mut script: Script) -> Result<(), Failure> {
    let mut lines = Lines::new(BufReader::new(file(io::stdin())?));
    let mut output = file(io::stdout())?;
    while !script.is_over() {
        match lines.next().map_err(|e| format!("the script cannot be read: {e}"))? {
            Some(line) => write(&mut output, script.play(line).text())?,
            None => break,
        }
    }
    Ok(())
}

fn lines_of(path: &Path) -> Result<Vec<u8>, Failure> {
    fs::read(path).map_err(|e| format!("{} cannot be read: {e}", path.display()))
}

/// Plays a script on the desk whose lines a file has; if they are refused, says so and stops.
fn play_from(path: &Path) -> Result<(), Failure> {
    match Script::from(&lines_of(path)?) {
        Ok(script) => play(script),
        Err(refusal) => write(&mut file(io::stdout())?, Page::refused(refusal).text()),
    }
}

/// Draws the desk whose lines a file has; if they are refused, says so, and there is no picture.
fn picture_from(path: &Path, rest: &[OsString]) -> Result<Ended, Failure> {
    let arguments: Vec<&[u8]> = rest.iter().map(|argument| argument.as_bytes()).collect();
    let until = match picture::until(&arguments) {
        Ok(until) => until,
        Err(misused) => return Ok(Ended::Misused(misused)),
    };
    let rack = match Rack::restored(&lines_of(path)?) {
        Ok(rack) => rack,
        Err(refusal) => return write(&mut file(io::stdout())?, Page::refused(refusal).text()).map(|()| Ended::Refused),
    };
    let times = Times { since: None, now: rack.desk.clock() };
    match picture::picture(&rack.desk, times, until) {
        Ok(drawn) => write(&mut file(io::stdout())?, &drawn).map(|()| Ended::Taken),
        Err(why) => Ok(Ended::Declined(why)),
    }
}

/// Says whether the lines on standard input give a desk.
fn check() -> Result<(), Failure> {
    let mut text = Vec::new();
    file(io::stdin())?.read_to_end(&mut text).map_err(|e| format!("the lines cannot be read: {e}"))?;
    let page = match Script::from(&text) {
        Ok(_) => Page::ok(),
        Err(refusal) => Page::refused(refusal),
    };
    write(&mut file(io::stdout())?, page.text())
}

fn help() -> Result<(), Failure> {
    write(&mut file(io::stdout())?, &words::usage())
}

/// This version, and the logic by which the library was proved.
fn version() -> Result<(), Failure> {
    write(&mut file(io::stdout())?, &format!("rack {VERSION}, with a library proved by logic {LOGIC}\n"))
}

/// The status of a command that can be refused, and what is said of it; that of a failure is given.
fn status(ended: Result<Ended, Failure>, failed: u8) -> ExitCode {
    let (status, said) = match ended {
        Ok(Ended::Taken) => (0, None),
        Ok(Ended::Refused) => (1, None),
        Ok(Ended::Declined(why)) => (1, Some(why)),
        Ok(Ended::Misused(why)) => (2, Some(format!("{why} ('rack --help' says more)"))),
        Err(failure) => (failed, Some(failure)),
    };
    if let Some(said) = said {
        eprintln!("rack: {said}");
    }
    ExitCode::from(status)
}

fn main() -> ExitCode {
    let arguments: Vec<OsString> = std::env::args_os().skip(1).collect();
    let done = match arguments.as_slice() {
        [] => play(Script::First),
        [option, path] if option == "--from" => play_from(Path::new(path)),
        [option, path, word, rest @ ..] if option == "--from" && word == "picture" => {
            return status(picture_from(Path::new(path), rest), 1)
        }
        [only] if only == "--check" => check(),
        [only] if only == "--help" => help(),
        [only] if only == "--version" => version(),
        [path, rest @ ..] if !path.is_empty() && !path.as_encoded_bytes().starts_with(b"-") => return status(desk::run(path, rest), 3),
        _ => {
            eprint!("{}", words::usage());
            return ExitCode::from(2);
        }
    };
    match done {
        Ok(()) => ExitCode::SUCCESS,
        Err(failure) => {
            eprintln!("rack: {failure}");
            ExitCode::FAILURE
        }
    }
}
