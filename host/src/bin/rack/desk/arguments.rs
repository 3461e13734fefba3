//! What the arguments after a folder's name ask for.

use crate::{picture, words};
use std::ffi::{OsStr, OsString};
use std::os::unix::ffi::OsStrExt;
use std::path::PathBuf;

pub struct Asked {
    pub path: PathBuf,
    pub words: bool,
    pub shared: bool,
    pub command: Command,
}

pub enum Command {
    /// By the fields of a `desk` line, and the time since when the desk follows the clock.
    Open {
        fields: Vec<Vec<u8>>,
        since: Option<String>,
    },
    /// By its fields.
    Line(Vec<Vec<u8>>),
    Script,
    Close,
    Prune,
    Audit,
    Repair {
        to_line: u64,
    },
    Follow,
    /// Up to a minute, if it is said.
    Picture {
        until: Option<u32>,
    },
    /// Into a file, in each minute, if it is said.
    Page {
        to: Option<PathBuf>,
    },
}

/// Why arguments are wrong.
pub type Misused = String;

pub fn asked(path: &OsString, rest: &[OsString]) -> Result<Asked, Misused> {
    let is = |argument: &&[u8], option: &str| *argument == option.as_bytes();
    let all: Vec<&[u8]> = rest.iter().map(|argument| argument.as_bytes()).collect();
    let (options, others): (Vec<&[u8]>, Vec<&[u8]>) = all.into_iter().partition(|a| is(a, "--words") || is(a, "--shared"));
    let said = |option| options.iter().any(|argument| is(argument, option));
    Ok(Asked { path: path.into(), words: said("--words"), shared: said("--shared"), command: command(&others)? })
}

fn command(arguments: &[&[u8]]) -> Result<Command, Misused> {
    let Some((name, rest)) = arguments.split_first() else {
        return Ok(Command::Script);
    };
    let alone = |command: Command| if rest.is_empty() { Ok(command) } else { Err(format!("'{}' has no arguments", name.escape_ascii())) };
    match *name {
        b"open" => opening(rest),
        b"close" => alone(Command::Close),
        b"prune" => alone(Command::Prune),
        b"audit" => alone(Command::Audit),
        b"follow" => alone(Command::Follow),
        b"picture" => Ok(Command::Picture { until: picture::until(rest)? }),
        b"page" => match rest {
            [] => Ok(Command::Page { to: None }),
            [b"--to", file] if !file.is_empty() => Ok(Command::Page { to: Some(OsStr::from_bytes(file).into()) }),
            _ => Err("'page' has --to FILE, and nothing else".to_string()),
        },
        b"repair" => match rest {
            [b"--to-line", line] => Ok(Command::Repair { to_line: count(line)? }),
            _ => Err("'repair' needs --to-line K".to_string()),
        },
        _ if words::form(name).is_some() => Ok(Command::Line(arguments.iter().map(|field| field.to_vec()).collect())),
        _ => Err(format!("'{}' is no command", name.escape_ascii())),
    }
}

fn utf8(argument: &[u8]) -> Result<&str, Misused> {
    std::str::from_utf8(argument).map_err(|_| format!("'{}' is no text", argument.escape_ascii()))
}

fn count(argument: &[u8]) -> Result<u64, Misused> {
    utf8(argument)?.parse().map_err(|_| format!("'{}' is no number", argument.escape_ascii()))
}

/// `promise` or `loose`, the nodes, and options in any order. What is left out is as in document 02's examples.
fn opening(arguments: &[&[u8]]) -> Result<Command, Misused> {
    let [kind, nodes, options @ ..] = arguments else {
        return Err("'open' needs promise or loose, and the nodes of the rack".to_string());
    };
    if ![&b"promise"[..], b"loose"].contains(kind) {
        return Err(format!("'{}' is neither promise nor loose", kind.escape_ascii()));
    }
    let mut fields: [&[u8]; 8] = [b"desk", kind, nodes, b"0", b"1", b"0", b"63", b"1"];
    let (mut since, mut left) = (None, options);
    while let [option, rest @ ..] = left {
        left = match (*option, rest) {
            (b"--minute", [minute, rest @ ..]) => {
                fields[3] = minute;
                rest
            }
            (b"--ticket", [ticket, rest @ ..]) => {
                fields[4] = ticket;
                rest
            }
            (b"--clearing", [clearing, rest @ ..]) => {
                fields[5] = clearing;
                rest
            }
            (b"--places", [a, b, rest @ ..]) => {
                (fields[6], fields[7]) = (a, b);
                rest
            }
            (b"--since", [time, rest @ ..]) => {
                since = Some(utf8(time)?.to_string());
                rest
            }
            _ => return Err(format!("'open' has no '{}', or it lacks a value", option.escape_ascii())),
        };
    }
    Ok(Command::Open { fields: fields.map(<[u8]>::to_vec).to_vec(), since })
}
