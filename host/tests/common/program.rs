//! `rack` as a program.

use std::io::Write;
use std::path::Path;
use std::process::{Command, Output, Stdio};

pub fn rack(arguments: &[&str]) -> Command {
    let mut command = Command::new(env!("CARGO_BIN_EXE_rack"));
    command.args(arguments);
    command
}

/// How it ended, with what it wrote where that was not sent elsewhere.
pub struct Ended {
    pub status: Option<i32>,
    pub output: String,
    pub error: String,
}

impl Ended {
    pub fn of(command: &mut Command) -> Ended {
        let child = command.stderr(Stdio::piped()).spawn().unwrap();
        Ended::at_last(child.wait_with_output().unwrap())
    }

    /// With these lines on standard input, sent while the printout is read; it need not read them to their end.
    pub fn given(command: &mut Command, lines: &[u8]) -> Ended {
        let mut child = command.stdin(Stdio::piped()).stderr(Stdio::piped()).spawn().unwrap();
        let mut input = child.stdin.take().unwrap();
        Ended::at_last(std::thread::scope(|threads| {
            threads.spawn(move || {
                let _ = input.write_all(lines);
            });
            child.wait_with_output().unwrap()
        }))
    }

    fn at_last(ended: Output) -> Ended {
        let text = |bytes| String::from_utf8(bytes).unwrap();
        Ended { status: ended.status.code(), output: text(ended.stdout), error: text(ended.stderr) }
    }
}

/// What it prints for a script, or for the lines of a desk. A script whose first line is refused need not be read to its end.
pub fn played(arguments: &[&str], script: &[u8]) -> Vec<u8> {
    let ended = Ended::given(rack(arguments).stdout(Stdio::piped()), script);
    assert_eq!((ended.status, ended.error.as_str()), (Some(0), ""));
    ended.output.into_bytes()
}

/// Fails at the first line that differs.
pub fn same(script: &Path, printed: &[u8], expected: &[u8]) {
    if printed == expected {
        return;
    }
    let lines = |text: &[u8]| String::from_utf8_lossy(text).split_inclusive('\n').map(str::to_owned).collect::<Vec<_>>();
    let (printed, expected) = (lines(printed), lines(expected));
    let place = (0..).find(|i| printed.get(*i) != expected.get(*i)).unwrap();
    panic!("{}, printed line {}: {:?} in place of {:?}", script.display(), place + 1, printed.get(place), expected.get(place));
}
