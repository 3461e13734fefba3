//! Reads a day sheet from standard input and prints its printout: the same program as the proved one, as one would write it without
//! proofs. It is here to be compared with, in its output and in what it costs. With `--season` it reads the list of a season.

mod answer;
mod conservative;
mod easy;
mod limits;
mod lines;
mod order;
mod scheduler;
mod season;
mod settings;
mod sheet;
mod tenants;

use answer::{Printout, Refusal};
use std::io::{self, Read, Write};

/// A text that is longer prints only that it lacks the form.
fn print(longest: usize, play: fn(&[u8], &mut Printout)) -> io::Result<()> {
    let mut text = Vec::with_capacity(longest + 1);
    io::stdin().lock().take(longest as u64 + 1).read_to_end(&mut text)?;
    let mut out = Printout::new();
    if text.len() > longest {
        out.no(Refusal::Form);
    } else {
        play(&text, &mut out);
    }
    io::stdout().lock().write_all(&out.bytes)
}

fn main() -> io::Result<()> {
    let arguments: Vec<String> = std::env::args().skip(1).collect();
    match arguments.iter().map(String::as_str).collect::<Vec<_>>()[..] {
        [] => print(sheet::MAX_SHEET, sheet::play),
        ["--season"] => print(season::MAX_SEASON, season::play),
        _ => Err(io::Error::new(io::ErrorKind::InvalidInput, "usage: plain [--season] <TEXT")),
    }
}
