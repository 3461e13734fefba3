//! "`calls-N` cut off at every byte of a journal of 200 lines: opens, and is the model's desk after the whole lines". And so with a tail of
//! zero bytes after each cut.

use super::played::{line, opening, play};
use crate::common::folders::{Desk, Place};
use crate::common::model::Model;
use crate::common::random::Random;
use crate::common::text::written;
use std::fs;

const LINES: usize = 200;

/// The lines of a journal, with the desk before the first and after each.
struct Recorded {
    desk: Desk,
    lines: Vec<String>,
    texts: Vec<Vec<u8>>,
}

fn recorded(place: &Place, random: &mut Random) -> Recorded {
    let desk = place.desk();
    let (mut model, arguments): (Model, _) = opening(random);
    desk.taken(&arguments.iter().map(String::as_str).collect::<Vec<_>>());
    let (mut lines, mut texts) = (Vec::new(), vec![written(&model)]);
    while lines.len() < LINES {
        let line = line(&model, random);
        if play(&mut model, &line).kept {
            lines.push(line);
            texts.push(written(&model));
        }
    }
    Recorded { desk, lines, texts }
}

pub fn at_every_byte() -> String {
    let (place, random) = (Place::new("cuts"), &mut Random::new(7));
    let Recorded { desk, lines, texts } = recorded(&place, random);
    let journal: Vec<u8> = lines.iter().flat_map(|line| [line.as_bytes(), b"\n"].concat()).collect();
    let (mut cuts, mut zeros) = (0, 0);
    for length in (0..=journal.len()).step_by(crate::count("CUTS", 1) as usize) {
        let whole = journal[..length].iter().rposition(|byte| *byte == b'\n').map_or(0, |place| place + 1);
        let count = journal[..whole].iter().filter(|byte| **byte == b'\n').count();
        for zero in [0, random.one_of(&[0, 1, 17, 4_096])] {
            let front = [&journal[..length], &vec![0; zero]].concat();
            fs::write(desk.file("calls-1"), &front).unwrap();
            let ended = desk.run(&["text"]);
            assert_eq!((ended.status, ended.output.as_bytes()), (Some(0), &texts[count][..]), "cut at {length}: {}", ended.error);
            let tail = front.len() - whole;
            let said = format!("{tail} bytes after line {count} were never answered, and are cut off");
            assert_eq!(ended.error.contains(&said), tail > 0, "cut at {length}: {}", ended.error);
            assert_eq!(desk.bytes("calls-1"), journal[..whole], "cut at {length}");
            cuts += 1;
            zeros += u64::from(zero > 0);
        }
        // And it goes on with the very line that was cut off, or with the next.
        if let Some(line) = lines.get(count) {
            desk.taken(&line.split('\t').collect::<Vec<_>>());
            assert_eq!(desk.text(), texts[count + 1], "cut at {length}");
        }
    }
    format!("a journal of {} lines and {} bytes, {cuts} cuts, {zeros} of these with zero bytes after them", lines.len(), journal.len())
}
