//! Desks written out and read back, on the library and on the model: their own lines, damaged ones, and desks damaged in memory.

use super::answers::number;
use super::book::Book;
use super::{damage, edge, made, numbers, told};
use crate::common::model::{self, Model};
use crate::common::random::Random;
use crate::common::{acceptance, text};
use crate::{same, same_desk, Played};
use hingerota_host::{Desk, Kind, Numbers, TEXT_BYTES};

/// A desk that both accept.
pub type Accepted = Option<(Desk, Model)>;

/// Of so many damaged desks one should be accepted.
const TRIES: u32 = 12;

impl Played {
    /// The desk's lines, into bytes of the exact length, longer and too short.
    pub fn checkpoint(&mut self, random: &mut Random) -> Result<(), String> {
        self.done.push("checkpoint".to_string());
        let lines = text::written(&self.model);
        self.tell("text", "[]", 0, told::string(&lines));
        let exact = lines.len() as u32;
        let some = random.below(exact);
        let too_short = random.one_of(&[0, some, exact - 1]);
        for room in [exact, exact + random.between(1, 100), too_short, TEXT_BYTES as u32] {
            let held = |i| (i % 251) as u8;
            self.lent("lines", &lines, room as usize, held, Desk::checkpoint)?;
        }
        self.count.texts += 1;
        self.count.longest_text = self.count.longest_text.max(lines.len() as u64);
        same("text", self.desk.text(), lines)?;
        same("check", self.desk.numbers().check(), Ok(()))
    }

    /// The desk is written out, read back, and goes on from there.
    pub fn reread(&mut self) -> Result<(), String> {
        self.done.push("reread".to_string());
        let search = self.model.search;
        let (desk, model) = self.restored(&self.desk.text())?.ok_or("a desk that calls have made is refused")?;
        same("desk read back", *desk.numbers(), *self.desk.numbers())?;
        self.book.reread(&model)?;
        (self.desk, self.model) = (desk, Model { search, ..model });
        self.tell("reread", "[]", 0, "null");
        Ok(())
    }

    /// A text is read by both.
    fn restored(&mut self, lines: &[u8]) -> Result<Accepted, String> {
        self.count.calls += 1;
        let read = text::read(lines);
        self.count.refusals.count(read.as_ref().err().copied().unwrap_or(0));
        let given = read.as_ref().map_or("null".to_string(), |model| told::string(&text::written(model)));
        self.tell("from_text", format!("[{}]", told::bytes(lines)), read.as_ref().err().copied().unwrap_or(0), given);
        let accepted = read_alike(lines, read).map_err(|e| format!("{e}\nin the text {}", lines.escape_ascii()))?;
        // The numbers that the lines give are tested alike.
        if let Some(numbers) = text::formed(lines).and_then(|desk| numbers::of(&desk)) {
            same("check of the text's numbers", numbers.check().is_ok(), accepted.is_some())?;
        }
        Ok(accepted)
    }

    /// Numbers in a desk's place are tested by both.
    fn checked(&mut self, numbers: Numbers) -> Result<Accepted, String> {
        self.count.calls += 1;
        let (copy, read) = (numbers, numbers::read(&numbers));
        let refusal = read.as_ref().err().copied().unwrap_or(0);
        self.count.refusals.count(refusal);
        let given = read.as_ref().map_or("null".to_string(), |model| told::string(&text::written(model)));
        self.tell("from_bytes", format!("[{}]", told::numbers(&numbers)), refusal, given);
        same("check", number(&numbers.check()), refusal).map_err(|e| format!("{e}, of {copy:?}"))?;
        same("desk checked", numbers, copy)?;
        match read {
            Ok(model) => Ok(Some((Desk::from_numbers(numbers).map_err(|refusal| refusal.to_string())?, model))),
            Err(_) => Ok(None),
        }
    }

    /// The lines of a desk, damaged in one place or in some, or of one at the edge of a condition.
    pub fn damaged_text(&mut self, desk: &Model, random: &mut Random) -> Result<Accepted, String> {
        let (desk, damages) = at_an_edge(desk, random);
        let mut lines = text::written(&desk);
        for _ in 0..damages {
            lines = damage::text(&lines, random);
        }
        let accepted = self.restored(&lines)?;
        self.count.damaged_texts += 1;
        self.count.damaged_texts_accepted += u64::from(accepted.is_some());
        let broken = text::formed(&lines).and_then(|desk| acceptance::broken(&desk));
        self.broken(broken);
        Ok(accepted)
    }

    /// A desk damaged in memory, or at the edge of a condition, or bytes that never were one.
    pub fn damaged_desk(&mut self, desk: &Model, random: &mut Random) -> Result<Accepted, String> {
        let (desk, damages) = at_an_edge(desk, random);
        let mut numbers = numbers::of(&desk).ok_or("a desk without numbers")?;
        for _ in 0..damages {
            numbers = damage::numbers(&numbers, random);
        }
        if random.percent(2) {
            numbers = damage::any_numbers(random);
        }
        let accepted = self.checked(numbers)?;
        self.count.damaged_desks += 1;
        self.count.damaged_desks_accepted += u64::from(accepted.is_some());
        let broken = numbers::desk(&numbers).and_then(|desk| acceptance::broken(&desk));
        self.broken(broken);
        Ok(accepted)
    }

    fn broken(&mut self, condition: Option<usize>) {
        if let Some(place) = condition {
            self.count.broken.count(place);
        }
    }

    /// A desk that no calls need have made: this one damaged, or one made up, damaged or not.
    pub fn another(&mut self, random: &mut Random) -> Result<Accepted, String> {
        let desk = if random.percent(50) { self.model.clone() } else { made::desk(random) };
        match random.below(3) {
            0 => self.restored(&text::written(&desk)),
            1 => self.first_accepted(&desk, random, Played::damaged_text),
            _ => self.first_accepted(&desk, random, Played::damaged_desk),
        }
    }

    fn first_accepted(
        &mut self,
        desk: &Model,
        random: &mut Random,
        damaged: fn(&mut Played, &Model, &mut Random) -> Result<Accepted, String>,
    ) -> Result<Accepted, String> {
        for _ in 0..TRIES {
            let accepted = damaged(self, desk, random)?;
            if accepted.is_some() {
                return Ok(accepted);
            }
        }
        Ok(None)
    }

    /// "A list of demand 3 may also start from a desk read back".
    pub fn go_on_from(&mut self, (desk, model): (Desk, Model)) -> Result<(), String> {
        self.done.push(format!("from {}", text::written(&model).escape_ascii()));
        self.count.desks_gone_on_from += 1;
        self.count.most_live = self.count.most_live.max(model.jobs.len() as u64);
        let tried = self.book.tried;
        self.book = Book::of_lines(&model)?;
        self.book.tried.add(&tried);
        self.withdrawn.clear();
        self.tight = false;
        (self.desk, self.model) = (desk, model);
        self.tell("go_on_from", "[]", 0, told::string(&text::written(&self.model)));
        Ok(())
    }
}

/// The desk at the edge of a condition, or as it is, to be damaged so many times.
fn at_an_edge(desk: &Model, random: &mut Random) -> (Model, u32) {
    let mut desk = desk.clone();
    if random.percent(50) {
        return (desk, random.one_of(&[1, 1, 1, 2, 4]));
    }
    edge::put(&mut desk, random);
    (desk, random.one_of(&[0, 0, 0, 1]))
}

/// What the library reads in a text is what the model does. The text stands amid bytes that would close a line, or begin one.
fn read_alike(lines: &[u8], read: Result<Model, u32>) -> Result<Accepted, String> {
    let amid = [b"desk\n", lines, b"\n1\t"].concat();
    match (Desk::restore(&amid[5..5 + lines.len()]), read) {
        (Ok(desk), Ok(model)) => {
            same_desk(&desk, &model)?;
            same("check of a desk read back", desk.numbers().check(), Ok(()))?;
            same("lines of a desk read back", desk.text().as_slice(), lines)?;
            Ok(Some((desk, model)))
        }
        (Err(refused), Err(refusal)) => {
            same("refusal of the text", refused.refusal.number(), refusal)?;
            // "a refused reading of a text does the same with the Promise kind"
            let (_, empty) = Model::open(Kind::Promise, 0, 0, 1, 0, [63, 1]);
            same_desk(&refused.desk, &empty)?;
            Ok(None)
        }
        (Ok(_), Err(refusal)) => Err(format!("the library accepts a text, the model refuses it by {refusal}")),
        (Err(refused), Ok(_)) => Err(format!("of the library a text is {refused}, and the model accepts it")),
    }
}

/// The model reads the texts handed over as it has to, whose answers stand beside them: `ok`, or `no` and the number.
pub fn reads_texts_handed_over() {
    let folder = std::path::Path::new(env!("CARGO_MANIFEST_DIR")).join("tests/scripts/data/text");
    let mut texts = 0;
    for entry in std::fs::read_dir(&folder).unwrap() {
        let path = entry.unwrap().path();
        if path.extension().is_some_and(|e| e == "desk") {
            let answer = match text::read(&std::fs::read(&path).unwrap()) {
                Ok(_) => "ok\n".to_string(),
                Err(refusal) => format!("no\t{refusal}\n"),
            };
            assert_eq!(answer, std::fs::read_to_string(path.with_extension("out")).unwrap(), "{}", path.display());
            texts += 1;
        }
    }
    assert!(texts > 0, "no texts in {}", folder.display());
}

/// Small enough to look for every minute in turn.
pub fn is_small(desk: &Model) -> bool {
    let near = |j: &model::Job| desk.freed(j) <= desk.clock + 400 && j.estimate <= 30;
    desk.jobs.len() <= 8 && desk.jobs.iter().all(near)
}
