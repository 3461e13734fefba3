//! A script as it is played: its first line opens a desk, unless the lines of another give one, and the later ones ask it.

use crate::fields::{fields, numbers};
use crate::lines::Line;
use crate::page::{Done, Page};
use crate::words;
use hingerota_host::{Desk, Kind, Opening, Refusal};

pub enum Script {
    First,
    Playing(Box<Rack>),
    /// Its first line was refused.
    Over,
}

/// What later lines ask.
pub struct Rack {
    pub desk: Desk,
    /// How many points the last `in` line taken read.
    pub reads: u32,
}

impl Rack {
    fn new(desk: Desk) -> Rack {
        Rack { desk, reads: 0 }
    }

    /// With the desk that a text's lines give.
    pub fn restored(text: &[u8]) -> Result<Rack, Refusal> {
        Ok(Rack::new(restored(text)?))
    }

    /// Document 02, No. 11: "A desk must be written out and read back."
    pub fn reread(&mut self) -> Done {
        self.desk = restored(&self.desk.text())?;
        Ok(())
    }
}

/// The desk that a text's lines give.
fn restored(text: &[u8]) -> Result<Desk, Refusal> {
    Desk::restore(text).map_err(|refused| refused.refusal)
}

impl Script {
    /// On the desk that a text's lines give: all lines of the script are later ones.
    pub fn from(text: &[u8]) -> Result<Script, Refusal> {
        Ok(Script::Playing(Box::new(Rack::restored(text)?)))
    }

    pub fn is_over(&self) -> bool {
        matches!(self, Script::Over)
    }

    /// What the next line prints.
    pub fn play(&mut self, line: Line) -> Page {
        let mut page = Page::default();
        if let Err(refusal) = self.ask(line, &mut page) {
            page.no(refusal);
        }
        page
    }

    /// "A refused first line prints `no` and its number and stops; later ones print it and go on."
    fn ask(&mut self, line: Line, page: &mut Page) -> Done {
        let fields = match line {
            Line::Closed(bytes) => Ok(fields(bytes)),
            Line::Formless => Err(Refusal::LACKS_THE_FORM),
        };
        match self {
            Script::First => {
                let (next, done) = match fields.and_then(|fields| open(&fields)) {
                    Ok(rack) => (Script::Playing(Box::new(rack)), Ok(())),
                    Err(refusal) => (Script::Over, Err(refusal)),
                };
                *self = next;
                done
            }
            Script::Playing(rack) => words::play(rack, &fields?, page),
            Script::Over => Ok(()),
        }
    }
}

/// "First line: `desk`, `promise` or `loose`, nodes, minute, ticket." Document 02, No. 4: "the `desk` line always has the clearing, then the
/// places of A and of B".
pub fn open(fields: &[&[u8]]) -> Result<Rack, Refusal> {
    let [b"desk", kind, rest @ ..] = fields else {
        return Err(Refusal::LACKS_THE_FORM);
    };
    let kind = match *kind {
        b"promise" => Kind::Promise,
        b"loose" => Kind::Loose,
        _ => return Err(Refusal::LACKS_THE_FORM),
    };
    let [nodes, minute, ticket, cleanup, quota_a, quota_b] = numbers(rest)?;
    Desk::open(kind, Opening { nodes, minute, ticket, cleanup, quota_a, quota_b }).map(Rack::new).map_err(|refused| refused.refusal)
}
