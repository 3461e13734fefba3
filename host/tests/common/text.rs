//! A desk's lines, from document 01's words: "the lines are the `desk` line with clock and next ticket (there up to 1,000,000), then one
//! for each live record: ticket, nodes, estimate, state (`w` waiting, `r` running, `c` clearing), start, promise, then the values that
//! requests have added to records, in the order added, 0 where a record has none". By document 02 these are the end, the house, the least,
//! and intake minute, r and forecast.

use super::acceptance::accepted;
use super::model::{Job, Model, Search, State, LONGEST_ESTIMATE};
use hingerota_host::Kind;

/// "fields parted by one tab", each line "closed by byte 10"
fn line(fields: &[String]) -> String {
    fields.join("\t") + "\n"
}

pub fn written(desk: &Model) -> Vec<u8> {
    let kind = match desk.kind {
        Kind::Promise => "promise",
        Kind::Loose => "loose",
    };
    let [a, b] = desk.places;
    let numbers = [desk.nodes, desk.clock, desk.next, desk.cleanup, a, b].map(|n| n.to_string());
    let mut text = line(&[&["desk".to_string(), kind.to_string()], &numbers[..]].concat());
    for j in &desk.jobs {
        let state = match j.state {
            State::Waiting => "w",
            State::Running => "r",
            State::Cleanup => "c",
        };
        let house = char::from_u32(j.house).unwrap();
        let (order, times, rest) = ([j.ticket, j.nodes, j.estimate], [j.start, j.promise, j.end], [j.least, j.intake, j.r, j.forecast]);
        let decimal = |numbers: &[u32]| numbers.iter().map(u32::to_string).collect::<Vec<_>>();
        text += &line(&[decimal(&order), vec![state.to_string()], decimal(&times), vec![house.to_string()], decimal(&rest)].concat());
    }
    text.into_bytes()
}

/// The desk, or 22: "a line lacks the form or is unclosed, or there is none"; 23: "one of these conditions is broken; 22 first."
pub fn read(text: &[u8]) -> Result<Model, u32> {
    let desk = formed(text).ok_or(22u32)?;
    if accepted(&desk) {
        return Ok(desk);
    }
    Err(23)
}

/// What the lines say, if each has the form.
pub fn formed(text: &[u8]) -> Option<Model> {
    let mut lines = text.strip_suffix(b"\n")?.split(|byte| *byte == b'\n');
    let desk = desk(&fields(lines.next()?)?)?;
    let jobs = lines.map(|line| job(&fields(line)?)).collect::<Option<_>>()?;
    Some(Model { jobs, ..desk })
}

/// All that has the form is text.
fn fields(line: &[u8]) -> Option<Vec<&str>> {
    Some(std::str::from_utf8(line).ok()?.split('\t').collect())
}

/// "Numbers have 1 to 7 digits, no leading zero but 0 itself": a number is what one would write for it.
fn number(field: &str) -> Option<u32> {
    field.parse().ok().filter(|n: &u32| n.to_string() == field && *n <= 9_999_999)
}

/// "desk", `promise` or `loose`, nodes, minute, ticket; "the `desk` line always has the clearing, then the places of A and of B".
fn desk(fields: &[&str]) -> Option<Model> {
    let ["desk", kind, nodes, clock, next, cleanup, a, b] = fields else {
        return None;
    };
    let kind = match *kind {
        "promise" => Kind::Promise,
        "loose" => Kind::Loose,
        _ => return None,
    };
    Some(Model {
        kind,
        nodes: number(nodes)?,
        cleanup: number(cleanup)?,
        places: [number(a)?, number(b)?],
        longest: LONGEST_ESTIMATE,
        clock: number(clock)?,
        next: number(next)?,
        jobs: Vec::new(),
        search: Search::Changes,
        passes: 0,
    })
}

fn job(fields: &[&str]) -> Option<Job> {
    let [ticket, nodes, estimate, state, start, promise, end, house, least, intake, r, forecast] = fields else {
        return None;
    };
    Some(Job {
        ticket: number(ticket)?,
        nodes: number(nodes)?,
        estimate: number(estimate)?,
        state: match *state {
            "w" => State::Waiting,
            "r" => State::Running,
            "c" => State::Cleanup,
            _ => return None,
        },
        // "in every text a capital letter"
        house: house.parse().ok().filter(char::is_ascii_uppercase)?.into(),
        least: number(least)?,
        start: number(start)?,
        promise: number(promise)?,
        end: number(end)?,
        intake: number(intake)?,
        r: number(r)?,
        forecast: number(forecast)?,
    })
}
