//! A script on the model: what each line prints, from document 01's words on the printout, and whether it is taken.

use crate::common::model::{Answer, Model, State};
use crate::common::random::Random;
use hingerota_host::{Amendment, Kind, Order};
use std::fmt::Write;

/// What a line comes to.
#[derive(Clone, PartialEq, Eq, Debug)]
pub struct Outcome {
    pub printed: String,
    /// A call that was taken, which is kept.
    pub kept: bool,
}

fn print(model: &Model, answer: &Answer, text: &mut String) {
    if answer.ticket != 0 {
        match model.kind {
            Kind::Promise => writeln!(text, "took\t{}\t{}", answer.ticket, answer.promise).unwrap(),
            Kind::Loose => writeln!(text, "took\t{}\t-", answer.ticket).unwrap(),
        }
    }
    for ticket in &answer.ended {
        writeln!(text, "over\t{ticket}\t{}", model.clock).unwrap();
    }
    for ticket in &answer.started {
        writeln!(text, "start\t{ticket}\t{}", model.clock).unwrap();
    }
    if let Some((ticket, forecast)) = answer.head {
        writeln!(text, "head\t{ticket}\t{forecast}").unwrap();
    }
}

/// A number as document 01 has it.
fn number(field: &str) -> Option<u32> {
    field.parse().ok().filter(|n: &u32| n.to_string() == field && *n <= 9_999_999)
}

/// Plays a line with these words; others are refused by 9.
pub fn play(model: &mut Model, line: &str) -> Outcome {
    match asked(model, line) {
        Some(Ok(outcome)) => outcome,
        Some(Err(refusal)) => Outcome { printed: format!("no\t{refusal}\n"), kept: false },
        None => Outcome { printed: "no\t9\n".to_string(), kept: false },
    }
}

fn asked(model: &mut Model, line: &str) -> Option<Result<Outcome, u32>> {
    let fields: Vec<&str> = line.split('\t').collect();
    let n = |place: usize| number(fields[place]);
    let house = |field: &str| field.parse::<char>().ok().filter(char::is_ascii_uppercase).map(u32::from);
    let answer = match fields[..] {
        ["in", _, _, h] => model.submit(Order { nodes: n(1)?, estimate: n(2)?, tenant: house(h)?, least: 0 }),
        ["in", _, _, _, h] => model.submit(Order { nodes: n(1)?, estimate: n(3)?, tenant: house(h)?, least: n(2)? }),
        ["end", _] => model.complete(n(1)?),
        ["drop", _] => model.cancel(n(1)?),
        ["correct", _, _, _] => model.amend(Amendment { ticket: n(1)?, nodes: n(2)?, estimate: n(3)?, least: 0 }),
        ["correct", _, _, _, _] => model.amend(Amendment { ticket: n(1)?, nodes: n(2)?, estimate: n(4)?, least: n(3)? }),
        ["wait", _] => return Some(wait(model, n(1)?)),
        ["change"] => return Some(Ok(change(model))),
        ["text"] => {
            let printed = String::from_utf8(crate::common::text::written(model)).unwrap();
            return Some(Ok(Outcome { printed, kept: false }));
        }
        ["profile"] => {
            let printed = model.profile().iter().map(|(minute, free)| format!("free\t{minute}\t{free}\n")).collect();
            return Some(Ok(Outcome { printed, kept: false }));
        }
        ["soonest", _] => {
            let ticket = n(1)?;
            return Some(
                model.earliest_start(ticket).map(|minute| Outcome { printed: format!("soonest\t{ticket}\t{minute}\n"), kept: false }),
            );
        }
        _ => return None,
    };
    if answer.refusal != 0 {
        return Some(Err(answer.refusal));
    }
    let mut printed = String::new();
    print(model, &answer, &mut printed);
    Some(Ok(Outcome { printed, kept: true }))
}

fn wait(model: &mut Model, minutes: u32) -> Result<Outcome, u32> {
    let refusal = model.wait_refusal(minutes);
    if refusal != 0 {
        return Err(refusal);
    }
    let mut printed = String::new();
    for _ in 0..minutes {
        let answer = model.tick();
        print(model, &answer, &mut printed);
    }
    Ok(Outcome { printed, kept: true })
}

fn change(model: &mut Model) -> Outcome {
    let was = model.kind;
    model.migrate();
    let waiting = model.jobs.iter().filter(|job| was == Kind::Loose && job.waits());
    Outcome { printed: waiting.map(|job| format!("took\t{}\t{}\n", job.ticket, job.promise)).collect(), kept: true }
}

/// A random line: mostly one that is taken, sometimes one that is refused, a question, or one that lacks the form.
pub fn line(model: &Model, random: &mut Random) -> String {
    let ticket_of = |state: State, random: &mut Random| {
        let tickets: Vec<u32> = model.jobs.iter().filter(|job| job.state == state).map(|job| job.ticket).collect();
        if tickets.is_empty() {
            random.below(model.next + 1)
        } else {
            random.one_of(&tickets)
        }
    };
    match random.below(100) {
        0..=44 => {
            let (nodes, most) = (random.between(1, model.nodes), random.between(1, 60));
            let house = random.one_of(&["A", "A", "A", "B"]);
            if random.percent(30) {
                format!("in\t{nodes}\t{}\t{most}\t{house}", random.below(most))
            } else {
                format!("in\t{nodes}\t{most}\t{house}")
            }
        }
        45..=59 => format!("end\t{}", ticket_of(State::Running, random)),
        60..=67 => format!("drop\t{}", ticket_of(State::Waiting, random)),
        68..=74 => {
            format!("correct\t{}\t{}\t{}", ticket_of(State::Waiting, random), random.between(1, model.nodes), random.between(1, 60))
        }
        75..=84 => format!("wait\t{}", random.between(1, 20)),
        85 => "change".to_string(),
        86 | 87 => "text".to_string(),
        88 | 89 => "profile".to_string(),
        90 | 91 => format!("soonest\t{}", ticket_of(State::Waiting, random)),
        92 | 93 => "wait\t0".to_string(),
        94 | 95 => format!("in\t{}\t5\tA", model.nodes + 1),
        96 | 97 => "in\t1\t5\tC".to_string(),
        _ => random.one_of(&["", "in\t1", "hello", "in\t01\t5\tA", "desk\tpromise\t4\t0\t1\t0\t63\t1"]).to_string(),
    }
}

/// How a desk is opened: its model, and the arguments after `open`.
pub fn opening(random: &mut Random) -> (Model, Vec<String>) {
    let kind = random.one_of(&[Kind::Promise, Kind::Loose]);
    let (nodes, cleanup, places) =
        (random.between(1, 20), random.one_of(&[0, 0, 7]), random.one_of(&[[63, 1], [32, 32], [4, 60], [60, 4]]));
    let (minute, ticket) = (random.one_of(&[0, 0, 7, 900_000]), random.one_of(&[1, 1, 500]));
    let (refusal, model) = Model::open(kind, nodes, minute, ticket, cleanup, places);
    assert_eq!(refusal, 0);
    let [a, b] = places;
    let name = if kind == Kind::Promise { "promise" } else { "loose" };
    let text = format!("open {name} {nodes} --clearing {cleanup} --places {a} {b} --minute {minute} --ticket {ticket}");
    (model, text.split(' ').map(str::to_owned).collect())
}
