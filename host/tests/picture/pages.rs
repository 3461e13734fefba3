//! The rows of a page, from a desk's lines and from the model of `../lists`; the sentences are those that `why` prints.

use super::desks::{data, InFolder, DESKS};
use super::elements::{elements, Element};
use crate::common::model::{Job, Model, State};
use crate::common::text;
use hingerota_host::Kind;
use std::fs;

pub fn rows() -> String {
    let (mut rows, mut waiting) = (0, 0);
    for desk in DESKS {
        let (name, clock) = desk;
        let model = text::read(&fs::read(data(name, "desk")).unwrap()).unwrap();
        let html = fs::read_to_string(data(name, "html")).unwrap();
        let elements = elements(&html);
        let cells = cells(&elements);
        assert_eq!(cells.len(), model.jobs.len(), "{name}: as many rows as jobs");
        let sentences = InFolder::new(desk).taken(&["why"]);
        for (job, cells) in model.jobs.iter().zip(&cells) {
            let shown = if clock.is_some() { since_ten_to_midnight } else { |minute: u32| minute.to_string() };
            assert_eq!(*cells, expected(&model, job, &sentences, shown), "{name}");
        }
        heading(&elements, &model, clock.is_some());
        rows += model.jobs.len();
        waiting += model.jobs.iter().filter(|job| job.waits()).count();
    }
    format!("{rows} rows, {waiting} of jobs that wait, have what the record, the model and the sentences say")
}

/// The texts of each row.
fn cells(elements: &[Element]) -> Vec<Vec<String>> {
    let mut rows: Vec<Vec<String>> = Vec::new();
    for element in elements {
        if element.name == "tr" && element.is("job") {
            rows.push(Vec::new());
        } else if element.name == "td" {
            rows.last_mut().unwrap().push(element.text.clone());
        }
    }
    rows
}

/// The time of a minute since 23:50, in the present minute's day or in the next.
fn since_ten_to_midnight(minute: u32) -> String {
    let of_day = 23 * 60 + 50 + minute;
    let date = if of_day < 24 * 60 { "" } else { "11-18 " };
    format!("{date}{:02}:{:02}", of_day / 60 % 24, of_day % 60)
}

fn expected(desk: &Model, job: &Job, sentences: &str, shown: fn(u32) -> String) -> Vec<String> {
    let shown = |minute: Option<u32>| minute.map_or("–".to_string(), shown);
    let plans = desk.kind == Kind::Promise || !job.waits();
    let end = if job.in_cleanup() { job.end } else { job.ends() };
    let head = desk.jobs.iter().find(|job| job.waits()).map(|head| head.ticket);
    let by = match desk.kind {
        Kind::Promise => Some(job.promise),
        Kind::Loose => Some(job.forecast).filter(|_| head == Some(job.ticket)),
    };
    let state = match job.state {
        State::Waiting => "waits",
        State::Running => "runs",
        State::Cleanup => "is cleared",
    };
    let house = char::from_u32(job.house).unwrap();
    let mut cells =
        vec![job.ticket.to_string(), house.to_string(), job.nodes.to_string(), crate::common::model::held(job.estimate).to_string()];
    cells.push(state.to_string());
    cells.extend([shown(plans.then_some(job.start)), shown(plans.then_some(end)), shown(by)]);
    cells.push(shown(job.waits().then(|| desk.earliest_start(job.ticket).unwrap())));
    if desk.kind == Kind::Promise {
        let begins = format!("stack {} waits,", job.ticket);
        let sentence = sentences.lines().find(|line| line.starts_with(&begins));
        assert_eq!(sentence.is_some(), job.waits());
        cells.push(sentence.unwrap_or_default().to_string());
    }
    cells
}

/// The clock and the next ticket; and that it loads again every minute.
fn heading(elements: &[Element], desk: &Model, by_time: bool) {
    let strong: Vec<&str> = elements.iter().filter(|e| e.name == "strong").map(|e| e.text.as_str()).collect();
    let time = if by_time { " (2026-11-17 23:57)" } else { "" };
    assert_eq!(strong, [format!("minute {}{time}", desk.clock), desk.next.to_string()]);
    let reload = elements.iter().find(|e| e.attribute("http-equiv") == "refresh").unwrap();
    assert_eq!(reload.attribute("content"), "60");
    let outside = |e: &&Element| ["src", "href"].iter().any(|name| !["", "data:,"].contains(&e.attribute(name)));
    assert!(elements.iter().find(outside).is_none(), "it needs nothing else");
}
