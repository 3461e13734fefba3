//! Where bars, marks and steps lie, worked out from a desk's lines and from the model of `../lists`, by the labels that a reader of the picture
//! sees: two ticks give the scale.

use super::elements::{elements, Element};
use crate::common::model::{Job, Model};
use crate::common::text;
use hingerota_host::Kind;
use std::fmt::Debug;

/// Places have one decimal, and the scale is read off two of them.
const CLOSE: f64 = 0.3;
/// What is no wider than this may lie on the axis or beside its end, as a reader can tell.
const SLIM: f64 = 2.0 * CLOSE;

fn close(a: f64, b: f64) -> bool {
    (a - b).abs() <= CLOSE
}

struct Read {
    elements: Vec<Element>,
    /// A minute with its place, and pixels a minute.
    origin: (f64, f64),
    scale: f64,
    left: f64,
    right: f64,
}

impl Read {
    /// By its labels, each the minute that `minute_of` says.
    fn new(svg: &str, minute_of: impl Fn(&str) -> f64) -> Read {
        let elements = elements(svg);
        let ticks: Vec<(f64, f64)> = elements.iter().filter(|e| e.is("tick")).map(|e| (minute_of(&e.text), e.number("x"))).collect();
        let ((first, x), (last, end)) = (ticks[0], ticks[ticks.len() - 1]);
        assert!(last > first, "an axis has two labels: {ticks:?}");
        let field = elements.iter().find(|e| e.is("field")).unwrap();
        let (left, width) = (field.number("x"), field.number("width"));
        let read = Read { origin: (first, x), scale: (end - x) / (last - first), left, right: left + width, elements };
        ticks.iter().for_each(|(minute, x)| assert!(close(read.place(*minute), *x), "{minute} at {x}"));
        read
    }

    fn place(&self, minute: f64) -> f64 {
        self.origin.1 + (minute - self.origin.0) * self.scale
    }

    fn at(&self, minute: u32) -> f64 {
        self.place(minute.into())
    }

    fn lane(&self, job: &Job) -> impl Iterator<Item = &Element> {
        let group = format!("job-{}", job.ticket);
        self.elements.iter().filter(move |e| e.inside(&group))
    }
}

/// The bars of a job: their classes, and from when to when.
fn bars(desk: &Model, job: &Job) -> Vec<(&'static str, u32, u32)> {
    let end = if job.in_cleanup() { job.end } else { job.ends() };
    let run = match (desk.kind, job.waits()) {
        (Kind::Loose, true) => return Vec::new(),
        (Kind::Promise, true) => "planned",
        (_, false) => "run",
    };
    vec![(run, job.start, end), ("clearing", end, desk.freed(job))]
}

/// Compares a picture with the desk's lines. How many bars it has.
pub fn compare(svg: &str, lines: &[u8], minute_of: impl Fn(&str) -> f64) -> usize {
    let (read, desk) = (Read::new(svg, minute_of), text::read(lines).unwrap());
    let mut count = 0;
    let mut lowest = 0.0;
    for job in &desk.jobs {
        count += compare_bars(&read, &desk, job, &mut lowest);
        compare_mark(&read, &desk, job);
        let labels: Vec<&str> = read.lane(job).filter(|e| e.is("number") || e.is("letter")).map(|e| e.text.as_str()).collect();
        let house = char::from_u32(job.house).unwrap().to_string();
        assert_eq!(labels, [&job.ticket.to_string(), &house, &job.nodes.to_string()]);
    }
    assert_eq!(read.elements.iter().filter(|e| e.is("bar") && e.inside("lanes")).count(), count, "no bar is anybody else's");
    let now = read.elements.iter().find(|e| e.is("now") && !e.inside("legend")).unwrap();
    assert!(close(now.number("x1"), read.at(desk.clock)) && close(now.number("x2"), read.at(desk.clock)));
    compare_steps(&read, &desk);
    count
}

/// Every drawn one is the next of the expected ones, of which those may be left out that are too slim to be seen.
fn compare_in_order<D: Debug, E: Debug>(drawn: &[D], expected: &[E], same: impl Fn(&D, &E) -> bool, slim: impl Fn(&E) -> bool) {
    let mut left = drawn.iter();
    let mut next = left.next();
    for expected in expected {
        match next {
            Some(drawn) if same(drawn, expected) => next = left.next(),
            _ => assert!(slim(expected), "{next:?} in place of {expected:?}"),
        }
    }
    assert!(next.is_none(), "{next:?} is nobody's");
}

fn compare_bars(read: &Read, desk: &Model, job: &Job, lowest: &mut f64) -> usize {
    let class = if job.house == u32::from(b'A') { "a" } else { "b" };
    let all = bars(desk, job);
    let cut = |(_, from, to): &(&str, u32, u32)| (read.at(*from).max(read.left), read.at(*to).min(read.right));
    let expected: Vec<_> = all.iter().map(|bar| (bar.0, cut(bar))).filter(|(_, (from, to))| to > from).collect();
    let drawn: Vec<&Element> = read.lane(job).filter(|e| e.is("bar")).collect();
    let foot = read.lane(job).find(|e| e.is("letter")).unwrap().number("y");
    let same = |bar: &&Element, (kind, (from, to)): &(&str, (f64, f64))| {
        let (x, y, width, height) = (bar.number("x"), bar.number("y"), bar.number("width"), bar.number("height"));
        let beside_its_label = y >= *lowest && y < foot && foot <= y + height;
        bar.is(kind) && bar.is(class) && close(x, *from) && close(x + width, *to) && beside_its_label
    };
    compare_in_order(&drawn, &expected, same, |(_, (from, to))| to - from <= SLIM);
    *lowest = foot;
    let arrows = read.lane(job).filter(|e| e.is("on")).count();
    let (first, last) = (all.first().map(|bar| read.at(bar.1)), all.last().map(|bar| read.at(bar.2)));
    let beyond = |by: f64| usize::from(first.is_some_and(|x| x < read.left - by)) + usize::from(last.is_some_and(|x| x > read.right + by));
    assert!((beyond(SLIM)..=beyond(-SLIM)).contains(&arrows), "stack {} goes on {arrows} times", job.ticket);
    drawn.len()
}

/// The promise, or the head's forecast.
fn compare_mark(read: &Read, desk: &Model, job: &Job) {
    let head = desk.jobs.iter().find(|job| job.waits()).map(|head| head.ticket);
    let minute = match desk.kind {
        Kind::Promise => Some(job.promise).filter(|promise| *promise >= job.start),
        Kind::Loose => Some(job.forecast).filter(|_| head == Some(job.ticket)),
    };
    let marks: Vec<&Element> = read.lane(job).filter(|e| e.is("mark")).collect();
    let Some(x) = minute.map(|minute| read.at(minute)).filter(|x| *x >= read.left - SLIM || !marks.is_empty()) else {
        return assert!(marks.is_empty(), "stack {} has no mark", job.ticket);
    };
    if marks.is_empty() && x < read.left + SLIM {
        return;
    }
    let [mark] = marks[..] else { panic!("stack {} has {} marks", job.ticket, marks.len()) };
    let drawn: f64 = mark.attribute("d")[1..].split(' ').next().unwrap().parse().unwrap();
    let right = if mark.is("later") { x > read.right - SLIM } else { close(drawn, x) && x < read.right + SLIM };
    assert!(right, "stack {}: {drawn} in place of {x}", job.ticket);
}

/// The free nodes: the model's profile, between the rules for all nodes and for none.
fn compare_steps(read: &Read, desk: &Model) {
    let edge = read.elements.iter().find(|e| e.is("edge") && e.inside("free"));
    if desk.kind == Kind::Loose {
        return assert!(edge.is_none());
    }
    let Some(edge) = edge else {
        return assert!(close(read.at(desk.clock), read.right), "there are none after the last minute");
    };
    let rules: Vec<f64> = read.elements.iter().filter(|e| e.is("rule")).map(|e| e.number("y1")).collect();
    let height = |free: u32| rules[1] - f64::from(free) * (rules[1] - rules[0]) / f64::from(desk.nodes);
    let numbers = |step: &str| step.split([' ', 'H']).map(|n| n.parse().unwrap()).collect::<Vec<f64>>();
    let drawn: Vec<Vec<f64>> = edge.attribute("d")[1..].split('L').map(numbers).collect();
    let profile = desk.profile();
    let ends = profile.iter().skip(1).map(|(minute, _)| read.at(*minute)).chain([f64::MAX]);
    let steps: Vec<[f64; 3]> =
        profile.iter().zip(ends).map(|((minute, free), end)| [read.at(*minute), height(*free), end.min(read.right)]).collect();
    let steps: Vec<_> = steps.into_iter().filter(|[from, _, to]| to > from).collect();
    let same = |drawn: &Vec<f64>, step: &[f64; 3]| drawn.iter().zip(step).all(|(a, b)| close(*a, *b));
    compare_in_order(&drawn, &steps, same, |[from, _, to]| to - from <= SLIM);
}
