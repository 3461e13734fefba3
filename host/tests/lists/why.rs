//! The sentences of document 02, No. 14, from its words: on the library and on the model, with what holds of them by the records and the
//! points that a desk gives.

use super::told;
use crate::common::model::{Model, State};
use crate::common::random::Random;
use crate::{same, Played};
use hingerota_host::{Desk, Kind, Numbers, Point, Record};

/// Of a waiting job "its ticket, the minute just before its start, and the tickets that hold nodes in that minute by running, clearing or
/// plan, ascending, with their counts".
#[derive(Clone, PartialEq, Eq, Debug)]
pub struct Finding {
    pub ticket: u32,
    pub minute: u32,
    /// Tickets, and their nodes.
    pub holders: Vec<(u32, u32)>,
}

/// "For each waiting stack on the Promise Desk, in ticket order"
fn findings(desk: &Model) -> Vec<Finding> {
    let mut all = Vec::new();
    for job in desk.jobs.iter().filter(|j| desk.kind == Kind::Promise && j.waits()) {
        let minute = job.start - 1;
        let mut holders = Vec::new();
        for other in &desk.jobs {
            let begins = if other.waits() { other.start } else { desk.clock };
            if other.ticket != job.ticket && (begins..desk.freed(other)).contains(&minute) {
                holders.push((other.ticket, other.nodes));
            }
        }
        all.push(Finding { ticket: job.ticket, minute, holders });
    }
    all
}

/// "Its form is `stack 3 waits, minute 29, 2 with 8`, with spaces and then byte 10; each holder adds one such `, 2 with 8`."
pub fn written(findings: &[Finding]) -> Vec<u8> {
    let sentence = |Finding { ticket, minute, holders }: &Finding| {
        let holders: String = holders.iter().map(|(ticket, nodes)| format!(", {ticket} with {nodes}")).collect();
        format!("stack {ticket} waits, minute {minute}{holders}\n")
    };
    findings.iter().map(sentence).collect::<String>().into_bytes()
}

/// What the sentences find. "Two different findings never give the same sentence": what was written is read.
pub fn read(text: &[u8]) -> Option<Vec<Finding>> {
    let number = |field: &str| field.parse().ok();
    let holder = |part: &str| part.split_once(" with ").and_then(|(ticket, nodes)| Some((number(ticket)?, number(nodes)?)));
    let sentence = |line: &str| {
        let mut parts = line.strip_suffix('\n')?.split(", ");
        let ticket = number(parts.next()?.strip_prefix("stack ")?.strip_suffix(" waits")?)?;
        let minute = number(parts.next()?.strip_prefix("minute ")?)?;
        Some(Finding { ticket, minute, holders: parts.map(holder).collect::<Option<_>>()? })
    };
    std::str::from_utf8(text).ok()?.split_inclusive('\n').map(sentence).collect()
}

fn is_end(byte: &u8) -> bool {
    *byte == b'\n'
}

impl Played {
    /// The sentences into bytes of the exact length, longer and too short, by one and by more.
    pub fn why(&mut self, random: &mut Random) -> Result<(), String> {
        self.done.push("why".to_string());
        let found = findings(&self.model);
        let text = written(&found);
        self.tell("why", "[]", 0, told::string(&text));
        same("findings that are read", read(&text).as_ref(), Some(&found))?;
        let given = self.desk.sentences();
        for (library, model) in given.split_inclusive(is_end).zip(text.split_inclusive(is_end)) {
            same("sentence", library.escape_ascii().to_string(), model.escape_ascii().to_string())?;
        }
        let exact = text.len();
        let too_short = if exact > 0 { vec![exact - 1, random.below(exact as u32) as usize] } else { vec![] };
        for room in [exact, exact + random.between(1, 100) as usize].into_iter().chain(too_short) {
            let held = |i| (i % 251) as u8;
            self.lent("sentences", &text, room, held, Desk::why)?;
        }
        let given = read(&given).ok_or("a sentence lacks the form")?;
        hold(&given, self.desk.numbers(), &self.desk.points(), self.tight)?;
        self.book.why(&given)?;
        self.count.longest_sentences = self.count.longest_sentences.max(exact as u64);
        self.count_findings(&found);
        Ok(())
    }

    fn count_findings(&mut self, found: &[Finding]) {
        self.count.whys += 1;
        for Finding { ticket, holders, .. } in found {
            let job = |ticket: u32| self.model.jobs.iter().find(|j| j.ticket == ticket).unwrap();
            let by = |state| holders.iter().filter(|(ticket, _)| job(*ticket).state == state).count() as u64;
            let (own, taken) = (job(*ticket).nodes, holders.iter().map(|(_, nodes)| nodes).sum::<u32>());
            let (running, cleanup, plan) = (by(State::Running), by(State::Cleanup), by(State::Waiting));
            self.count.sentences += 1;
            self.count.sentences_of_nobody += u64::from(holders.is_empty());
            self.count.sentences_of_gaps += u64::from(own + taken <= self.model.nodes);
            self.count.holders_running += running;
            self.count.holders_in_cleanup += cleanup;
            self.count.holders_planned += plan;
        }
    }
}

/// By the records: who waits on a Promise Desk has a finding, of the minute before its start, and who holds nodes there is another job, with
/// that many nodes. By the points: these are all the nodes that are taken in that minute. "Where the rule on gaps holds, the holders' nodes
/// plus its own exceed the rack."
pub fn hold(found: &[Finding], desk: &Numbers, points: &[Point], tight: bool) -> Result<(), String> {
    let waiting: Vec<&Record> = desk.jobs.iter().filter(|r| desk.kind == 0 && r.waits()).collect();
    if !waiting.iter().map(|r| (r.ticket, r.start)).eq(found.iter().map(|f| (f.ticket, f.minute + 1))) {
        return Err(format!("{found:?}, and who waits is {waiting:?}"));
    }
    for (job, Finding { ticket, minute, holders }) in waiting.into_iter().zip(found) {
        for (other, nodes) in holders {
            let has = |r: &Record| r.state != 0 && r.ticket == *other && u32::from(r.nodes) == *nodes;
            if other == ticket || !desk.jobs.iter().any(has) {
                return Err(format!("{ticket} waits for {other} with {nodes}"));
            }
        }
        if holders.windows(2).any(|pair| pair[0].0 >= pair[1].0) {
            return Err(format!("tickets do not ascend: {holders:?}"));
        }
        let taken: u32 = holders.iter().map(|(_, nodes)| nodes).sum();
        let free = points.iter().take_while(|p| p.minute <= *minute).last().map_or(0, |p| p.free);
        if taken + free != desk.nodes {
            return Err(format!("in minute {minute} {taken} nodes are held and {free} are free, of {}", desk.nodes));
        }
        if tight && taken + u32::from(job.nodes) <= desk.nodes {
            return Err(format!("{ticket} waits for {} nodes, and {taken} of {} are held", job.nodes, desk.nodes));
        }
    }
    Ok(())
}
