//! Plain sentences for staff: what a line printed, and why it was refused. With a desk that follows the clock a minute has its time of day
//! beside it. The words are document 01's and 02's.

use super::clock::{Since, Times};
use crate::words;
use hingerota_host::{Desk, Kind, Refusal};

pub struct Sayer<'a> {
    pub desk: &'a Desk,
    pub since: Option<&'a Since>,
}

/// Fields as text.
type Fields<'a> = Vec<&'a str>;

fn text<'a>(fields: &[&'a [u8]]) -> Fields<'a> {
    fields.iter().map(|field| std::str::from_utf8(field).unwrap_or("?")).collect()
}

impl Sayer<'_> {
    /// `minute 20 (08:20)`.
    fn minute(&self, minute: &str) -> String {
        minute.parse().map_or_else(|_| format!("minute {minute}"), |minute| self.times().minute(minute))
    }

    fn times(&self) -> Times<'_> {
        Times { since: self.since, now: self.desk.clock() }
    }

    /// The present minute, with its date.
    pub fn now(&self) -> String {
        self.times().present()
    }

    /// Of lines that tell who is over, who starts and who is head.
    pub fn lines(&self, printed: &str) -> String {
        printed.lines().filter_map(|line| self.line(&Vec::new(), line)).map(|sentence| sentence + "\n").collect()
    }

    /// Of minutes that passed by the clock, and printed this.
    pub fn passed(&self, printed: &str) -> String {
        format!("{}it is {}\n", self.lines(printed), self.now())
    }

    /// Of a line that was taken and printed this, a sentence a line.
    pub fn taken(&self, fields: &[&[u8]], printed: &str) -> String {
        let asked = text(fields);
        let mut said: Vec<String> = Vec::new();
        match asked[..] {
            ["drop", ticket] => said.push(format!("stack {ticket} is withdrawn")),
            ["change"] => said.push("the desk is a Promise Desk".to_string()),
            ["reread"] => said.push("the desk was written out and read back".to_string()),
            _ => {}
        }
        let is_text = matches!(asked[..], ["text"]);
        for line in printed.lines().filter(|line| !is_text && !line.trim().is_empty()) {
            said.extend(self.line(&asked, line));
        }
        match asked[..] {
            ["wait", _] => said.push(format!("it is {}", self.now())),
            ["why"] | ["profile"] | ["index"] | ["longest", ..] if printed.is_empty() => said.push(self.nothing(&asked)),
            _ => {}
        }
        said.into_iter().map(|sentence| sentence + "\n").collect()
    }

    fn nothing(&self, asked: &Fields) -> String {
        match (self.desk.kind(), asked[0]) {
            (Kind::Promise, _) => "no stack waits".to_string(),
            (Kind::Loose, "why") => "a Loose Desk plans no stack".to_string(),
            (Kind::Loose, "longest") => "a Loose Desk promises no minute".to_string(),
            (Kind::Loose, _) => "a Loose Desk has no profile".to_string(),
        }
    }

    /// Of one printed line.
    fn line(&self, asked: &Fields, line: &str) -> Option<String> {
        match line.split('\t').collect::<Vec<_>>()[..] {
            ["took", ticket, promise] => Some(self.took(asked, ticket, promise)),
            ["over", ticket, minute] => Some(format!("stack {ticket} is over in {}", self.minute(minute))),
            ["start", ticket, minute] => Some(format!("stack {ticket} starts in {}", self.minute(minute))),
            ["head", ticket, minute] => Some(format!("stack {ticket} waits first, and starts by {}", self.minute(minute))),
            ["free", minute, nodes] => Some(format!("{nodes} nodes are free from {} on", self.minute(minute))),
            ["block", fewest, most] => Some(format!("{fewest} to {most} nodes are free in the next 16 lines of the profile")),
            ["reads", number] => Some(format!("{number} lines of the profile were read to place the last stack")),
            ["soonest", ticket, minute] => Some(format!("stack {ticket} starts no sooner than {}", self.minute(minute))),
            ["longest", "-"] => Some(format!("no stack of so many nodes would start by {}", self.minute(asked.last()?))),
            ["longest", minutes] => Some(format!("up to {minutes} minutes would start by {}", self.minute(asked.last()?))),
            [line] if asked.first() == Some(&"why") => self.waits(line),
            [line] if asked.first() == Some(&"board") => self.job(line),
            _ => None,
        }
    }

    fn took(&self, asked: &Fields, ticket: &str, promise: &str) -> String {
        let by = if promise == "-" { String::new() } else { format!(", and starts by {}", self.minute(promise)) };
        match asked[..] {
            ["correct", same, ..] if same == ticket => format!("the order of stack {ticket} is corrected{by}"),
            ["correct", old, ..] => format!("stack {old} is withdrawn, and its order is taken as stack {ticket}{by}"),
            ["change"] => format!("stack {ticket} is promised {}", self.minute(promise)),
            _ => format!("stack {ticket} is taken{by}"),
        }
    }

    /// Of `stack 3 waits, minute 29, 2 with 8`.
    fn waits(&self, line: &str) -> Option<String> {
        let mut parts = line.split(", ");
        let (waits, minute) = (parts.next()?, parts.next()?.strip_prefix("minute ")?);
        let holders: Vec<String> = parts.filter_map(|part| part.split_once(" with ")).map(|(t, n)| format!("stack {t} has {n}")).collect();
        let holders = if holders.is_empty() { "nobody has nodes".to_string() } else { holders.join(", ") };
        Some(format!("{waits}: in {} {holders}", self.minute(minute)))
    }

    /// Of a line of the page.
    fn job(&self, line: &str) -> Option<String> {
        let [ticket, house, nodes, start, promise, held, state] = line.split_whitespace().collect::<Vec<_>>()[..] else {
            return None;
        };
        let does = match (state, start, promise) {
            ("waiting", "-", _) => "waits".to_string(),
            ("waiting", _, _) => format!("waits, is planned for {} and promised {}", self.minute(start), self.minute(promise)),
            ("running", _, _) => format!("has run since {}", self.minute(start)),
            _ => format!("started in {}, is over, and its nodes are cleared", self.minute(start)),
        };
        Some(format!("stack {ticket} of house {house}, {nodes} nodes for {held} minutes, {does}"))
    }

    /// Of a line that was refused.
    pub fn refused(&self, fields: &[&[u8]], refusal: Refusal) -> String {
        let known = self.known(&text(fields), fields.first().and_then(|name| words::form(name)));
        no(refusal, &known) + "\n"
    }

    /// What a sentence on a refusal may name.
    fn known(&self, asked: &Fields, form: Option<&str>) -> Vec<(&'static str, String)> {
        let names: &[&'static str] = match asked[..] {
            ["in", _, _, _] => &["nodes", "most", "house"],
            ["in", ..] => &["nodes", "least", "most", "house"],
            ["correct", _, _, _] => &["ticket", "nodes", "most"],
            ["correct", ..] => &["ticket", "nodes", "least", "most"],
            ["wait", ..] => &["minutes"],
            ["longest", ..] => &["nodes", "house", "minute"],
            _ => &["ticket"],
        };
        let given = asked.iter().skip(1).map(|field| field.to_string());
        let mut known: Vec<_> = names.iter().copied().zip(given).collect();
        known.extend([("rack", self.desk.nodes().to_string()), ("clock", self.desk.clock().to_string())]);
        known.extend(form.map(|form| ("form", form.to_string())));
        let of = |known: &[(&str, String)], name| known.iter().find(|(named, _)| *named == name).map(|(_, value)| value.clone());
        known.extend(of(&known, "most").map(|most| ("minutes", most)));
        match of(&known, "house").as_deref() {
            Some("A") => known.push(("places", self.desk.quota_a().to_string())),
            Some("B") => known.push(("places", self.desk.quota_b().to_string())),
            _ => {}
        }
        let ticket = of(&known, "ticket").and_then(|ticket| ticket.parse::<u32>().ok());
        if let Some(job) = self.desk.records().iter().find(|job| job.ticket != 0 && Some(job.ticket) == ticket) {
            let until = job.start + u32::from(job.least);
            known.extend([("least", job.least.to_string()), ("until", until.to_string())]);
        }
        known
    }
}

/// Of an opening that was refused.
pub fn refused_opening(fields: &[&[u8]], refusal: Refusal) -> String {
    let known: Vec<_> = ["clearing", "a", "b"].into_iter().zip(text(fields).iter().skip(5).map(|field| field.to_string())).collect();
    no(refusal, &known) + "\n"
}

/// A refusal's number, and its sentence with what is known.
pub fn no(refusal: Refusal, known: &[(&str, String)]) -> String {
    format!("no {}: {}", refusal.number(), refusal.sentence(known))
}
