//! Document 02's season, No. 6, written from its words and as plainly as they allow: minute by minute, over the model of the desks.

use crate::common::model::{held, Answer, Model, State, LAST_MINUTE, LONGEST_ESTIMATE};
use hingerota_host::{Kind, Order};
use std::collections::BTreeMap;

/// "The day sheet's rules on size, numbers and line ends hold, with 262,144 bytes for 65,536."
const LONGEST_LIST: usize = 262_144;
/// "at most 4,096 lines"
const MOST_LINES: usize = 4_096;

/// A line after the first.
enum Line {
    /// Refused by 9, 17, 18 or, for its arrival, by 6: "right after the line above is done with".
    Refused(u32),
    Job(Stack),
}

/// "arrival minute, nodes, estimate, true run length"
#[derive(Clone, Copy)]
struct Stack {
    arrival: u32,
    nodes: u32,
    estimate: u32,
    length: u32,
}

impl Stack {
    /// "Run is the true length or the held time, whichever is less."
    fn run(&self) -> u32 {
        self.length.min(held(self.estimate))
    }
}

/// "Numbers have 1 to 7 digits, no leading zero but 0 itself."
fn number(field: &[u8]) -> Option<u32> {
    let digits = (1..=7).contains(&field.len()) && field.iter().all(u8::is_ascii_digit);
    if !digits || (field[0] == b'0' && field.len() > 1) {
        return None;
    }
    std::str::from_utf8(field).unwrap().parse().ok()
}

/// The four fields of a line that is closed.
fn fields(line: &[u8]) -> Option<[&[u8]; 4]> {
    line.strip_suffix(b"\n")?.split(|byte| *byte == b'\t').collect::<Vec<_>>().try_into().ok()
}

/// "A first line has the settings: `promise` or `loose`, rack nodes, clearing, longest estimate". The refusals: 9, 16, 1, 12.
fn open(line: &[u8]) -> Result<Model, u32> {
    let formed = || {
        let [kind, nodes, clearing, longest] = fields(line)?;
        let kind = match kind {
            b"promise" => Kind::Promise,
            b"loose" => Kind::Loose,
            _ => return None,
        };
        Some((kind, number(nodes)?, number(clearing)?, number(longest)?))
    };
    let (kind, nodes, clearing, longest) = formed().ok_or(9u32)?;
    if longest < 1 || longest > LONGEST_ESTIMATE {
        return Err(16);
    }
    // "from minute 0 and ticket 1", "all as house A with 63 places"
    match Model::open(kind, nodes, 0, 1, clearing, [63, 1]) {
        (0, model) => Ok(Model { longest, ..model }),
        (refusal, _) => Err(refusal),
    }
}

/// 17: "an arrival before that of any formed line above"; 18: "a true length of 0"; "An arrival past the last minute is refused by 6, next
/// after 18."
fn judged<'a>(lines: impl Iterator<Item = &'a [u8]>) -> Vec<Line> {
    let mut above = Vec::new();
    let mut judge = |place: usize, line| {
        let formed = || {
            let [arrival, nodes, estimate, length] = fields(line)?;
            Some(Stack { arrival: number(arrival)?, nodes: number(nodes)?, estimate: number(estimate)?, length: number(length)? })
        };
        // "further lines are refused by 9"
        let Some(stack) = formed().filter(|_| place < MOST_LINES) else {
            return Line::Refused(9);
        };
        let falls = above.iter().any(|arrival| stack.arrival < *arrival);
        above.push(stack.arrival);
        if falls {
            Line::Refused(17)
        } else if stack.length == 0 {
            Line::Refused(18)
        } else if stack.arrival > LAST_MINUTE {
            Line::Refused(6)
        } else {
            Line::Job(stack)
        }
    };
    lines.enumerate().map(|(place, line)| judge(place, line)).collect()
}

struct Season {
    model: Model,
    /// By ticket.
    stacks: BTreeMap<u32, Stack>,
    starts: BTreeMap<u32, u32>,
    printout: String,
}

impl Season {
    fn refused(&mut self, refusal: u32) {
        self.printout += &format!("no\t{refusal}\n");
    }

    /// "It prints, as each stack ends, its ticket, wait and bounded slowdown [...]: (wait + run) × 100, divided by the larger of run and 10,
    /// rounded down."
    fn hear(&mut self, answer: &Answer) {
        for ticket in &answer.ended {
            let stack = self.stacks[ticket];
            let (wait, run) = (self.starts[ticket] - stack.arrival, stack.run());
            self.printout += &format!("{ticket}\t{wait}\t{}\n", (wait + run) * 100 / run.max(10));
        }
        for ticket in &answer.started {
            self.starts.insert(*ticket, self.model.clock);
        }
    }

    fn step(&mut self) {
        let answer = self.model.tick();
        assert_eq!(answer.refusal, 0, "stacks are live past the last minute");
        self.hear(&answer);
    }

    /// "then ends at true length in ticket order": of those whose true length is below the held time. The others end by the step.
    fn ends(&mut self) {
        let over = |season: &Season, ticket: &u32| {
            let stack = season.stacks[ticket];
            stack.length < held(stack.estimate) && season.starts[ticket] + stack.length == season.model.clock
        };
        let running = self.model.jobs.iter().filter(|j| j.state == State::Running).map(|j| j.ticket);
        for ticket in running.filter(|ticket| over(self, ticket)).collect::<Vec<_>>() {
            let answer = self.model.complete(ticket);
            assert_eq!(answer.refusal, 0, "{ticket} runs");
            self.hear(&answer);
        }
    }

    fn arrives(&mut self, stack: Stack) {
        let Stack { nodes, estimate, .. } = stack;
        let answer = self.model.submit(Order { nodes, estimate, tenant: b'A'.into(), least: 0 });
        if answer.refusal != 0 {
            return self.refused(answer.refusal);
        }
        self.stacks.insert(answer.ticket, stack);
        self.hear(&answer);
    }
}

pub fn printout(list: &[u8]) -> String {
    if list.len() > LONGEST_LIST {
        return "no\t9\n".to_string();
    }
    let mut lines = list.split_inclusive(|byte| *byte == b'\n');
    let model = match lines.next().map(open) {
        None => return String::new(),
        Some(Err(refusal)) => return format!("no\t{refusal}\n"),
        Some(Ok(model)) => model,
    };
    let mut season = Season { model, stacks: BTreeMap::new(), starts: BTreeMap::new(), printout: String::new() };
    let mut lines = judged(lines).into_iter().peekable();
    // "until lines and live stacks are all gone"
    loop {
        season.ends();
        let now = season.model.clock;
        while let Some(line) = lines.next_if(|line| !matches!(line, Line::Job(stack) if stack.arrival > now)) {
            match line {
                Line::Refused(refusal) => season.refused(refusal),
                Line::Job(stack) => season.arrives(stack),
            }
        }
        if lines.peek().is_none() && season.model.jobs.is_empty() {
            return season.printout;
        }
        season.step();
    }
}
