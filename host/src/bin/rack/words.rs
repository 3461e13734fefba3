//! The words of later lines. A word is an entry of `WORDS`, and stands nowhere else.

use crate::desk;
use crate::fields::{letter, number, numbers};
use crate::page::{Done, Page};
use crate::script::Rack;
use hingerota_host::{Amendment, Inquiry, Order, Refusal};

struct Word {
    /// The word, and the fields after it as the usage shows them.
    form: &'static str,
    does: &'static str,
    /// A call, which changes the desk where it is taken; others ask.
    is_call: bool,
    /// Asks the rack, by the fields after the word, and prints what it gives.
    play: fn(&mut Rack, &[&[u8]], &mut Page) -> Done,
}

const WORDS: &[Word] = &[
    Word {
        form: "in NODES [LEAST] MOST HOUSE",
        does: "submits a job of house A or B that runs for LEAST (or 0) to MOST minutes",
        is_call: true,
        play: |rack, fields, page| {
            let (house, rest) = fields.split_last().ok_or(Refusal::LACKS_THE_FORM)?;
            let ([nodes, least, estimate], tenant) = (order(rest)?, letter(house)?);
            let answer = rack.desk.submit(Order { nodes, estimate, tenant, least })?;
            page.answer(&rack.desk, &answer);
            rack.reads = answer.reads;
            Ok(())
        },
    },
    Word {
        form: "end TICKET",
        does: "ends a running job early, at its least or later",
        is_call: true,
        play: |rack, fields, page| {
            let [ticket] = numbers(fields)?;
            let answer = rack.desk.complete(ticket)?;
            page.answer(&rack.desk, &answer);
            Ok(())
        },
    },
    Word {
        form: "drop TICKET",
        does: "withdraws a waiting job",
        is_call: true,
        play: |rack, fields, page| {
            let [ticket] = numbers(fields)?;
            let answer = rack.desk.cancel(ticket)?;
            page.answer(&rack.desk, &answer);
            Ok(())
        },
    },
    Word {
        form: "correct TICKET NODES [LEAST] MOST",
        does: "corrects a waiting job's order; it gets a new ticket if NODES or MOST, rounded up, grow",
        is_call: true,
        play: |rack, fields, page| {
            let (ticket, rest) = fields.split_first().ok_or(Refusal::LACKS_THE_FORM)?;
            let (ticket, [nodes, least, estimate]) = (number(ticket)?, order(rest)?);
            let answer = rack.desk.amend(Amendment { ticket, nodes, estimate, least })?;
            page.answer(&rack.desk, &answer);
            Ok(())
        },
    },
    Word {
        form: "wait MINUTES",
        does: "lets MINUTES pass",
        is_call: true,
        play: |rack, fields, page| {
            let [mut minutes] = numbers(fields)?;
            // Up to what is due, and on until all have passed. Where it is refused, the first call is.
            loop {
                let advanced = rack.desk.advance(minutes)?;
                page.answer(&rack.desk, &advanced.answer);
                minutes -= advanced.minutes;
                if minutes == 0 {
                    return Ok(());
                }
            }
        },
    },
    Word {
        form: "change",
        does: "turns a Loose Desk into a Promise Desk; prints took TICKET PROMISE for each waiting job",
        is_call: true,
        play: |rack, fields, page| {
            let [] = numbers(fields)?;
            let kind = rack.desk.kind();
            rack.desk.migrate();
            page.migration(kind, &rack.desk);
            Ok(())
        },
    },
    Word {
        form: "profile",
        does: "prints one line per point: free MINUTE NODES (Promise Desk)",
        is_call: false,
        play: |rack, fields, page| {
            let [] = numbers(fields)?;
            page.points(&rack.desk.points());
            Ok(())
        },
    },
    Word {
        form: "index",
        does: "prints one line per 16 points: block FEWEST MOST, the free nodes (Promise Desk)",
        is_call: false,
        play: |rack, fields, page| {
            let [] = numbers(fields)?;
            page.blocks(&rack.desk.blocks());
            Ok(())
        },
    },
    Word {
        form: "reads",
        does: "prints reads NUMBER: how many points the search for the last accepted job read",
        is_call: false,
        play: |rack, fields, page| {
            let [] = numbers(fields)?;
            page.reads(rack.reads);
            Ok(())
        },
    },
    Word {
        form: "soonest TICKET",
        does: "prints soonest TICKET MINUTE: the waiting job never starts before MINUTE",
        is_call: false,
        play: |rack, fields, page| {
            let [ticket] = numbers(fields)?;
            page.earliest_start(ticket, rack.desk.earliest_start(ticket)?);
            Ok(())
        },
    },
    Word {
        form: "board",
        does: "prints the status page: 66 lines, a heading and one line per job",
        is_call: false,
        play: |rack, fields, page| {
            let [] = numbers(fields)?;
            page.written(&rack.desk.page());
            Ok(())
        },
    },
    Word {
        form: "longest NODES HOUSE MINUTE",
        does: "prints longest ESTIMATE: the longest job that starts by MINUTE, - if none (Promise Desk)",
        is_call: false,
        play: |rack, fields, page| {
            let [nodes, house, minute] = fields else {
                return Err(Refusal::LACKS_THE_FORM);
            };
            let inquiry = Inquiry { nodes: number(nodes)?, tenant: letter(house)?, minute: number(minute)? };
            page.longest_estimate(&rack.desk, rack.desk.longest_estimate(inquiry)?);
            Ok(())
        },
    },
    Word {
        form: "why",
        does: "prints one sentence per waiting job: who holds nodes just before its start (Promise Desk)",
        is_call: false,
        play: |rack, fields, page| {
            let [] = numbers(fields)?;
            page.written(&rack.desk.sentences());
            Ok(())
        },
    },
    Word {
        form: "text",
        does: "prints the desk's lines, for --check and --from",
        is_call: false,
        play: |rack, fields, page| {
            let [] = numbers(fields)?;
            page.written(&rack.desk.text());
            Ok(())
        },
    },
    Word {
        form: "reread",
        does: "writes the desk out, reads it back and goes on from its lines",
        is_call: false,
        play: |rack, fields, _| {
            let [] = numbers(fields)?;
            rack.reread()
        },
    },
];

/// Nodes, least and most. Document 02, No. 7: "An order with one number has least 0."
fn order(fields: &[&[u8]]) -> Result<[u32; 3], Refusal> {
    match numbers(fields) {
        Ok([nodes, most]) => Ok([nodes, 0, most]),
        Err(_) => numbers(fields),
    }
}

impl Word {
    fn name(&self) -> &'static [u8] {
        self.form.split(' ').next().unwrap_or_default().as_bytes()
    }
}

fn find(name: &[u8]) -> Option<&'static Word> {
    WORDS.iter().find(|word| word.name() == name)
}

/// What a later line asks.
pub fn play(rack: &mut Rack, fields: &[&[u8]], page: &mut Page) -> Done {
    let (name, rest) = fields.split_first().ok_or(Refusal::LACKS_THE_FORM)?;
    let word = find(name).ok_or(Refusal::LACKS_THE_FORM)?;
    (word.play)(rack, rest, page)
}

/// Whether a line changes the desk where it is taken.
pub fn is_call(fields: &[&[u8]]) -> bool {
    fields.first().and_then(|name| find(name)).is_some_and(|word| word.is_call)
}

/// The form of lines that begin with this word, if it is one.
pub fn form(name: &[u8]) -> Option<&'static str> {
    find(name).map(|word| word.form)
}

pub fn usage() -> String {
    let later: String = WORDS.iter().map(|word| format!("  {:40}{}\n", word.form, word.does)).collect();
    format!(
        "\
usage: rack <SCRIPT
       rack --from FILE <SCRIPT
       rack --from FILE picture [--until MINUTE] >PICTURE
       rack --check <LINES
       rack DIR open promise|loose NODES [--clearing C] [--places A B] [--minute M] [--ticket T] [--since TIME]
       rack DIR WORD FIELD..
       rack DIR <SCRIPT
       rack DIR close|prune|audit|follow
       rack DIR picture [--until MINUTE] >PICTURE
       rack DIR page [--to FILE] >PAGE
       rack DIR repair --to-line K
       rack --help | --version

Plays a script on a desk, and prints what a line gives before it reads the next.
Byte 10 closes a line, and one tab parts its fields.
  --from FILE                             goes on from the desk whose lines FILE has, as text prints them. The script
                                          has later lines only. If the lines are refused, it stops
  --from FILE picture                     plays no script: prints a picture of that desk, as in a folder
  --check                                 plays no script: prints ok if the lines on standard input give a desk. Otherwise
                                          prints no NUMBER: 22 if a line lacks the form, 23 if they break a condition

First line:
  desk promise|loose NODES MINUTE TICKET CLEANUP A B
                                          opens the desk at MINUTE, with TICKET as the first ticket. After a run
                                          nodes stay taken for CLEANUP minutes. House A has A of the 64 places for
                                          live jobs, and house B has B
Later lines:
{later}Printed:
  took TICKET PROMISE                     the job is accepted and starts by PROMISE (- on a Loose Desk)
  over TICKET MINUTE                      the job's run has ended
  start TICKET MINUTE                     the job has started
  head TICKET FORECAST                    on a Loose Desk: the job now waits first, and starts by FORECAST
  no NUMBER                               the line is refused; 9 if it lacks the form
A refused first line ends the script.
Status: 0 played, refused lines too; 1 cannot read or write, or no picture of refused lines; 2 wrong usage.

{}",
        desk::USAGE
    )
}

#[cfg(test)]
mod tests {
    use super::*;
    use std::path::Path;

    #[test]
    fn words_stand_in_the_manual() {
        let manual = |page| std::fs::read_to_string(Path::new(env!("CARGO_MANIFEST_DIR")).join("man").join(page)).unwrap();
        let plain = |line: &str| {
            let line =
                ["\\fB", "\\fI", "\\fR", "\\", "\"", ".BI ", ".B "].iter().fold(line.to_string(), |line, mark| line.replace(mark, ""));
            line.split_whitespace().collect::<Vec<_>>().join(" ")
        };
        let [lines, forms] = ["rack.1", "hingerota-text.5"].map(|page| manual(page).lines().map(plain).collect::<Vec<_>>());
        for word in WORDS {
            assert!([&lines, &forms].iter().all(|page| page.iter().any(|line| line == word.form)), "{}", word.form);
        }
        for form in usage().lines().take_while(|line| !line.is_empty()) {
            let form = form.trim_start_matches("usage:").trim();
            let begins = form.split(" [").next().unwrap();
            assert!(lines.iter().any(|line| line.starts_with(begins)), "{form}");
        }
    }

    #[test]
    fn no_word_stands_twice() {
        for (place, word) in WORDS.iter().enumerate() {
            assert!(!word.name().is_empty());
            assert!(WORDS[..place].iter().all(|other| other.name() != word.name()), "{}", word.form);
        }
    }
}
