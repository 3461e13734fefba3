//! Minutes that pass at once, on the library and on the model, and beside as many ticks of the library.

use super::answers::{number, Advanced, Answer, NOTHING};
use super::book::Call;
use super::broken_lines::finds;
use super::told;
use crate::common::model::{held, LAST_MINUTE};
use crate::common::random::Random;
use crate::{same, Played};
use hingerota_host::{Desk, Kind, Numbers, Opening, Order, Record, TENANT_A};

/// Advances of up to so many minutes are compared with ticks of the library, and of longer ones so many of a hundred.
const FEW_MINUTES: u32 = 120;
const LONG_ADVANCES: u32 = 5;

impl Played {
    pub fn advance(&mut self, minutes: u32, random: &mut Random) -> Result<(), String> {
        self.done.push(format!("advance {minutes}"));
        let before = *self.desk.numbers();
        let due_by = self.model.clock.saturating_add(minutes);
        let (library, (passed, answer)) = (Advanced::from(self.desk.advance(minutes)), self.model.advance(minutes));
        self.tell("advance", told::json(&[minutes]), answer.refusal, told::answer(&answer, passed));
        same("minutes passed", library.minutes, passed)?;
        if passed <= FEW_MINUTES || random.percent(LONG_ADVANCES) {
            as_ticks(&before, minutes, &library, self.desk.numbers())?;
        }
        let advances = &mut self.count.advances;
        if answer.refusal == 0 {
            let (last, told) = (self.model.clock, library.answer != NOTHING);
            let released = before.jobs.iter().any(|r| r.state == 3 && is_due(&before, r, last));
            advances.taken += 1;
            advances.minutes += u64::from(passed);
            advances.cut_short += u64::from(last < due_by);
            advances.to_a_release += u64::from(released && !told);
            advances.quiet += u64::from(!before.jobs.iter().any(|r| is_due(&before, r, last)));
            advances.to_the_last_minute += u64::from(last == LAST_MINUTE);
        } else {
            advances.refused += 1;
        }
        // "a `wait` as its steps or as one refused call"
        for _ in 1..passed {
            self.book.enter(&Call::Tick, &NOTHING)?;
        }
        self.same_answer(Call::Tick, library.answer, answer)
    }
}

/// Mostly as many minutes as it takes until something is due, or one fewer or more.
pub fn some_minutes(played: &Played, random: &mut Random) -> u32 {
    let left = LAST_MINUTE - played.model.clock;
    let next = (1..=FEW_MINUTES).find(|n| played.model.is_due(played.model.clock + n));
    match (random.below(12), next) {
        (0, _) => random.one_of(&[0, 10_081, 1_000_000, u32::MAX]),
        (1, _) => random.one_of(&[left.saturating_sub(1), left, left + 1]),
        (2, Some(next)) => next - 1,
        (3..=5, Some(next)) => next,
        (6, Some(next)) => next + 1,
        (7, Some(_)) => random.one_of(&[10_079, 10_080]),
        (8, _) if random.percent(10) => random.between(1, 10_080),
        (9, Some(next)) => next + random.below(60),
        _ => random.between(1, 12),
    }
}

/// In this minute it ends, its nodes are free again, or it starts as planned.
fn is_due(desk: &Numbers, record: &Record, minute: u32) -> bool {
    let due = match record.state {
        1 => record.start,
        2 => record.start + held(u32::from(record.estimate)),
        3 => record.end + desk.cleanup,
        _ => return false,
    };
    due == minute
}

/// What an advance gave is what ticks give, as many as minutes have passed: nothing is due before the last, and these answer nothing; in the
/// last something is, unless all have passed.
fn as_ticks(before: &Numbers, asked: u32, given: &Advanced, after: &Numbers) -> Result<(), String> {
    let mut desk = Desk::from_numbers(*before).map_err(|refusal| format!("a desk is {refusal}"))?;
    let refusal = number(&desk.may_wait(asked));
    if refusal != 0 {
        same("what is refused", *given, Advanced { answer: Answer { refusal, ..NOTHING }, minutes: 0 })?;
        return same("the desk after a refusal", *after, *before);
    }
    same("some minutes pass, and no more than asked for", (1..=asked).contains(&given.minutes), true)?;
    for minute in 1..=given.minutes {
        let due = desk.records().iter().any(|r| is_due(desk.numbers(), r, desk.clock() + 1));
        let answer = Answer::from(desk.tick());
        if minute < given.minutes {
            same("something is due before the last minute", due, false)?;
            same("the answer before the last minute", answer, NOTHING)?;
        } else {
            same("something is due in the last minute, or all have passed", due || minute == asked, true)?;
            same("the answer of the last minute", given.answer, answer)?;
        }
    }
    same("the desk after ticks", *after, *desk.numbers())
}

/// On 10 nodes, which stay taken for 2 minutes after a run, job 1 has 6 for 5 minutes, and job 2 waits for 8 as long.
fn two_jobs(kind: Kind, minute: u32) -> Desk {
    let opening = Opening { nodes: 10, minute, ticket: 1, cleanup: 2, quota_a: 63, quota_b: 1 };
    let mut desk = Desk::open(kind, opening).unwrap();
    for nodes in [6, 8] {
        desk.submit(Order { nodes, estimate: 5, tenant: TENANT_A, least: 0 }).unwrap();
    }
    desk
}

/// What is asked, and what that gives: the refusal, how many minutes have passed, the clock then, and who ended and who started in the last.
type Edge = (u32, u32, u32, u32, &'static [u32], &'static [u32]);

fn plays(mut desk: Desk, edges: &[Edge]) {
    for (asked, refusal, minutes, clock, ended, started) in edges {
        let before = *desk.numbers();
        let given = Advanced::from(desk.advance(*asked));
        let told = (given.answer.ended.as_slice(), given.answer.started.as_slice());
        assert_eq!((given.answer.refusal, given.minutes, desk.clock(), told), (*refusal, *minutes, *clock, (*ended, *started)), "{asked}");
        as_ticks(&before, *asked, &given, desk.numbers()).unwrap();
    }
}

/// No minutes and too many, one fewer than up to what is due, just as many and more; an end, a release that starts a job and one that does not;
/// with nothing due any more; exactly to the last minute, and past it.
pub fn at_the_edges() {
    for kind in [Kind::Promise, Kind::Loose] {
        plays(
            two_jobs(kind, 0),
            &[
                (0, 2, 0, 0, &[], &[]),
                (10_081, 2, 0, 0, &[], &[]),
                (u32::MAX, 2, 0, 0, &[], &[]),
                (4, 0, 4, 4, &[], &[]),
                (1, 0, 1, 5, &[1], &[]),
                (1, 0, 1, 6, &[], &[]),
                (10_080, 0, 1, 7, &[], &[2]),
                (5, 0, 5, 12, &[2], &[]),
                (3, 0, 2, 14, &[], &[]),
                (10_080, 0, 10_080, 10_094, &[], &[]),
            ],
        );
        plays(two_jobs(kind, 0), &[(5, 0, 5, 5, &[1], &[]), (2, 0, 2, 7, &[], &[2]), (6, 0, 5, 12, &[2], &[])]);
    }
    let last = [
        (1_000, 6, 0, 999_900, &[][..], &[][..]),
        (101, 6, 0, 999_900, &[], &[]),
        (100, 0, 5, 999_905, &[1], &[]),
        (95, 0, 2, 999_907, &[], &[2]),
        (93, 0, 5, 999_912, &[2], &[]),
        (89, 6, 0, 999_912, &[], &[]),
        (88, 0, 2, 999_914, &[], &[]),
        (86, 0, 86, 1_000_000, &[], &[]),
        (1, 6, 0, 1_000_000, &[], &[]),
        (0, 2, 0, 1_000_000, &[], &[]),
    ];
    plays(two_jobs(Kind::Promise, 999_900), &last);
}

/// An advance made up to be wrong, and nothing else, is found out.
pub fn finds_broken_advances() {
    let mut desk = two_jobs(Kind::Promise, 0);
    let before = *desk.numbers();
    let given = Advanced::from(desk.advance(9));
    let after = *desk.numbers();
    as_ticks(&before, 9, &given, &after).unwrap();
    let broken = |asked, given: Advanced, after: &Numbers, words: &str| finds(as_ticks(&before, asked, &given, after), words);
    broken(9, Advanced { minutes: 4, ..given }, &after, "in the last minute, or all have passed");
    broken(9, Advanced { minutes: 6, ..given }, &after, "something is due before the last minute");
    broken(9, Advanced { minutes: 0, ..given }, &after, "some minutes pass");
    broken(4, given, &after, "no more than asked for");
    broken(9, Advanced { answer: NOTHING, ..given }, &after, "the answer of the last minute");
    broken(9, given, &Numbers { clock: 6, ..after }, "the desk after ticks");
    broken(0, given, &after, "what is refused");
    let refused = Advanced { answer: Answer { refusal: 2, ..NOTHING }, minutes: 0 };
    as_ticks(&before, 0, &refused, &before).unwrap();
    broken(0, Advanced { minutes: 1, ..refused }, &before, "what is refused");
    broken(0, refused, &after, "the desk after a refusal");
    broken(9, refused, &before, "some minutes pass");
}
