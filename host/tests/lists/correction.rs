//! Corrected orders, on the library and on the model: document 02, No. 13.

use super::answers::Answer;
use super::book::{listed, Call};
use crate::common::acceptance::bound;
use crate::common::model::{self, held, Job, Model, Search, State, HOUSES, LAST_MINUTE, LONGEST_ESTIMATE};
use crate::common::random::Random;
use crate::{same, some_ticket, Plan, Played};
use hingerota_host::{Amendment, Desk, Kind, Numbers, Order, Record};

/// After a desk is read back, or has changed its kind, so many copies of it have an order corrected.
const COPIES: u32 = 3;

impl Played {
    pub fn amend(&mut self, amendment: Amendment) -> Result<(), String> {
        let Amendment { ticket, nodes, estimate, least } = amendment;
        self.done.push(format!("amend {ticket} {nodes} {least} {estimate}"));
        let (before, desk) = (self.model.clone(), *self.desk.numbers());
        let (library, model) = (Answer::from(self.desk.amend(amendment)), self.model.amend(amendment));
        self.tell_answer("amend", &[ticket, nodes, estimate, least], &model);
        self.count_correction(&before, &amendment, &model);
        self.passed(&model);
        if library.is_taken() && library.ticket != ticket {
            self.withdrawn.push(ticket);
        }
        self.same_answer(Call::Amend(amendment), library, model)?;
        let after = self.desk.numbers();
        kept(&desk, after, &amendment, &library)?;
        counted(&desk, after, &amendment, &library, once_more)?;
        same("check of a desk after a correction", after.check(), Ok(()))
    }

    /// Copies of the desk have orders corrected, and the desk stays as it is.
    pub fn amend_copies(&mut self, plan: &Plan, random: &mut Random) -> Result<(), String> {
        let copies = if self.model.jobs.iter().any(Job::waits) { COPIES } else { 0 };
        for _ in 0..copies {
            self.done.push("on a copy".to_string());
            let (desk, model, book) = (*self.desk.numbers(), self.model.clone(), self.book.clone());
            let (tight, withdrawn) = (self.tight, self.withdrawn.clone());
            self.tell("copy", "[]", 0, "null");
            self.amend(some_correction(plan, self, random))?;
            let tried = self.book.tried;
            self.desk = copy(&desk)?;
            (self.model, self.book, self.tight, self.withdrawn) = (model, book, tight, withdrawn);
            self.book.tried = tried;
            self.tell("back", "[]", 0, "null");
        }
        self.same_desk()
    }

    fn count_correction(&mut self, before: &Model, amendment: &Amendment, answer: &model::Answer) {
        let count = &mut self.count.corrections;
        count.asked += 1;
        let Some(old) = before.jobs.iter().find(|j| j.waits() && j.ticket == amendment.ticket) else {
            return;
        };
        count.no_ticket_left += u64::from(answer.refusal == 5);
        count.past_the_last_minute += u64::from(answer.refusal == 6);
        let starts = || !before.clone().cancel(old.ticket).started.is_empty();
        count.refused_with_starts += u64::from([5, 6].contains(&answer.refusal) && starts());
        if answer.refusal != 0 {
            return;
        }
        let (nodes, longer) = (amendment.nodes, held(amendment.estimate) > held(old.estimate));
        let (of_a, in_place) = (old.house == HOUSES[0], answer.ticket == old.ticket);
        count.of_a += u64::from(of_a);
        count.of_b += u64::from(!of_a);
        count.of_desks_not_made_by_calls += u64::from(!self.tight);
        count.most_started = count.most_started.max(answer.started.len() as u64);
        if in_place {
            let itself = answer.started.contains(&old.ticket);
            let asked = |j: &Job| (j.nodes, j.estimate, j.least);
            count.in_place += 1;
            count.nothing_changed += u64::from(asked(old) == (nodes, amendment.estimate, amendment.least));
            count.longer_estimates += u64::from(amendment.estimate > old.estimate);
            count.fewer_nodes += u64::from(nodes < old.nodes);
            count.shorter_held_times += u64::from(held(amendment.estimate) < held(old.estimate));
            count.heads += u64::from(before.kind == Kind::Loose && old.forecast > 0);
            count.start_by_it += u64::from(itself);
            count.others_start_by_it += u64::from(answer.started.len() > usize::from(itself));
            return;
        }
        let full = before.live(old.house) == before.places[usize::from(!of_a)];
        let next = next_held_time(old.estimate).is_some_and(|next| held(amendment.estimate) == held(next));
        let mut unmoved = Model { places: [64, 64], ..before.clone() };
        let without = unmoved.submit(Order { nodes, estimate: amendment.estimate, tenant: old.house, least: 0 });
        let last = self.model.jobs.last().expect("it was taken in last");
        count.anew += 1;
        count.one_node_more += u64::from(nodes == old.nodes + 1 && !longer);
        count.next_held_times += u64::from(nodes == old.nodes && next);
        count.houses_full += u64::from(full);
        count.not_without_withdrawal += u64::from(without.refusal == 6);
        let latest = match before.kind {
            Kind::Promise => self.model.freed(last),
            Kind::Loose => bound(&self.model, last) + self.model.hold(last.estimate),
        };
        count.up_to_the_last_minute += u64::from(latest == LAST_MINUTE);
    }
}

/// The smallest estimate that is held for longer.
fn next_held_time(estimate: u32) -> Option<u32> {
    Some(held(estimate) + 1).filter(|longer| *longer <= LONGEST_ESTIMATE)
}

/// The smallest estimate that is held as long.
fn same_held_time(estimate: u32) -> u32 {
    (1..=estimate).rev().take_while(|e| held(*e) == held(estimate)).last().unwrap_or(estimate)
}

/// A correction, mostly of a job that waits, often of one whose nodes are free now, just not for as long. Mostly near what it asked for:
/// the same, one node more or fewer, as many as are free now, an estimate at an edge of the minutes that are held as long or just past it,
/// one with which it could just start, one that would just end in the last minute. Or of other nodes and minutes, also such as are refused.
pub fn some_correction(plan: &Plan, played: &Played, random: &mut Random) -> Amendment {
    let (machine, free) = (played.model.nodes, played.model.free_now());
    let kept_by_time: Vec<u32> = played.model.jobs.iter().filter(|j| j.waits() && j.nodes <= free).map(|j| j.ticket).collect();
    let head = played.model.jobs.iter().find(|j| j.waits()).filter(|_| free > 0);
    let ticket = match (random.below(6), head) {
        (0 | 1, _) if !kept_by_time.is_empty() => random.one_of(&kept_by_time),
        (2, Some(head)) => head.ticket,
        _ => some_ticket(played, State::Waiting, random),
    };
    let Some(old) = played.model.jobs.iter().find(|j| j.ticket == ticket) else {
        let (nodes, estimate) = (random.between(1, machine), plan.estimates.pick(random));
        return Amendment { ticket, nodes, estimate, least: 0 };
    };
    let nodes = match random.below(20) {
        0 => random.one_of(&[0, machine + 1, u32::MAX, old.nodes + (1 << 16)]),
        1..=7 => old.nodes,
        8..=10 => old.nodes.max(2) - 1,
        11 | 12 => random.between(1, old.nodes),
        13..=15 => old.nodes + 1,
        16..=18 => free.max(1),
        _ => random.between(1, machine),
    };
    let (same, longest) = (same_held_time(old.estimate), held(old.estimate));
    let shorter = random.between(1, old.estimate);
    let estimate = match random.below(20) {
        0 => random.one_of(&[0, LONGEST_ESTIMATE + 1, u32::MAX, old.estimate + (1 << 16)]),
        1..=4 => old.estimate,
        5..=7 => random.one_of(&[same, longest]),
        8..=10 => longest + 1,
        11..=13 => random.one_of(&[same.max(2) - 1, shorter]),
        14 => just_starts(&played.model, old, nodes).unwrap_or(old.estimate) + random.below(2),
        15 | 16 => just_taken(&played.model, old, nodes).unwrap_or(old.estimate) + random.below(2),
        _ => plan.estimates.pick(random),
    };
    // Minute by minute, long jobs take long.
    let estimate = if played.model.search == Search::EveryMinute && estimate > 60 { old.estimate } else { estimate };
    let least = match random.below(14) {
        0 => random.one_of(&[estimate.saturating_add(1), old.least + (1 << 16), u32::MAX]),
        1 => estimate,
        2 | 3 => 0,
        4 | 5 => random.between(0, estimate.min(9)),
        _ => old.least.min(estimate),
    };
    Amendment { ticket, nodes, estimate, least }
}

/// The largest estimate that is held, with the cleanup, until the head's nodes are free on a Loose Desk, or until on a Promise Desk so many
/// nodes are free no more.
fn just_starts(model: &Model, old: &Job, nodes: u32) -> Option<u32> {
    let own = |minute: u32| if old.start <= minute && minute < model.freed(old) { old.nodes } else { 0 };
    let until = match model.kind {
        Kind::Promise => model.profile().into_iter().find(|(minute, free)| free + own(*minute) < nodes)?.0,
        Kind::Loose => model.shadow(model.jobs.iter().find(|j| j.waits())?.nodes),
    };
    let minutes = until.checked_sub(model.clock + model.cleanup)?;
    (1..=LONGEST_ESTIMATE.min(minutes)).rev().find(|estimate| held(*estimate) <= minutes)
}

/// The largest estimate with which such an order would be taken once the old one is withdrawn, where a larger one is refused by 6. "Longer
/// estimates never get earlier starts", so that halving finds it.
fn just_taken(model: &Model, old: &Job, nodes: u32) -> Option<u32> {
    let unit = LONGEST_ESTIMATE + model.cleanup;
    let latest = match model.kind {
        Kind::Promise => model.jobs.iter().map(|j| model.freed(j)).fold(model.clock, u32::max),
        Kind::Loose => model.clock + model.jobs.iter().filter(|j| j.waits()).count() as u32 * unit,
    };
    if latest + unit <= LAST_MINUTE {
        return None;
    }
    let mut withdrawn = Model { search: Search::Changes, ..model.clone() };
    withdrawn.cancel(old.ticket);
    let intake = |estimate| withdrawn.clone().submit(Order { nodes, estimate, tenant: old.house, least: 0 }).refusal;
    if intake(LONGEST_ESTIMATE) != 6 || intake(1) != 0 {
        return None;
    }
    let (mut taken, mut refused) = (1, LONGEST_ESTIMATE);
    while taken + 1 < refused {
        let between = (taken + refused) / 2;
        *(if intake(between) == 0 { &mut taken } else { &mut refused }) = between;
    }
    Some(taken)
}

/// By the records before and after, and the answer. "If neither nodes nor held time grow, it supersedes that record in place and keeps its
/// promise, or on the Loose Desk its intake minute, r and forecast. [...] If either grows, the old ticket is withdrawn and the order is taken
/// in last with a new ticket [...]. If that intake is refused, the old order remains untouched. The house is kept". All others stay as they
/// were, but for who starts, who is planned earlier and who hears a forecast.
pub fn kept(before: &Numbers, after: &Numbers, amendment: &Amendment, answer: &Answer) -> Result<(), String> {
    if !answer.is_taken() {
        return if after == before { Ok(()) } else { Err("a refused correction changes the desk".to_string()) };
    }
    let Amendment { ticket, nodes, estimate, least } = *amendment;
    let place = before.jobs.iter().position(|r| r.waits() && r.ticket == ticket).ok_or("a job is corrected that did not wait")?;
    let old = before.jobs[place];
    let asked = |record| Record { nodes: nodes as u16, estimate: estimate as u16, least: least as u16, ..record };
    let mut live: Vec<Record> = before.jobs.iter().filter(|r| r.state != 0).copied().collect();
    let anew = nodes > old.nodes.into() || held(estimate) > held(old.estimate.into());
    if anew {
        live.remove(place);
        live.push(asked(taken_in(before, &old, answer)));
    } else {
        live[place] = asked(old);
    }
    let (given, next) = if anew { (before.next, before.next + 1) } else { (ticket, before.next) };
    let settings = |d: &Numbers| [d.kind, d.nodes, d.cleanup, d.quota_a, d.quota_b, d.clock];
    if (answer.ticket, after.next, settings(after)) != (given, next, settings(before)) {
        return Err(format!("ticket {} and next {} with {:?}, and not {given} and {next}", answer.ticket, after.next, settings(after)));
    }
    if after.jobs.iter().filter(|r| r.state != 0).count() != live.len() {
        return Err(format!("{} jobs should be live after {before:?}", live.len()));
    }
    live.iter().zip(&after.jobs).try_for_each(|(was, is)| moved(was, is, before, answer))
}

/// The record of the order that is taken in last, before it starts or hears a forecast.
fn taken_in(before: &Numbers, old: &Record, answer: &Answer) -> Record {
    let fresh = Record { ticket: before.next, start: answer.promise, promise: answer.promise, ..*old };
    if before.kind == 0 {
        return fresh;
    }
    // "judged on the desk as the withdrawal leaves it": the old one waits no more, nor do those that this starts.
    let started = answer.started.as_slice().iter().filter(|ticket| **ticket != before.next).count();
    let rank = before.jobs.iter().filter(|r| r.waits()).count() - started;
    Record { submitted: before.clock, rank: rank as u32, forecast: 0, ..fresh }
}

/// What a record is once the others have moved.
fn moved(was: &Record, is: &Record, before: &Numbers, answer: &Answer) -> Result<(), String> {
    let starts = was.waits() && answer.started.as_slice().contains(&was.ticket);
    let (state, start) = match before.kind {
        _ if starts => (2, before.clock),
        0 if was.waits() => (1, is.start),
        _ => (was.state, was.start),
    };
    let forecast = if answer.head == was.ticket { answer.forecast } else { was.forecast };
    if *is != (Record { state, start, forecast, ..*was }) {
        return Err(format!("{is:?} after a correction, and before it {was:?}"));
    }
    if is.start > was.start && !(before.kind == 1 && starts) {
        return Err(format!("{} is planned for {}, and was for {}", is.ticket, is.start, was.start));
    }
    Ok(())
}

fn copy(desk: &Numbers) -> Result<Desk, String> {
    Desk::from_numbers(*desk).map_err(|refusal| format!("a desk is {refusal}"))
}

/// What is answered to a call, and the desk that it leaves.
pub type Given = Result<(Answer, Numbers), String>;

/// What the library gives.
fn once_more(desk: &Numbers, amendment: &Amendment) -> Given {
    let mut desk = copy(desk)?;
    let answer = desk.amend(*amendment).into();
    Ok((answer, *desk.numbers()))
}

/// On copies of the desk, by the library's own calls. One that is taken anew, or refused by 5 or 6, is the withdrawal and the submission, one
/// after the other. One in place leaves nothing to do: sent once more, it starts nobody, and nobody moves.
pub fn counted(
    before: &Numbers,
    after: &Numbers,
    amendment: &Amendment,
    answer: &Answer,
    once_more: fn(&Numbers, &Amendment) -> Given,
) -> Result<(), String> {
    let Amendment { ticket, nodes, estimate, least } = *amendment;
    if answer.is_taken() && answer.ticket == ticket {
        let (again, desk) = once_more(after, amendment)?;
        if answer.started.as_slice().contains(&ticket) {
            same("refusal of one that runs by now", again.refusal, 11)?;
        } else {
            same("what is answered once more", again, Answer { started: listed(&[]), head: 0, forecast: 0, ..*answer })?;
        }
        return same("desk after the same correction", desk, *after);
    }
    if ![0, 5, 6].contains(&answer.refusal) {
        return Ok(());
    }
    let mut desk = copy(before)?;
    let tenant = before.jobs.iter().find(|r| r.ticket == ticket).map_or(0, |r| r.tenant.into());
    let (withdrawn, taken) = (Answer::from(desk.cancel(ticket)), Answer::from(desk.submit(Order { nodes, estimate, tenant, least })));
    same("refusal of the submission", taken.refusal, answer.refusal)?;
    if taken.is_taken() {
        let started = [withdrawn.started.as_slice(), taken.started.as_slice()].concat();
        let (head, forecast) = withdrawn.new_head().or(taken.new_head()).unwrap_or((0, 0));
        same("heads of both", withdrawn.head == 0 || taken.head == 0, true)?;
        same("answer of both", *answer, Answer { started: listed(&started), head, forecast, ..taken })?;
        same("desk after both", *after, *desk.numbers())?;
    }
    Ok(())
}
