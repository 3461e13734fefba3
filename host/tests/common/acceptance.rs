//! Which desks are accepted when they are read back, from document 02's words, No. 11: "Reading accepts if ...". A test for each of its
//! sentences, in an order in which each can count on those above it.

use super::model::{held, Job, Model, HOUSES, LAST_MINUTE, LAST_TICKET, LIVE_JOBS, LONGEST_CLEANUP, LONGEST_ESTIMATE, MOST_NODES};
use hingerota_host::Kind;

/// A condition, by its words.
type Condition = (&'static str, fn(&Model) -> bool);

pub const CONDITIONS: &[Condition] = &[
    ("the desk's numbers and shares in range", desk_in_range),
    ("a record's numbers and houses in range", records_in_range),
    ("tickets ascend and lie below the next", tickets_ascend),
    ("no house has more live than its places", shares_kept),
    ("least not above most", least_not_above_most),
    ("values a record lacks 0", lacking_are_0),
    ("running stacks started by now and end after it", running_are_on),
    ("clearing ones started, then ended, by now and still hold nodes", clearing_are_on),
    ("Promise Desk starts lie by their promises", starts_lie_by_promises),
    ("Promise Desk starts, waiting ones after now", waiting_start_later),
    ("every hold ends by the last minute", holds_end),
    ("every minute fits the rack", minutes_fit),
    ("a Loose Desk is settled", loose_is_settled),
    ("its head's forecast not before the present shadow", head_is_told),
    ("no other waiting one having any", others_are_not),
    ("intake minute, not after now", intakes_are_past),
    ("r at intake, 1 to 64", ranks_in_range),
    ("each waiting one's last-minute rule", last_minute_rules),
    ("shadow and those waiting before within the bound", bounds_within_reach),
];

/// The first condition that is broken, by its place.
pub fn broken(desk: &Model) -> Option<usize> {
    CONDITIONS.iter().position(|(_, holds)| !holds(desk))
}

pub fn accepted(desk: &Model) -> bool {
    broken(desk).is_none()
}

fn every(desk: &Model, test: impl Fn(&Job) -> bool) -> bool {
    desk.jobs.iter().all(test)
}

fn on_the(kind: Kind, desk: &Model, test: impl Fn(&Job) -> bool) -> bool {
    desk.kind != kind || every(desk, test)
}

/// "all numbers, houses and shares are in range"; the next ticket "up to 1,000,000".
fn desk_in_range(desk: &Model) -> bool {
    let [a, b] = desk.places;
    let shares = (1..LIVE_JOBS as u32).contains(&a) && b == LIVE_JOBS as u32 - a;
    let tickets = (1..=LAST_TICKET + 1).contains(&desk.next);
    (1..=MOST_NODES).contains(&desk.nodes) && desk.clock <= LAST_MINUTE && tickets && desk.cleanup <= LONGEST_CLEANUP && shares
}

fn records_in_range(desk: &Model) -> bool {
    every(desk, |j| {
        let minutes = [j.start, j.promise, j.end, j.intake, j.forecast];
        let order = (1..=desk.nodes).contains(&j.nodes) && (1..=LONGEST_ESTIMATE).contains(&j.estimate) && j.least <= LONGEST_ESTIMATE;
        let ticket = (1..=LAST_TICKET).contains(&j.ticket);
        ticket && order && HOUSES.contains(&j.house) && minutes.iter().all(|m| *m <= LAST_MINUTE) && j.r <= LIVE_JOBS as u32
    })
}

/// "tickets ascend and lie below the next"
fn tickets_ascend(desk: &Model) -> bool {
    let tickets: Vec<u32> = desk.jobs.iter().map(|j| j.ticket).chain([desk.next]).collect();
    tickets.windows(2).all(|pair| pair[0] < pair[1])
}

/// "no house has more live than its places"
fn shares_kept(desk: &Model) -> bool {
    HOUSES.into_iter().zip(desk.places).all(|(house, places)| desk.live(house) <= places)
}

/// "least not above most"
fn least_not_above_most(desk: &Model) -> bool {
    every(desk, |j| j.least <= j.estimate)
}

/// "values a record lacks 0": the end of one that is not clearing, intake minute, r and forecast of the Promise Desk, and "on the Loose
/// Desk the promise, and a waiting stack's start".
fn lacking_are_0(desk: &Model) -> bool {
    let ends = every(desk, |j| j.in_cleanup() || j.end == 0);
    let of_promise = on_the(Kind::Promise, desk, |j| [j.intake, j.r, j.forecast] == [0; 3]);
    let of_loose = on_the(Kind::Loose, desk, |j| j.promise == 0 && (!j.waits() || j.start == 0));
    ends && of_promise && of_loose
}

/// "running stacks started by now and end after it"
fn running_are_on(desk: &Model) -> bool {
    every(desk, |j| !j.runs() || (j.start <= desk.clock && j.start + held(j.estimate) > desk.clock))
}

/// "clearing ones started, then ended, by now and still hold nodes"
fn clearing_are_on(desk: &Model) -> bool {
    every(desk, |j| !j.in_cleanup() || (j.start <= j.end && j.end <= desk.clock && j.end + desk.cleanup > desk.clock))
}

/// "Promise Desk starts lie by their promises"
fn starts_lie_by_promises(desk: &Model) -> bool {
    on_the(Kind::Promise, desk, |j| j.start <= j.promise)
}

/// "waiting ones after now"
fn waiting_start_later(desk: &Model) -> bool {
    on_the(Kind::Promise, desk, |j| !j.waits() || j.start > desk.clock)
}

/// The records that hold nodes at minutes known: who waits on the Loose Desk has no start.
fn with_holds(desk: &Model) -> impl Iterator<Item = &Job> {
    desk.jobs.iter().filter(|j| desk.kind == Kind::Promise || !j.waits())
}

/// "every hold ends by the last minute"
fn holds_end(desk: &Model) -> bool {
    with_holds(desk).all(|j| desk.freed(j) <= LAST_MINUTE)
}

/// "every minute fits the rack": one after another, from now to the last in which nodes are taken.
fn minutes_fit(desk: &Model) -> bool {
    let after_now = |minute: u32| minute.saturating_sub(desk.clock) as usize;
    let minutes = with_holds(desk).map(|j| after_now(desk.freed(j))).max().unwrap_or(0);
    let (mut begin, mut end) = (vec![0; minutes + 1], vec![0; minutes + 1]);
    for j in with_holds(desk) {
        begin[after_now(j.start)] += j.nodes;
        end[after_now(desk.freed(j))] += j.nodes;
    }
    let mut taken = 0;
    (0..=minutes).all(|minute| {
        taken = taken + begin[minute] - end[minute];
        taken <= desk.nodes
    })
}

/// "a Loose Desk is settled"
fn loose_is_settled(desk: &Model) -> bool {
    desk.kind == Kind::Promise || desk.clone().settle_now().is_empty()
}

/// Who waits on the Loose Desk, the head first.
fn queue(desk: &Model) -> Vec<&Job> {
    desk.jobs.iter().filter(|j| desk.kind == Kind::Loose && j.waits()).collect()
}

/// "with its head's forecast not before the present shadow"
fn head_is_told(desk: &Model) -> bool {
    queue(desk).first().is_none_or(|head| head.forecast >= desk.shadow(head.nodes))
}

/// "no other waiting one having any"
fn others_are_not(desk: &Model) -> bool {
    queue(desk).iter().skip(1).all(|j| j.forecast == 0)
}

/// "Loose records now keep intake minute, not after now"
fn intakes_are_past(desk: &Model) -> bool {
    on_the(Kind::Loose, desk, |j| j.intake <= desk.clock)
}

/// "r at intake, 1 to 64"
fn ranks_in_range(desk: &Model) -> bool {
    on_the(Kind::Loose, desk, |j| (1..=LIVE_JOBS as u32).contains(&j.r))
}

/// "10,080 + clearing"
fn longest_hold(desk: &Model) -> u32 {
    LONGEST_ESTIMATE + desk.cleanup
}

/// "Its bound is the clock at intake + r × 10,080", with the clearing.
pub fn bound(desk: &Model, job: &Job) -> u32 {
    job.intake + job.r * longest_hold(desk)
}

/// "Each waiting one's last-minute rule must hold": "now + r × 10,080 + held above it" at its intake, with the clearing.
fn last_minute_rules(desk: &Model) -> bool {
    queue(desk).iter().all(|j| bound(desk, j) + held(j.estimate) + desk.cleanup <= LAST_MINUTE)
}

/// "and shadow plus (10,080 + clearing) × the number waiting before it must not pass its bound"
fn bounds_within_reach(desk: &Model) -> bool {
    let queue = queue(desk);
    let Some(head) = queue.first() else {
        return true;
    };
    let shadow = desk.shadow(head.nodes);
    (0..).zip(&queue).all(|(before, j)| shadow + before * longest_hold(desk) <= bound(desk, j))
}
