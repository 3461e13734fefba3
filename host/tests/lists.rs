//! Random lists of calls, on the library and on a model written from document 01's words: after every call the answers, every field of the
//! desk and of its 64 records, the points, the blocks and an earliest start are compared, and now and then how long a job may be, the
//! status page, the desk's lines, which are read back, and why jobs wait; the guarantees are watched by the calls and their answers, the
//! rule on gaps by the records and the points, corrected orders by the records and by the calls that they count as, and minutes that pass at
//! once by the ticks that they count as. Each list starts from an opening, and then once more from a desk that no calls need have made, read
//! back from lines or found in memory; every second Loose Desk becomes a Promise Desk in the middle. The lists are the same in every run;
//! LISTS says how many, and LIST plays one alone. TOLD names a file to which they are told.

mod common;
mod lists {
    pub mod advance;
    pub mod answers;
    pub mod board;
    pub mod book;
    pub mod broken_changes;
    pub mod broken_corrections;
    pub mod broken_lines;
    pub mod broken_sentences;
    pub mod correction;
    pub mod counters;
    pub mod damage;
    pub mod edge;
    pub mod gaps;
    pub mod made;
    pub mod migration;
    pub mod numbers;
    pub mod rereading;
    pub mod told;
    pub mod why;
}

use common::model::{self, Job, Model, Scan, Search, State};
use common::random::Random;
use hingerota_host::{Block, Desk, Inquiry, Kind, Opening, Order, Point, Refusal, MOST_POINTS, PAGE_BYTES};
use lists::answers::{number, Answer, Earliest, Longest, Shown};
use lists::book::{Book, Call};
use lists::counters::Count;
use lists::{
    advance, board, book, broken_changes, broken_corrections, broken_lines, broken_sentences, correction, gaps, numbers, rereading, told,
};
use std::io::IsTerminal;
use std::sync::atomic::{AtomicU64, Ordering};
use std::sync::Mutex;
use std::time::Instant;

const LISTS: u64 = 40_000;

/// After so many of a hundred steps it is asked how long a job may be.
const QUESTIONS: u32 = 5;

/// And after so many the status page is asked for.
const PAGES: u32 = 3;

/// And after so many the desk is written out, and after so many it goes on from its lines.
const TEXTS: u32 = 3;
const REREADS: u32 = 3;

/// And after so many its lines are damaged, and after so many the desk in memory.
const DAMAGES: u32 = 3;

/// And after so many it is asked why jobs wait.
const WHYS: u32 = 5;

/// And after so many a copy of the desk changes its kind.
const CHANGES: u32 = 3;

/// Of a hundred times that minutes pass, so many times they pass at once.
const ADVANCES: u32 = 40;

/// Of a list from a desk that no calls need have made, at most so many calls.
const CALLS_GOING_ON: u32 = 20;

/// How long the jobs of a list are.
#[derive(Clone, Copy, PartialEq)]
enum Estimates {
    Tiny,
    Short,
    Edges,
    Any,
}

/// What is asked for in a list.
struct Plan {
    kind: Kind,
    nodes: u32,
    minute: u32,
    ticket: u32,
    cleanup: u32,
    places: [u32; 2],
    calls: u32,
    estimates: Estimates,
    /// Of a hundred calls, so many are submissions, completions, withdrawals, corrections, profiles and waits that are only judged; the
    /// others are ticks, and minutes that pass at once.
    submissions: u32,
    completions: u32,
    withdrawals: u32,
    corrections: u32,
    profiles: u32,
    waits: u32,
}

fn plan(random: &mut Random) -> Plan {
    let nodes = match random.below(6) {
        0 => 1,
        1 | 2 => random.between(2, 10),
        3 => random.between(11, 64),
        4 => random.between(65, 1_024),
        _ => random.one_of(&[2, 4, 10, 16, 1_024]),
    };
    let minute = match random.below(10) {
        0..=4 => 0,
        5 => random.between(0, 900_000),
        6 => 1_000_000 - random.below(120),
        7 => 1_000_000 - random.below(12_000),
        8 => 1_000_000 - 10_080 * random.between(1, 5) - random.below(500),
        _ => random.one_of(&[1_000_000, 999_999, 999_990, 989_900, 1]),
    };
    let ticket = match random.below(10) {
        0..=5 => 1,
        6 | 7 => random.between(1, 999_999),
        _ => 999_999 - random.below(60),
    };
    let cleanup = random.one_of(&[0, 0, 1, 7, 30]);
    let places = random.one_of(&[[63, 1], [1, 63], [32, 32], [60, 4], [2, 62]]);
    let calls = match random.below(200) {
        0..=99 => random.between(1, 15),
        100..=179 => random.between(16, 80),
        180..=197 => random.between(81, 400),
        _ => random.between(1_000, 2_500),
    };
    let (submissions, completions, withdrawals, corrections, profiles, waits) = random.one_of(&[
        (40, 15, 10, 5, 8, 4),
        (55, 8, 5, 10, 4, 2),
        (25, 20, 10, 10, 18, 6),
        (75, 4, 3, 7, 3, 2),
        (35, 25, 8, 10, 5, 4),
        (40, 5, 25, 10, 5, 3),
        (88, 3, 2, 3, 2, 1),
    ]);
    let kind = random.one_of(&[Kind::Promise, Kind::Loose]);
    let estimates = random.one_of(&[Estimates::Tiny, Estimates::Short, Estimates::Edges, Estimates::Any]);
    let mut plan = Plan {
        kind,
        nodes,
        minute,
        ticket,
        cleanup,
        places,
        calls,
        estimates,
        submissions,
        completions,
        withdrawals,
        corrections,
        profiles,
        waits,
    };
    // One opening of twelve is refused, for one reason or for several.
    if random.percent(8) {
        match random.below(9) {
            0 => plan.nodes = random.one_of(&[0, 1_025, u32::MAX]),
            1 => plan.minute = random.one_of(&[1_000_001, u32::MAX]),
            2 => plan.ticket = random.one_of(&[0, 1_000_000, u32::MAX]),
            3 => plan.cleanup = random.one_of(&[31, u32::MAX]),
            4 => (plan.ticket, plan.cleanup) = (random.one_of(&[0, 1]), 31),
            // Some sum to 64 modulo 2^32.
            5 => {
                plan.places =
                    random.one_of(&[[u32::MAX, 65], [1 << 31, (1 << 31) + 64], [u32::MAX, u32::MAX], [u32::MAX, 0], [0, u32::MAX]])
            }
            6 => plan.places = random.one_of(&[[0, 64], [64, 0], [62, 1], [63, 2], [32, 31], [0, 0], [1, 64], [65, u32::MAX]]),
            7 => (plan.cleanup, plan.places) = (random.one_of(&[30, 31]), [64, 1]),
            _ => (plan.nodes, plan.minute, plan.ticket) = (random.one_of(&[0, 5]), 1_000_001, 0),
        }
    }
    plan
}

impl Estimates {
    fn pick(self, random: &mut Random) -> u32 {
        match self {
            Estimates::Tiny => random.between(1, 30),
            Estimates::Short => random.between(1, 300),
            Estimates::Edges => {
                random.one_of(&[1, 4, 5, 6, 119, 120, 121, 130, 131, 479, 480, 481, 510, 511, 10_050, 10_051, 10_079, 10_080])
            }
            Estimates::Any => match random.below(3) {
                0 => random.between(1, 480),
                1 => random.between(1, 10_080),
                _ => random.between(9_000, 10_080),
            },
        }
    }
}

/// A list as it is played on both.
struct Played {
    desk: Desk,
    model: Model,
    book: Book,
    /// The tickets withdrawn.
    withdrawn: Vec<u32>,
    /// No waiting job could begin earlier, after any call. "On a desk read back, the rule on gaps holds from its first early end or
    /// withdrawal", or correction: "All waiting stacks, this one too, then move as after a withdrawal".
    tight: bool,
    count: Count,
    done: Vec<String>,
    /// The desk's lines as they were told last.
    told: Vec<u8>,
}

fn same<T: PartialEq + std::fmt::Debug>(what: &str, library: T, model: T) -> Result<(), String> {
    if library == model {
        return Ok(());
    }
    Err(format!("{what}: library {library:?}, model {model:?}"))
}

/// Every field of the desk and of its records.
fn same_desk(desk: &Desk, model: &Model) -> Result<(), String> {
    same("kind", desk.kind(), model.kind)?;
    same("nodes", desk.nodes(), model.nodes)?;
    same("cleanup", desk.cleanup(), model.cleanup)?;
    same("quotas", [desk.quota_a(), desk.quota_b()], model.places)?;
    same("clock", desk.clock(), model.clock)?;
    same("next ticket", desk.next(), model.next)?;
    for (place, record) in desk.records().iter().enumerate() {
        let expected = match model.jobs.get(place) {
            Some(job) => numbers::record(job).ok_or_else(|| format!("{job:?} has no record"))?,
            None => numbers::UNUSED,
        };
        if *record != expected {
            return Err(format!("record {place}: library {record:?}, model {expected:?}"));
        }
    }
    Ok(())
}

impl Played {
    fn open(plan: &Plan) -> Result<Played, String> {
        let Plan { kind, nodes, minute, ticket, cleanup, places, .. } = *plan;
        let (refusal, model) = Model::open(kind, nodes, minute, ticket, cleanup, places);
        let [quota_a, quota_b] = places;
        let opening = Opening { nodes, minute, ticket, cleanup, quota_a, quota_b };
        let (number, desk) = match Desk::open(kind, opening) {
            Ok(desk) => (0, desk),
            Err(refused) => (refused.refusal.number(), refused.desk),
        };
        same("refusal of the opening", number, refusal)?;
        let book = Book::new(kind, model.nodes, model.cleanup, model.places, model.clock);
        let mut count = Count { lists: 1, ..Count::default() };
        count.refusals.count(refusal);
        let done = vec![format!("open {kind:?} {nodes} {minute} {ticket} {cleanup} {quota_a} {quota_b}")];
        let mut played = Played { desk, model, book, withdrawn: Vec::new(), tight: true, count, done, told: Vec::new() };
        played.tell_opening(kind, &[nodes, minute, ticket, cleanup, quota_a, quota_b], refusal);
        played.same_desk()?;
        Ok(played)
    }

    fn same_desk(&self) -> Result<(), String> {
        same_desk(&self.desk, &self.model)
    }

    fn same_answer(&mut self, call: Call, library: Answer, model: model::Answer) -> Result<(), String> {
        same("refusal", library.refusal, model.refusal)?;
        same("ticket", library.ticket, model.ticket)?;
        same("promise", library.promise, model.promise)?;
        same("reads", library.reads, model.reads)?;
        let (head, forecast) = model.head.unwrap_or((0, 0));
        same("head", library.head, head)?;
        same("forecast", library.forecast, forecast)?;
        for (what, tickets, expected) in [("ended", library.ended, &model.ended), ("started", library.started, &model.started)] {
            same(what, tickets.as_slice(), expected)?;
            same("places past the count", tickets.list[tickets.count..].iter().all(|t| *t == 0), true)?;
        }
        self.same_desk()?;
        self.book.enter(&call, &library)?;
        self.no_gaps()?;
        self.count.calls += 1;
        self.count.refusals.count(model.refusal);
        self.count.most_live = self.count.most_live.max(self.model.jobs.len() as u64);
        Ok(())
    }

    fn no_gaps(&mut self) -> Result<(), String> {
        if self.desk.kind() == Kind::Promise && self.tight {
            self.count.no_gaps += gaps::none(&self.desk.points(), self.desk.records(), self.desk.cleanup())?;
        }
        Ok(())
    }

    /// After an early end, a withdrawal or a correction.
    fn passed(&mut self, answer: &model::Answer) {
        self.tight |= answer.refusal == 0;
        if answer.refusal == 0 && self.model.kind == Kind::Promise {
            self.count.passes_repeated += u64::from(self.model.passes > 2);
            self.count.most_passes = self.count.most_passes.max(self.model.passes.into());
        }
    }

    fn submit(&mut self, order: Order) -> Result<(), String> {
        let Order { nodes, estimate, tenant, least } = order;
        self.done.push(format!("submit {nodes} {least} {estimate} {tenant}"));
        self.count.submissions += 1;
        let points = self.model.profile().len();
        let (library, model) = (self.desk.submit(order).into(), self.model.submit(order));
        self.count.submissions_reading_some += u64::from(model.reads > 0 && (model.reads as usize) < points);
        self.count.most_reads = self.count.most_reads.max(model.reads.into());
        self.tell_answer("submit", &[nodes, estimate, tenant, least], &model);
        self.same_answer(Call::Submit(order), library, model)
    }

    fn complete(&mut self, ticket: u32) -> Result<(), String> {
        self.done.push(format!("complete {ticket}"));
        self.count.completions += 1;
        if let Some(job) = self.model.jobs.iter().find(|j| j.ticket == ticket) {
            self.count.completions_at_start += u64::from(job.state == State::Running && job.start == self.model.clock);
            self.count.completions_in_cleanup += u64::from(job.state == State::Cleanup);
            let just_before = job.state == State::Running && self.model.clock + 1 == job.start + job.least;
            self.count.completions_just_before_least += u64::from(just_before);
        }
        let (library, model) = (self.desk.complete(ticket).into(), self.model.complete(ticket));
        self.tell_answer("complete", &[ticket], &model);
        self.passed(&model);
        self.same_answer(Call::Complete { ticket }, library, model)
    }

    fn cancel(&mut self, ticket: u32) -> Result<(), String> {
        self.done.push(format!("cancel {ticket}"));
        self.count.withdrawals += 1;
        let before = *self.desk.records();
        let (library, model) = (Answer::from(self.desk.cancel(ticket)), self.model.cancel(ticket));
        self.tell_answer("cancel", &[ticket], &model);
        self.passed(&model);
        if library.is_taken() {
            self.withdrawn.push(ticket);
        }
        // "no other planned start gets later through it"
        for record in self.desk.records().iter().filter(|r| r.waits()) {
            let planned =
                before.iter().find(|r| r.ticket == record.ticket).ok_or("a job that waits after a withdrawal and was not there")?;
            if record.start > planned.start {
                return Err(format!("{} is planned for {}, and was for {}", record.ticket, record.start, planned.start));
            }
        }
        self.same_answer(Call::Cancel { ticket }, library, model)
    }

    fn tick(&mut self) -> Result<(), String> {
        self.count.ticks += 1;
        let (library, model) = (self.desk.tick().into(), self.model.tick());
        self.tell_answer("tick", &[], &model);
        self.same_answer(Call::Tick, library, model)
    }

    fn ticks(&mut self, minutes: u32, random: &mut Random) -> Result<(), String> {
        self.done.push(format!("{minutes} ticks"));
        (0..minutes).try_for_each(|_| {
            self.tick()?;
            self.index(random)?;
            self.earliest_start(some_ticket(self, State::Waiting, random))
        })
    }

    /// What a desk writes into a list of so many places, in the middle of a longer one of which no place may change but those written:
    /// `all`, which are `what`, or nothing. How many it writes.
    fn lent<T: Copy + PartialEq + std::fmt::Debug>(
        &mut self,
        what: &str,
        all: &[T],
        room: usize,
        held: fn(u32) -> T,
        write: fn(&Desk, &mut [T]) -> Result<usize, Refusal>,
    ) -> Result<usize, String> {
        const AROUND: usize = 4;
        self.count.calls += 1;
        let (refusal, written) = match model::written(all, room) {
            Ok(written) => (0, written),
            Err(refusal) => (refusal, &[][..]),
        };
        self.count.refusals.count(refusal);
        let mut after: Vec<T> = (0..(room + 2 * AROUND) as u32).map(held).collect();
        let mut lent = after.clone();
        let shown = Shown::from(write(&self.desk, &mut lent[AROUND..AROUND + room]));
        same(&format!("answer with {what}"), shown, Shown { refusal, count: written.len() })?;
        after[AROUND..AROUND + written.len()].copy_from_slice(written);
        same(what, lent, after)?;
        self.same_desk()?;
        Ok(written.len())
    }

    fn profile(&mut self, room: usize) -> Result<(), String> {
        self.done.push(format!("profile into {room}"));
        self.count.profiles += 1;
        let points: Vec<Point> = self.model.profile().into_iter().map(|(minute, free)| Point { minute, free }).collect();
        self.tell("profile", "[]", 0, told::json(&points.iter().map(|p| [p.minute, p.free]).collect::<Vec<_>>()));
        self.count.most_points = self.count.most_points.max(points.len() as u64);
        let held = |i| Point { minute: 3_000_000_000 + i, free: 4_000_000_000 + i };
        self.count.points += self.lent("points", &points, room, held, Desk::profile)? as u64;
        Ok(())
    }

    /// The index into lists of the exact length, longer and too short, and beside the profile.
    fn index(&mut self, random: &mut Random) -> Result<(), String> {
        let blocks: Vec<Block> = self.model.index().into_iter().map(|(fewest, most)| Block { fewest, most }).collect();
        self.tell("index", "[]", 0, told::json(&blocks.iter().map(|b| [b.fewest, b.most]).collect::<Vec<_>>()));
        let exact = blocks.len() as u32;
        let too_short = (exact > 0).then(|| random.below(exact));
        for room in [exact, exact + random.between(1, 10)].into_iter().chain(too_short) {
            self.count.indexes += 1;
            let held = |i| Block { fewest: 3_000_000_000 + i, most: 4_000_000_000 + i };
            let given = self.lent("blocks", &blocks, room as usize, held, Desk::index)?;
            self.count.blocks += given as u64;
            self.count.most_blocks = self.count.most_blocks.max(given as u64);
        }
        self.book.index(&self.desk.points(), &self.desk.blocks())
    }

    /// The status page into bytes of the exact length, longer and too short.
    fn status_page(&mut self, random: &mut Random) -> Result<(), String> {
        self.done.push("status page".to_string());
        let page = board::page(&self.model);
        self.tell("status_page", "[]", 0, told::string(&page));
        let exact = PAGE_BYTES as u32;
        let some = random.below(exact);
        let too_short = random.one_of(&[0, some, exact - 1]);
        for room in [exact, exact + random.between(1, 100), too_short] {
            let held = |i| (i % 251) as u8;
            self.lent("status page", &page, room as usize, held, Desk::status_page)?;
        }
        self.count.pages += 1;
        let has = |state| u64::from(self.model.jobs.iter().any(|j| j.state == state));
        self.count.pages_in_cleanup += has(State::Cleanup);
        self.count.pages_waiting += has(State::Waiting);
        board::shaped(&self.desk.page())
    }

    /// Asked, and not waited.
    fn wait_refusal(&mut self, minutes: u32) -> Result<(), String> {
        self.done.push(format!("refusal of a wait of {minutes}"));
        self.count.waits += 1;
        self.count.calls += 1;
        let refusal = self.model.wait_refusal(minutes);
        self.tell("may_wait", told::json(&[minutes]), refusal, "null");
        self.count.refusals.count(refusal);
        same("refusal of the wait", number(&self.desk.may_wait(minutes)), refusal)?;
        self.same_desk()
    }

    fn earliest_start(&mut self, ticket: u32) -> Result<(), String> {
        self.count.earliest_starts += 1;
        self.count.calls += 1;
        let (refusal, minute) = match self.model.earliest_start(ticket) {
            Ok(minute) => (0, minute),
            Err(refusal) => (refusal, 0),
        };
        self.count.refusals.count(refusal);
        self.count.earliest_starts_later += u64::from(minute > self.model.clock);
        self.tell("earliest_start", told::json(&[ticket]), refusal, minute);
        let library = Earliest::from(self.desk.earliest_start(ticket));
        same(&format!("earliest start of {ticket}"), library, Earliest { refusal, minute })?;
        self.same_desk()?;
        self.book.earliest_start(ticket, library)
    }

    /// What was answered.
    fn longest_estimate(&mut self, asked: Inquiry, scan: Scan) -> Result<Longest, String> {
        let Inquiry { nodes, tenant, minute } = asked;
        self.done.push(format!("longest {nodes} {tenant} {minute}"));
        self.count.longest_estimates += 1;
        self.count.calls += 1;
        let (refusal, estimate) = match self.model.longest_estimate(asked, scan) {
            Ok(longest) => (0, longest.unwrap_or(0)),
            Err(refusal) => (refusal, 0),
        };
        self.count.refusals.count(refusal);
        if refusal == 0 && self.model.kind == Kind::Promise {
            self.count.longest_estimates_below += u64::from(0 < estimate && estimate < model::LONGEST_ESTIMATE);
            self.count.longest_estimates_none += u64::from(estimate == 0);
            self.count.longest_estimates_by_intake += u64::from(scan == Scan::Intake);
        }
        self.tell("longest_estimate", told::json(&[nodes, tenant, minute]), refusal, estimate);
        let library = Longest::from(self.desk.longest_estimate(asked));
        same("longest estimate", library, Longest { refusal, estimate })?;
        self.same_desk()?;
        self.book.longest_estimate(asked, library)?;
        Ok(library)
    }
}

/// The ticket of a call: mostly of a job in this state, of those that run often of one that has started just now, or that is at its least
/// or one minute before it; else of one in another, one that is over or withdrawn, or one never given.
fn some_ticket(played: &Played, state: State, random: &mut Random) -> u32 {
    let tickets = |test: &dyn Fn(&Job) -> bool| -> Vec<u32> { played.model.jobs.iter().filter(|j| test(j)).map(|j| j.ticket).collect() };
    let (live, wanted, in_cleanup) = (tickets(&|_| true), tickets(&|j| j.state == state), tickets(&|j| j.state == State::Cleanup));
    let clock = played.model.clock;
    let running = |test: &dyn Fn(&Job) -> bool| tickets(&|j| j.state == State::Running && state == State::Running && test(j));
    let just_started = running(&|j| j.start == clock);
    let near_least = running(&|j| j.least > 0 && [clock, clock + 1].contains(&(j.start + j.least)));
    let next = played.model.next;
    match random.below(15) {
        0 => random.one_of(&[0, next, next.saturating_sub(1), u32::MAX]),
        1 if !live.is_empty() => random.one_of(&live),
        2 if !played.withdrawn.is_empty() => random.one_of(&played.withdrawn),
        3 => random.between(next.saturating_sub(70), next),
        4 if !wanted.is_empty() => wanted[0],
        5 if !in_cleanup.is_empty() => random.one_of(&in_cleanup),
        6..=8 if !just_started.is_empty() => random.one_of(&just_started),
        9..=11 if !near_least.is_empty() => random.one_of(&near_least),
        _ if !wanted.is_empty() => random.one_of(&wanted),
        _ => random.below(next + 1),
    }
}

/// Mostly a house that has places left, so that both fill up.
fn some_house(played: &Played, random: &mut Random) -> u32 {
    let [a, b] = model::HOUSES;
    let left = |house: u32, places: u32| places - played.model.live(house);
    match random.below(20) {
        0 => random.one_of(&[0, 1, 64, 67, 97, 255, 65 + (1 << 8), 65 + (1 << 16), u32::MAX]),
        1..=6 => random.one_of(&[a, b]),
        _ if left(a, played.model.places[0]) >= left(b, played.model.places[1]) => a,
        _ => b,
    }
}

/// Asks how long a job may be, mostly of nodes that are free at a point and not at a later one, by the minute of that point, or by one for
/// which an order of the list would be planned, or one minute beside these. Then, often, such a job is submitted: of the estimate given, of
/// one minute more, or of another.
fn ask_longest(plan: &Plan, played: &mut Played, random: &mut Random) -> Result<(), String> {
    let (machine, clock, house) = (played.model.nodes, played.model.clock, some_house(played, random));
    let points = match played.model.kind {
        Kind::Promise => played.model.profile(),
        Kind::Loose => vec![(clock, machine)],
    };
    let at = random.below(points.len() as u32) as usize;
    let ((from, free), (_, later)) = (points[at], random.one_of(&points[at..]));
    let nodes = match random.below(12) {
        0 => random.one_of(&[0, machine + 1, u32::MAX]),
        1 => machine,
        2..=8 if later < free => random.one_of(&[later + 1, free]),
        _ => random.between(1, machine),
    };
    let planned = {
        let estimate = plan.estimates.pick(random);
        played.model.clone().submit(Order { nodes, estimate, tenant: house, least: 0 }).promise
    };
    let minute = match random.below(12) {
        0 => random.one_of(&[clock.saturating_sub(1), 0, model::LAST_MINUTE, u32::MAX]),
        1 => clock,
        2..=4 if planned > 0 => planned - random.below(2),
        5..=9 => (from + random.below(3)).saturating_sub(1),
        _ => from + random.below(200),
    };
    // Asking the model's intake for every estimate takes long where many jobs are live.
    let few = plan.calls <= 25 && played.model.jobs.len() <= 15;
    let scan = if random.below(if few { 3 } else { 500 }) == 0 { Scan::Intake } else { Scan::Changes };
    let Longest { estimate, .. } = played.longest_estimate(Inquiry { nodes, tenant: house, minute }, scan)?;
    let estimate = match random.below(6) {
        0 => estimate,
        1 => estimate + 1,
        2 => random.between(1, estimate.max(1)),
        3 => plan.estimates.pick(random),
        _ => return Ok(()),
    };
    // Minute by minute, long jobs take long.
    if played.model.search == Search::EveryMinute && estimate > 60 {
        return Ok(());
    }
    played.submit(Order { nodes, estimate, tenant: house, least: 0 })
}

/// The next call of a list.
fn step(plan: &Plan, played: &mut Played, random: &mut Random) -> Result<(), String> {
    let roll = random.below(100);
    if roll < plan.submissions {
        let machine = played.model.nodes;
        let nodes = match random.below(20) {
            0 => random.one_of(&[0, machine + 1, u32::MAX]),
            1..=3 => machine,
            4..=9 => random.between(1, (machine / 4).max(1)),
            _ => random.between(1, machine),
        };
        let estimate = match random.below(25) {
            0 => random.one_of(&[0, 10_081, u32::MAX]),
            _ => plan.estimates.pick(random),
        };
        let least = match random.below(20) {
            0 => random.one_of(&[estimate.saturating_add(1), 10_081, u32::MAX]),
            1 => estimate,
            2..=4 => random.between(0, estimate.min(9)),
            5 | 6 => random.between(0, estimate.min(10_080)),
            _ => 0,
        };
        let tenant = some_house(played, random);
        played.submit(Order { nodes, estimate, tenant, least })
    } else if roll < plan.submissions + plan.completions {
        let ticket = some_ticket(played, State::Running, random);
        played.complete(ticket)
    } else if roll < plan.submissions + plan.completions + plan.withdrawals {
        let ticket = some_ticket(played, State::Waiting, random);
        played.cancel(ticket)
    } else if roll < plan.submissions + plan.completions + plan.withdrawals + plan.corrections {
        let amendment = correction::some_correction(plan, played, random);
        played.amend(amendment)
    } else if roll < plan.submissions + plan.completions + plan.withdrawals + plan.corrections + plan.profiles {
        let points = played.model.profile().len();
        let room = match random.below(6) {
            0 => 0,
            1 => points.saturating_sub(1),
            2 => points,
            3 => points + random.between(1, 5) as usize,
            4 => MOST_POINTS,
            _ => random.between(0, 200) as usize,
        };
        played.profile(room)
    } else if roll < plan.submissions + plan.completions + plan.withdrawals + plan.corrections + plan.profiles + plan.waits {
        let left = model::LAST_MINUTE - played.model.clock;
        let minutes = match random.below(4) {
            0 => random.one_of(&[0, 1, 10_080, 10_081, 1_000_000, u32::MAX]),
            1 => random.one_of(&[left.saturating_sub(1), left, left + 1]),
            _ => random.between(1, 10_080),
        };
        played.wait_refusal(minutes)
    } else if random.percent(ADVANCES) {
        let minutes = advance::some_minutes(played, random);
        played.advance(minutes, random)
    } else {
        // Some minutes, or as many as it takes until a job that is due ends, starts or leaves, or comes to its least or the minute before.
        let (clock, cleanup) = (played.model.clock, played.model.cleanup);
        let events = played.model.jobs.iter().flat_map(|j| match j.state {
            State::Waiting => vec![j.start],
            State::Running => vec![j.start + model::held(j.estimate), j.start + j.least, (j.start + j.least).saturating_sub(1)],
            State::Cleanup => vec![j.end + cleanup],
        });
        let next = events.filter(|m| *m > clock).min().map_or(1, |m| m - clock);
        let minutes = match random.below(6) {
            0..=2 => 1,
            3 => random.between(2, 12),
            _ if next <= 60 || random.percent(3) => next,
            _ => 3,
        };
        played.ticks(minutes, random)
    }
}

/// A call, and what is asked after it.
fn round(plan: &Plan, played: &mut Played, random: &mut Random) -> Result<(), String> {
    step(plan, played, random)?;
    played.index(random)?;
    played.earliest_start(some_ticket(played, State::Waiting, random))?;
    if random.percent(QUESTIONS) {
        ask_longest(plan, played, random)?;
    }
    if random.percent(PAGES) {
        played.status_page(random)?;
    }
    if random.percent(TEXTS) {
        played.checkpoint(random)?;
    }
    if random.percent(REREADS) {
        played.reread()?;
    }
    if random.percent(WHYS) {
        played.why(random)?;
    }
    if random.percent(CHANGES) {
        played.migrate_a_copy()?;
    }
    if random.percent(DAMAGES) {
        played.damaged_text(&played.model.clone(), random)?;
    }
    if random.percent(DAMAGES) {
        played.damaged_desk(&played.model.clone(), random)?;
    }
    Ok(())
}

/// So many calls, and every second time a change somewhere among them.
fn calls(number: u32, plan: &Plan, played: &mut Played, random: &mut Random) -> Result<(), String> {
    let change = random.below(2 * number + 1);
    for call in 0..number {
        if call == change {
            played.migrate(random)?;
            played.amend_copies(plan, random)?;
        }
        round(plan, played, random)?;
    }
    Ok(())
}

/// From an opening, and then from a desk that no calls need have made.
fn rounds(plan: &Plan, played: &mut Played, random: &mut Random) -> Result<(), String> {
    if plan.estimates == Estimates::Tiny && plan.calls <= 25 {
        played.model.search = Search::EveryMinute;
    }
    calls(plan.calls, plan, played, random)?;
    let Some(accepted) = played.another(random)? else {
        return Ok(());
    };
    played.go_on_from(accepted)?;
    if plan.estimates == Estimates::Tiny && rereading::is_small(&played.model) {
        played.model.search = Search::EveryMinute;
    }
    played.index(random)?;
    played.checkpoint(random)?;
    played.why(random)?;
    played.migrate_a_copy()?;
    played.amend_copies(plan, random)?;
    calls(random.below(CALLS_GOING_ON), plan, played, random)
}

fn play(list: u64) -> Result<Count, String> {
    let random = &mut Random::new(list);
    let plan = plan(random);
    let mut played = Played::open(&plan)?;
    rounds(&plan, &mut played, random).map_err(|e| format!("list {list}: {}\n{e}", played.done.join(", ")))?;
    played.count.tried = played.book.tried;
    Ok(played.count)
}

fn set_to(name: &str) -> Option<u64> {
    std::env::var(name).ok().map(|n| n.parse().unwrap_or_else(|_| panic!("{name} is not a number")))
}

fn main() {
    let (first, end) = match set_to("LIST") {
        Some(list) => (list, list + 1),
        None => (0, set_to("LISTS").unwrap_or(LISTS)),
    };
    book::finds_broken_claims();
    advance::finds_broken_advances();
    advance::at_the_edges();
    gaps::finds_gaps();
    board::finds_broken_pages();
    broken_lines::are_found();
    broken_changes::are_found();
    broken_corrections::are_found();
    broken_sentences::are_found();
    rereading::reads_texts_handed_over();
    let (began, total, shown) = (Instant::now(), end - first, std::io::stderr().is_terminal());
    let (next, all) = (AtomicU64::new(first), Mutex::new(Count::default()));
    let work = || loop {
        let list = next.fetch_add(1, Ordering::Relaxed);
        if list >= end {
            return;
        }
        let played = play(list);
        let mut all = all.lock().unwrap();
        match played {
            Ok(count) => all.add(&count),
            Err(wrong) => {
                eprintln!("\nFAILED {wrong}");
                std::process::exit(1);
            }
        }
        if shown && all.lists % 100 == 0 {
            eprint!("\r{} of {total} lists, {} calls", all.lists, all.calls);
        } else if all.lists % 5_000 == 0 {
            eprintln!("{} of {total} lists, {} calls", all.lists, all.calls);
        }
    };
    let at_once = if told::begin() { 1 } else { std::thread::available_parallelism().map_or(1, |n| n.get()) };
    std::thread::scope(|threads| {
        for _ in 0..at_once {
            threads.spawn(work);
        }
    });
    told::end();
    if shown {
        eprintln!();
    }
    print!("{}", all.into_inner().unwrap());
    println!("library and model agree ({:.1} s)", began.elapsed().as_secs_f64());
}
