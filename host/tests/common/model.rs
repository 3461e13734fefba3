//! Document 01's two desks, with what document 02 adds, written from their words and as plainly as they allow, to be compared with: a list
//! of live jobs, everything worked out anew in each call. Their words are quoted where they are followed.

use hingerota_host::{Amendment, Inquiry, Kind, Order};

pub const MOST_NODES: u32 = 1_024;
pub const LAST_MINUTE: u32 = 1_000_000;
pub const LONGEST_ESTIMATE: u32 = 10_080;
pub const LIVE_JOBS: usize = 64;
pub const LAST_TICKET: u32 = 999_999;
pub const LONGEST_CLEANUP: u32 = 30;
/// "for each block of 16 points"
pub const BLOCK_POINTS: usize = 16;
/// The houses, by their letters.
pub const HOUSES: [u32; 2] = [b'A' as u32, b'B' as u32];

#[derive(Clone, Copy, PartialEq, Eq, Debug)]
pub enum State {
    Waiting,
    Running,
    /// Document 02: "a clearing stack".
    Cleanup,
}

#[derive(Clone, Copy, PartialEq, Eq, Debug)]
pub struct Job {
    pub ticket: u32,
    pub nodes: u32,
    pub estimate: u32,
    pub state: State,
    /// "Each record carries its house".
    pub house: u32,
    /// The estimate is the most: "Intake gives a least and a most [...]; the desk plans with the most."
    pub least: u32,
    pub start: u32,
    pub promise: u32,
    /// "its record, and no other, keeps its end"
    pub end: u32,
    /// Document 02, No. 11: "Loose records now keep intake minute, [...] r at intake, [...] and any forecast, until they leave." Of the
    /// Promise Desk, and where there is no forecast, 0.
    pub intake: u32,
    pub r: u32,
    pub forecast: u32,
}

#[derive(Default, PartialEq, Eq, Debug)]
pub struct Answer {
    pub refusal: u32,
    pub ticket: u32,
    pub promise: u32,
    pub reads: u32,
    pub ended: Vec<u32>,
    pub started: Vec<u32>,
    /// A job that is head now and was not before, with its forecast.
    pub head: Option<(u32, u32)>,
}

/// How the smallest minute is looked for.
#[derive(Clone, Copy, PartialEq, Eq, Debug)]
pub enum Search {
    /// Minute by minute, as document 01 says it.
    EveryMinute,
    /// Only at the minutes in which free nodes change: between these, nothing does.
    Changes,
}

/// How the largest estimate is looked for, from the longest down.
#[derive(Clone, Copy, PartialEq, Eq, Debug)]
pub enum Scan {
    /// By what intake would answer to each.
    Intake,
    /// By the minutes in which free nodes change, worked out once, for the largest estimate of each held time: for the others it is the same.
    Changes,
}

#[derive(Clone)]
pub struct Model {
    pub kind: Kind,
    pub nodes: u32,
    pub cleanup: u32,
    /// "the 64 places are divided between them": A's and B's.
    pub places: [u32; 2],
    /// "longest estimate (elsewhere 10,080)": a season says another.
    pub longest: u32,
    pub clock: u32,
    pub next: u32,
    /// In the order of tickets.
    pub jobs: Vec<Job>,
    pub search: Search,
    /// How many passes the last early end, withdrawal or correction took, with the one that moved nothing.
    pub passes: u32,
}

/// "to 120 by fives, to 480 by tens, to 10,080 by thirties"
pub fn held(estimate: u32) -> u32 {
    let up_to_a_multiple_of = |width: u32| (estimate + width - 1) / width * width;
    if estimate <= 120 {
        up_to_a_multiple_of(5)
    } else if estimate <= 480 {
        up_to_a_multiple_of(10)
    } else {
        up_to_a_multiple_of(30)
    }
}

impl Job {
    /// "A stack that starts at minute s ends at s + held".
    pub fn ends(&self) -> u32 {
        self.start + held(self.estimate)
    }

    pub fn waits(&self) -> bool {
        self.state == State::Waiting
    }

    pub fn runs(&self) -> bool {
        self.state == State::Running
    }

    pub fn in_cleanup(&self) -> bool {
        self.state == State::Cleanup
    }

    /// Its nodes are taken now.
    fn holds(&self) -> bool {
        self.runs() || self.in_cleanup()
    }
}

/// The free nodes of a block of points.
fn fewest_and_most(block: &[(u32, u32)]) -> (u32, u32) {
    let free = || block.iter().map(|(_, free)| *free);
    (free().min().unwrap(), free().max().unwrap())
}

/// The first minute from which so many nodes are free for so long, of the minutes in which free nodes change: if it fits from a minute on and
/// not from the one before, it is one of these.
fn first_fit(free: &[(u32, u32)], nodes: u32, hold: u32) -> u32 {
    let fits = |s: usize| free[s..].iter().take_while(|(m, _)| *m < free[s].0 + hold).all(|(_, f)| *f >= nodes);
    free[(0..free.len()).find(|s| fits(*s)).expect("all nodes are free in the end")].0
}

/// What is written into a list of so many places, or 10 if it does not fit.
pub fn written<T>(all: &[T], room: usize) -> Result<&[T], u32> {
    if room < all.len() {
        return Err(10);
    }
    Ok(all)
}

fn refused(refusal: u32) -> Answer {
    Answer { refusal, ..Answer::default() }
}

impl Model {
    /// The refusal, and the desk; "A refused opening hands back an empty desk of its kind with 1 node, minute 0 and ticket 1, later
    /// settings as in these examples", which document 02, No. 4, reads "with clearing 0, places 63 and 1". 12: "clearing above 30, after 3
    /// at opening"; 13: "the places do not sum to 64 or one is 0, last at opening".
    pub fn open(kind: Kind, nodes: u32, minute: u32, ticket: u32, cleanup: u32, places: [u32; 2]) -> (u32, Model) {
        let empty = |nodes, clock, next, cleanup, places| {
            let (longest, jobs, search, passes) = (LONGEST_ESTIMATE, Vec::new(), Search::Changes, 0);
            Model { kind, nodes, cleanup, places, longest, clock, next, jobs, search, passes }
        };
        let refused = |number| (number, empty(1, 0, 1, 0, [63, 1]));
        if nodes < 1 || nodes > MOST_NODES {
            return refused(1);
        }
        if minute > LAST_MINUTE || ticket < 1 || ticket > LAST_TICKET {
            return refused(3);
        }
        if cleanup > LONGEST_CLEANUP {
            return refused(12);
        }
        let sum: u64 = places.iter().map(|n| u64::from(*n)).sum();
        if sum != LIVE_JOBS as u64 || places.contains(&0) {
            return refused(13);
        }
        (0, empty(nodes, minute, ticket, cleanup, places))
    }

    pub fn live(&self, house: u32) -> u32 {
        self.jobs.iter().filter(|j| j.house == house).count() as u32
    }

    /// For how long an order takes its nodes: "Held time plus clearing is what must fit the profile, the rules (i) and (ii), shadow, extra
    /// and the last minute."
    pub fn hold(&self, estimate: u32) -> u32 {
        held(estimate) + self.cleanup
    }

    /// The minute from which a job's nodes are free again: "nodes stay taken for clearing minutes [...] after a planned or an early end
    /// alike".
    #[inline]
    pub fn freed(&self, job: &Job) -> u32 {
        match job.state {
            State::Cleanup => job.end + self.cleanup,
            State::Waiting | State::Running => job.start + self.hold(job.estimate),
        }
    }

    /// A run ends now. Its record leaves once its nodes are free, which without clearing they are at once.
    fn ends(&mut self, place: usize) {
        self.jobs[place].state = State::Cleanup;
        self.jobs[place].end = self.clock;
    }

    fn release(&mut self) {
        let (now, cleanup) = (self.clock, self.cleanup);
        self.jobs.retain(|j| !(j.in_cleanup() && j.end + cleanup == now));
    }

    /// 14: "a house other than A or B, first at intake"; 15: "the house's places are all live, in place of 4"; 19: "least above most, after
    /// 2".
    pub fn submit(&mut self, order: Order) -> Answer {
        let Order { nodes, estimate, tenant: house, least } = order;
        let Some(share) = HOUSES.iter().position(|h| *h == house) else {
            return refused(14);
        };
        if nodes == 0 || nodes > self.nodes {
            return refused(1);
        }
        // "The limit on estimates reads the setting"
        if estimate < 1 || estimate > self.longest {
            return refused(2);
        }
        if least > estimate {
            return refused(19);
        }
        if self.live(house) == self.places[share] {
            return refused(15);
        }
        if self.next > LAST_TICKET {
            return refused(5);
        }
        let (ticket, state) = (self.next, State::Waiting);
        let job = Job { ticket, nodes, estimate, state, house, least, start: 0, promise: 0, end: 0, intake: 0, r: 0, forecast: 0 };
        match self.kind {
            Kind::Promise => self.submit_promise(job),
            Kind::Loose => self.submit_loose(job),
        }
    }

    /// "An end of a clearing stack is refused by 7." 20: "an end before the least, after 7".
    pub fn complete(&mut self, ticket: u32) -> Answer {
        let Some(place) = self.jobs.iter().position(|j| j.runs() && j.ticket == ticket) else {
            return refused(7);
        };
        if self.clock < self.jobs[place].start + self.jobs[place].least {
            return refused(20);
        }
        let head = self.head();
        self.ends(place);
        self.release();
        self.moves(head, Answer { ended: vec![ticket], ..Answer::default() })
    }

    /// Document 02, No. 1: "A waiting stack can be withdrawn." 11: "the withdrawn ticket is not waiting".
    pub fn cancel(&mut self, ticket: u32) -> Answer {
        let Some(place) = self.jobs.iter().position(|j| j.waits() && j.ticket == ticket) else {
            return refused(11);
        };
        let head = self.head();
        self.jobs.remove(place);
        self.moves(head, Answer::default())
    }

    /// Document 02, No. 13: "A photographer finds two frames too many and sends a corrected order naming a waiting ticket." "Checks: 11 for
    /// the named ticket, then 1, 2 and 19, and if either grows the rest of intake's."
    pub fn amend(&mut self, amendment: Amendment) -> Answer {
        let Amendment { ticket, nodes, estimate, least } = amendment;
        let Some(place) = self.jobs.iter().position(|j| j.waits() && j.ticket == ticket) else {
            return refused(11);
        };
        if nodes == 0 || nodes > self.nodes {
            return refused(1);
        }
        if estimate < 1 || estimate > self.longest {
            return refused(2);
        }
        if least > estimate {
            return refused(19);
        }
        let old = self.jobs[place];
        // "If neither nodes nor held time grow, it supersedes that record in place and keeps its promise, or on the Loose Desk its intake
        // minute, r and forecast. All waiting stacks, this one too, then move as after a withdrawal". "either way the answer gives ticket
        // and promise as intake's does"
        if nodes <= old.nodes && held(estimate) <= held(old.estimate) {
            let head = self.head();
            self.jobs[place] = Job { nodes, estimate, least, ..old };
            return self.moves(head, Answer { ticket, promise: old.promise, ..Answer::default() });
        }
        // "If either grows, the old ticket is withdrawn and the order is taken in last with a new ticket, judged on the desk as the
        // withdrawal leaves it. If that intake is refused, the old order remains untouched. The house is kept"
        let untouched = self.clone();
        let withdrawn = self.cancel(ticket);
        let taken = self.submit(Order { nodes, estimate, tenant: old.house, least });
        if taken.refusal != 0 {
            *self = untouched;
            return refused(taken.refusal);
        }
        Answer { started: [withdrawn.started, taken.started].concat(), head: withdrawn.head.or(taken.head), ..taken }
    }

    /// After an early end, and after a withdrawal: "The Promise Desk then moves the others as after an early end; the Loose Desk settles."
    fn moves(&mut self, head: Option<u32>, mut answer: Answer) -> Answer {
        match self.kind {
            Kind::Promise => answer.started = self.put_in_again(),
            Kind::Loose => self.settle(head, &mut answer),
        }
        answer
    }

    pub fn tick(&mut self) -> Answer {
        if self.clock == LAST_MINUTE {
            return refused(6);
        }
        let head = self.head();
        self.clock += 1;
        let now = self.clock;
        let mut answer = Answer::default();
        // "stacks whose end is now leave", now or after their clearing
        for place in 0..self.jobs.len() {
            if self.jobs[place].runs() && self.jobs[place].ends() == now {
                answer.ended.push(self.jobs[place].ticket);
                self.ends(place);
            }
        }
        self.release();
        match self.kind {
            // "waiting stacks whose planned start is now start. Nothing else moves."
            Kind::Promise => {
                for job in self.jobs.iter_mut().filter(|j| j.waits() && j.start == now) {
                    job.state = State::Running;
                    answer.started.push(job.ticket);
                }
            }
            Kind::Loose => self.settle(head, &mut answer),
        }
        answer
    }

    /// In this minute a run ends, nodes are free again after their clearing, or a planned start has come.
    pub fn is_due(&self, minute: u32) -> bool {
        self.jobs.iter().any(|j| match j.state {
            State::Waiting => j.start == minute,
            State::Running => j.ends() == minute,
            State::Cleanup => self.freed(j) == minute,
        })
    }

    /// Minute by minute, up to the first in which something is due: how many have passed, and what the last of them answers.
    pub fn advance(&mut self, minutes: u32) -> (u32, Answer) {
        let refusal = self.wait_refusal(minutes);
        if refusal != 0 {
            return (0, refused(refusal));
        }
        let mut passed = 0;
        loop {
            let due = self.is_due(self.clock + 1);
            let answer = self.tick();
            passed += 1;
            if due || passed == minutes {
                return (passed, answer);
            }
        }
    }

    /// Document 02, No. 12: "Running and clearing stacks keep starts, now their promises, and ends; waiting ones are planned in ticket order
    /// by the Promise Desk's intake rule and receive promises then. [...] Tickets and clock go on." What intake answers of each that waits.
    /// A Promise Desk stays as it is.
    pub fn migrate(&mut self) -> Vec<Answer> {
        if self.kind == Kind::Promise {
            return Vec::new();
        }
        // Intake minute, r and forecast are values that a record of the Promise Desk lacks: "values a record lacks 0".
        let of_promise = |j: Job| Job { promise: j.start, intake: 0, r: 0, forecast: 0, ..j };
        let next = self.next;
        let (waiting, holding) = self.jobs.drain(..).map(of_promise).partition(Job::waits);
        (self.kind, self.jobs) = (Kind::Promise, holding);
        let planned = |job: Job| {
            self.next = job.ticket;
            self.submit_promise(job)
        };
        let answers = Vec::into_iter(waiting).map(planned).collect();
        self.next = next;
        self.jobs.sort_by_key(|j| j.ticket);
        answers
    }

    /// The points of the profile; "The Loose Desk has no profile."
    pub fn profile(&self) -> Vec<(u32, u32)> {
        match self.kind {
            Kind::Loose => Vec::new(),
            Kind::Promise => self.points(),
        }
    }

    /// Document 02, No. 5: "Beside the profile keep an index: for each block of 16 points, the fewest and the most free nodes."
    pub fn index(&self) -> Vec<(u32, u32)> {
        self.profile().chunks(BLOCK_POINTS).map(fewest_and_most).collect()
    }

    /// Why a wait is refused, or 0: "`wait` 2, 6"; 2: "`wait` outside 1 to 10,080"; 6: "the clock would pass it".
    pub fn wait_refusal(&self, minutes: u32) -> u32 {
        if minutes < 1 || minutes > LONGEST_ESTIMATE {
            return 2;
        }
        if self.clock + minutes > LAST_MINUTE {
            return 6;
        }
        0
    }

    /// Document 02, No. 7: "For a waiting ticket (11 if it is not) the desk also gives a soonest minute: the smallest, now or later, at
    /// which its nodes would be free if every running stack ended at its least, or now if that is past, followed by clearing, and no
    /// waiting one were there."
    pub fn earliest_start(&self, ticket: u32) -> Result<u32, u32> {
        let Some(job) = self.jobs.iter().find(|j| j.waits() && j.ticket == ticket) else {
            return Err(11);
        };
        let mut holds = Vec::new();
        for j in &self.jobs {
            match j.state {
                State::Running => holds.push((self.clock.max(j.start + j.least) + self.cleanup, j.nodes)),
                State::Cleanup => holds.push((self.freed(j), j.nodes)),
                State::Waiting => {}
            }
        }
        let taken = |t: u32| holds.iter().filter(|(freed, _)| *freed > t).map(|(_, nodes)| nodes).sum::<u32>();
        let mut minute = self.clock;
        while self.nodes - taken(minute) < job.nodes {
            minute += 1;
        }
        Ok(minute)
    }

    /// Document 02, No. 9: "Given nodes, a house and a wanted minute, give the largest estimate for which the Promise Desk would promise that
    /// minute or an earlier one, or say there is none. [...] Conditions that would refuse an estimate of 1 refuse the question." By what
    /// intake would answer, from the longest estimate down; of the Loose Desk, which promises nothing, there is none and no refusal.
    pub fn longest_estimate(&self, asked: Inquiry, scan: Scan) -> Result<Option<u32>, u32> {
        if self.kind == Kind::Loose {
            return Ok(None);
        }
        // 21: "the wanted minute is before the clock, ahead of all others"
        if asked.minute < self.clock {
            return Err(21);
        }
        let copy = || Model { search: Search::Changes, ..self.clone() };
        let intake = |estimate| copy().submit(Order { nodes: asked.nodes, estimate, tenant: asked.tenant, least: 0 });
        let refusal = intake(1).refusal;
        if refusal != 0 {
            return Err(refusal);
        }
        let mut estimates = (1..=LONGEST_ESTIMATE).rev();
        Ok(match scan {
            Scan::Intake => estimates.find(|e| {
                let answer = intake(*e);
                answer.refusal == 0 && answer.promise <= asked.minute
            }),
            Scan::Changes => {
                let free = self.free_at_changes();
                estimates.filter(|e| *e == LONGEST_ESTIMATE || held(*e) == *e).find(|e| {
                    let (hold, start) = (self.hold(*e), first_fit(&free, asked.nodes, self.hold(*e)));
                    start <= asked.minute && start + hold <= LAST_MINUTE
                })
            }
        })
    }

    // The Promise Desk.

    /// "Free nodes at minute t are the rack's, less those of running stacks whose end is after t, less those of waiting stacks with
    /// start ≤ t < start + held.", each with its clearing, and clearing ones "as held by a stack running until these end".
    fn free(&self, t: u32) -> u32 {
        let holding: u32 = self.jobs.iter().filter(|j| j.holds() && self.freed(j) > t).map(|j| j.nodes).sum();
        let waiting: u32 = self.jobs.iter().filter(|j| j.waits() && j.start <= t && t < self.freed(j)).map(|j| j.nodes).sum();
        self.nodes - holding - waiting
    }

    /// The minutes, now or later, in which free nodes can differ from those of the minute before, and now.
    fn changes(&self) -> Vec<u32> {
        let mut minutes = vec![self.clock];
        for job in &self.jobs {
            minutes.push(job.start);
            minutes.push(self.freed(job));
        }
        minutes.retain(|m| *m >= self.clock);
        minutes.sort();
        minutes.dedup();
        minutes
    }

    fn free_at_changes(&self) -> Vec<(u32, u32)> {
        self.changes().into_iter().map(|m| (m, self.free(m))).collect()
    }

    /// "The planned start is the smallest minute, now or later, such that the stack's nodes are free in every minute of its held time."
    fn planned(&self, nodes: u32, hold: u32) -> u32 {
        match self.search {
            Search::EveryMinute => {
                let mut start = self.clock;
                while !(start..start + hold).all(|t| self.free(t) >= nodes) {
                    start += 1;
                }
                start
            }
            Search::Changes => first_fit(&self.free_at_changes(), nodes, hold),
        }
    }

    fn submit_promise(&mut self, mut job: Job) -> Answer {
        let start = self.planned(job.nodes, self.hold(job.estimate));
        job.start = start;
        job.promise = start;
        if self.freed(&job) > LAST_MINUTE {
            return refused(6);
        }
        let reads = self.reads(job.nodes, self.freed(&job));
        let mut answer = Answer { ticket: job.ticket, promise: start, reads, ..Answer::default() };
        // "If it is now, the stack starts."
        if start == self.clock {
            job.state = State::Running;
            answer.started.push(job.ticket);
        }
        self.jobs.push(job);
        self.next += 1;
        answer
    }

    /// "Intake's search goes through the blocks that begin before its hold's end, reads free nodes only in those whose fewest is below the
    /// stack's nodes and whose most is not, there of each point once, and also gives how many it read."
    fn reads(&self, nodes: u32, end: u32) -> u32 {
        let mut reads = 0;
        for block in self.points().chunks(BLOCK_POINTS) {
            let (begins, (fewest, most)) = (block[0].0, fewest_and_most(block));
            if begins < end && fewest < nodes && nodes <= most {
                reads += block.len() as u32;
            }
        }
        reads
    }

    /// Document 02, No. 10: "Repeat the pass until a whole pass moves nothing. [...] This replaces the single pass of document 01, for
    /// withdrawals too." The tickets started, "on the Promise Desk, ascending".
    fn put_in_again(&mut self) -> Vec<u32> {
        let mut started = Vec::new();
        self.passes = 0;
        loop {
            let before = self.jobs.clone();
            self.passes += 1;
            started.extend(self.pass());
            if self.jobs == before {
                break;
            }
        }
        started.sort();
        started
    }

    /// "each waiting stack, once, in ticket order, is taken out of the plan and put in again at its smallest minute, the others staying at
    /// their places. One that comes to now starts." The tickets started.
    fn pass(&mut self) -> Vec<u32> {
        let mut started = Vec::new();
        for place in 0..self.jobs.len() {
            if !self.jobs[place].waits() {
                continue;
            }
            let mut job = self.jobs.remove(place);
            job.start = self.planned(job.nodes, self.hold(job.estimate));
            if job.start == self.clock {
                job.state = State::Running;
                started.push(job.ticket);
            }
            self.jobs.insert(place, job);
        }
        started
    }

    /// "The first is now; then every later minute whose free nodes differ from those of the minute before."
    fn points(&self) -> Vec<(u32, u32)> {
        let differs = |m: &u32| *m == self.clock || self.free(*m) != self.free(*m - 1);
        self.changes().into_iter().filter(differs).map(|m| (m, self.free(m))).collect()
    }

    // The Loose Desk.

    /// "Waiting stacks stand in ticket order; the first is the head."
    fn head(&self) -> Option<u32> {
        self.jobs.iter().find(|j| j.waits()).map(|j| j.ticket)
    }

    pub fn free_now(&self) -> u32 {
        self.nodes - self.jobs.iter().filter(|j| j.holds()).map(|j| j.nodes).sum::<u32>()
    }

    /// "the nodes free now and those of running stacks with end ≤ that minute together"; "shadow, extra and demand 3 count [clearing nodes] as
    /// held by a stack running until these end".
    fn free_by(&self, minute: u32) -> u32 {
        self.free_now() + self.jobs.iter().filter(|j| j.holds() && self.freed(j) <= minute).map(|j| j.nodes).sum::<u32>()
    }

    /// "the smallest minute at which [these] suffice for it"
    pub fn shadow(&self, nodes: u32) -> u32 {
        match self.search {
            Search::EveryMinute => {
                let mut minute = self.clock;
                while self.free_by(minute) < nodes {
                    minute += 1;
                }
                minute
            }
            // Nodes come free at ends of clearing alone.
            Search::Changes => {
                let mut ends: Vec<u32> = self.jobs.iter().filter(|j| j.holds()).map(|j| self.freed(j)).collect();
                ends.push(self.clock);
                ends.sort();
                ends.into_iter().find(|m| self.free_by(*m) >= nodes).expect("all nodes are free in the end")
            }
        }
    }

    /// "The Loose Desk's bound and its last-minute rule become r × (10,080 + clearing)."; by No. 6 "the bound and last-minute rule of the
    /// Loose Desk read [the longest estimate's] held time".
    fn submit_loose(&mut self, mut job: Job) -> Answer {
        let r = self.jobs.iter().filter(|j| j.waits()).count() as u32 + 1;
        if self.clock + r * self.hold(self.longest) + self.hold(job.estimate) > LAST_MINUTE {
            return refused(6);
        }
        let head = self.head();
        let mut answer = Answer { ticket: job.ticket, ..Answer::default() };
        (job.intake, job.r) = (self.clock, r);
        self.next += 1;
        self.jobs.push(job);
        self.settle(head, &mut answer);
        answer
    }

    fn start(&mut self, place: usize, answer: &mut Answer) {
        self.jobs[place].state = State::Running;
        self.jobs[place].start = self.clock;
        answer.started.push(self.jobs[place].ticket);
    }

    /// The three steps, after a call that found `before` as head.
    fn settle(&mut self, before: Option<u32>, answer: &mut Answer) {
        // "While the head's nodes are free now, it starts."
        while let Some(head) = self.jobs.iter().position(|j| j.waits()) {
            if self.jobs[head].nodes > self.free_now() {
                break;
            }
            self.start(head, answer);
        }
        // "Shadow, extra and both rules are worked out afresh after each stack passed forward, until none qualifies."
        while let Some(head) = self.jobs.iter().position(|j| j.waits()) {
            let shadow = self.shadow(self.jobs[head].nodes);
            let extra = self.free_by(shadow) - self.jobs[head].nodes;
            let qualifies =
                |j: &Job| j.waits() && j.nodes <= self.free_now() && (self.clock + self.hold(j.estimate) <= shadow || j.nodes <= extra);
            match (head + 1..self.jobs.len()).find(|later| qualifies(&self.jobs[*later])) {
                Some(later) => self.start(later, answer),
                None => break,
            }
        }
        // "A stack that is head after a call and was not before gets the shadow then as its forecast."
        if let Some(head) = self.jobs.iter().position(|j| j.waits()) {
            let Job { ticket, nodes, .. } = self.jobs[head];
            if before != Some(ticket) {
                self.jobs[head].forecast = self.shadow(nodes);
                answer.head = Some((ticket, self.jobs[head].forecast));
            }
        }
    }

    /// Of a Loose Desk that no call has left: who can start does. Who did.
    pub fn settle_now(&mut self) -> Vec<u32> {
        let mut answer = Answer::default();
        self.settle(self.head(), &mut answer);
        answer.started
    }
}
