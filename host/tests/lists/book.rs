//! The guarantees of a list of calls, watched by the calls and their answers alone: nothing here looks into a desk. Of a list that starts
//! from a desk read back, or from one that has changed its kind, also by the lines of that desk.

use super::answers::{Answer, Earliest, Longest};
use super::counters::Tried;
use super::why::Finding;
use crate::common::model::{held, Job, Model, State, BLOCK_POINTS, HOUSES, LONGEST_ESTIMATE};
use hingerota_host::{Amendment, Block, Inquiry, Kind, Order, Point, Tickets};
use std::collections::BTreeMap;

/// What has become of a job taken in.
#[derive(Clone, Copy, PartialEq, Eq, Debug)]
enum Fate {
    Waiting,
    /// Since that minute.
    Running(u32),
    /// In that minute.
    Ended(u32),
    /// In that minute.
    Withdrawn(u32),
}

/// By what a job was told its promise, its bound and its forecast, if any.
#[derive(Clone, Copy, PartialEq, Eq, Debug)]
enum Told {
    Answers,
    Lines,
    Change,
}

#[derive(Clone, Copy)]
struct Entry {
    nodes: u32,
    house: u32,
    promise: u32,
    bound: u32,
    forecast: Option<u32>,
    fate: Fate,
    least: u32,
    hold: u32,
    /// The largest minute given as its earliest start, and the minute in which that was first given. "its soonest minute counts afresh":
    /// since its order was last corrected in place.
    earliest: Option<(u32, u32)>,
    /// The largest that was given before such a correction, and binds no more.
    stale: Option<u32>,
    /// Its order was corrected in place.
    corrected: bool,
    told: Told,
}

impl Entry {
    /// What was told of its start, by name: on a Promise Desk its promise, on a Loose Desk its bound, and a forecast if it has heard one.
    fn deadlines(&self, kind: Kind) -> impl Iterator<Item = (&'static str, u32)> {
        let own = match kind {
            Kind::Promise => ("promise", self.promise),
            Kind::Loose => ("bound", self.bound),
        };
        std::iter::once(own).chain(self.forecast.map(|minute| ("forecast", minute)))
    }

    /// Document 02, No. 11: "A list of demand 3 may also start from a desk read back, whose stacks count as the lines give them."
    fn of_line(job: &Job, cleanup: u32) -> Entry {
        Entry {
            nodes: job.nodes,
            house: job.house,
            promise: job.promise,
            bound: bound(job.intake, job.r, cleanup),
            forecast: Some(job.forecast).filter(|minute| *minute > 0),
            fate: match job.state {
                State::Waiting => Fate::Waiting,
                State::Running => Fate::Running(job.start),
                State::Cleanup => Fate::Ended(job.end),
            },
            least: job.least,
            hold: held(job.estimate),
            earliest: None,
            stale: None,
            corrected: false,
            told: Told::Lines,
        }
    }

    /// Nodes or held time do.
    fn grows(&self, amendment: &Amendment) -> bool {
        amendment.nodes > self.nodes || held(amendment.estimate) > self.hold
    }

    /// Its nodes are taken, or it waits for them.
    fn is_live(&self, clock: u32, cleanup: u32) -> bool {
        match self.fate {
            Fate::Waiting | Fate::Running(_) => true,
            Fate::Ended(minute) => clock - minute < cleanup,
            Fate::Withdrawn(_) => false,
        }
    }

    /// What it asked for, and what has become of it.
    fn standing(&self) -> impl PartialEq + std::fmt::Debug {
        (self.nodes, self.house, self.least, self.hold, self.fate)
    }

    /// What a line has to give as the calls and their answers did; of the Promise Desk no bound.
    fn stated(&self, kind: Kind) -> impl PartialEq + std::fmt::Debug {
        let bound = (kind == Kind::Loose).then_some(self.bound);
        (self.standing(), (self.promise, bound, self.forecast))
    }
}

/// These tickets, as an answer has them.
pub fn listed(tickets: &[u32]) -> Tickets {
    let mut list = [0; 64];
    list[..tickets.len()].copy_from_slice(tickets);
    Tickets { count: tickets.len(), list }
}

/// "Its bound is the clock at intake + r × 10,080", with the clearing.
fn bound(intake: u32, r: u32, cleanup: u32) -> u32 {
    intake + r * (LONGEST_ESTIMATE + cleanup)
}

#[derive(Clone)]
pub struct Book {
    kind: Kind,
    nodes: u32,
    cleanup: u32,
    places: [u32; 2],
    clock: u32,
    /// By ticket.
    entries: BTreeMap<u32, Entry>,
    /// How long a job may be, as it was asked last and answered, where no call has been taken since.
    longest: Option<(Inquiry, Longest)>,
    pub tried: Tried,
}

pub enum Call {
    Submit(Order),
    Complete { ticket: u32 },
    Cancel { ticket: u32 },
    Amend(Amendment),
    Tick,
}

macro_rules! claim {
    ($holds:expr, $($words:tt)*) => {
        if !$holds {
            return Err(format!($($words)*));
        }
    };
}

impl Book {
    /// Of the desk that an opening hands back.
    pub fn new(kind: Kind, nodes: u32, cleanup: u32, places: [u32; 2], clock: u32) -> Book {
        Book { kind, nodes, cleanup, places, clock, entries: BTreeMap::new(), longest: None, tried: Tried::default() }
    }

    /// Of the desk that lines give, which no calls need have made: "The promise, bound and forecast that the lines give a waiting stack are
    /// kept after."
    pub fn of_lines(desk: &Model) -> Result<Book, String> {
        let mut book = Book::new(desk.kind, desk.nodes, desk.cleanup, desk.places, desk.clock);
        for job in &desk.jobs {
            let entry = Entry::of_line(job, desk.cleanup);
            claim!(book.entries.insert(job.ticket, entry).is_none(), "ticket {} stands in two lines", job.ticket);
        }
        book.holds()?;
        Ok(book)
    }

    /// The desk is written out, and goes on from its lines: "Every desk that calls have made [...] is accepted from its own lines and comes
    /// back the same." They give each live job as the calls and their answers did.
    pub fn reread(&mut self, desk: &Model) -> Result<(), String> {
        let lines = Book::of_lines(desk)?;
        let settings = |book: &Book| (book.kind, book.nodes, book.cleanup, book.places, book.clock);
        claim!(settings(self) == settings(&lines), "{:?} is read back as {:?}", settings(self), settings(&lines));
        self.has_lines(&lines)?;
        for (ticket, entry) in self.live() {
            let (was, stated) = (entry.stated(self.kind), lines.entries[ticket].stated(self.kind));
            claim!(was == stated, "{ticket} is read back as {stated:?} and was {was:?}");
        }
        for (ticket, line) in lines.entries {
            let entry = self.entries.get_mut(&ticket).unwrap();
            *entry = Entry { earliest: entry.earliest, stale: entry.stale, corrected: entry.corrected, told: entry.told, ..line };
            self.tried.jobs_reread += 1;
        }
        self.tried.rereads += 1;
        Ok(())
    }

    /// A Loose Desk becomes a Promise Desk. Document 02, No. 12: "A list of demand 3 ends with the change. Another starts from the new
    /// desk, whose stacks count as it has them; these promises are kept there in the same way." The earliest starts that were given, and
    /// who was withdrawn, still count.
    pub fn migrate(&mut self, desk: &Model) -> Result<(), String> {
        let lines = Book::of_lines(desk)?;
        claim!((self.kind, lines.kind) == (Kind::Loose, Kind::Promise), "a {:?} desk becomes a {:?} desk", self.kind, lines.kind);
        let settings = |book: &Book| (book.nodes, book.cleanup, book.places, book.clock);
        claim!(settings(self) == settings(&lines), "{:?} becomes {:?}", settings(self), settings(&lines));
        self.has_lines(&lines)?;
        self.becomes(&lines)?;
        for (ticket, line) in lines.entries {
            let entry = self.entries.get_mut(&ticket).unwrap();
            *entry = Entry { earliest: entry.earliest, stale: entry.stale, told: Told::Change, ..line };
        }
        (self.kind, self.longest) = (lines.kind, None);
        self.tried.changes += 1;
        Ok(())
    }

    /// "Running and clearing stacks keep starts, now their promises, and ends; waiting ones [...] receive promises then. [...] The head's
    /// promise is no later than its forecast, and every promise of a waiting stack lies within the bound it had on the Loose Desk." The
    /// head's is the shadow, and each later one's at most 10,080 and the clearing more than that of the one before may be.
    fn becomes(&mut self, lines: &Book) -> Result<(), String> {
        let (mut tried, mut due) = (self.tried, None);
        for (ticket, entry) in self.live() {
            let line = &lines.entries[ticket];
            let (was, is) = (entry.standing(), line.standing());
            claim!(was == is, "{ticket} was {was:?} and is {is:?}");
            match entry.fate {
                Fate::Running(start) => claim!(line.promise == start, "{ticket} runs since {start} and is promised {}", line.promise),
                Fate::Waiting => {
                    let promise = line.promise;
                    for (what, minute) in entry.deadlines(Kind::Loose) {
                        claim!(promise <= minute, "{ticket} is promised {promise}, after its {what} {minute}");
                    }
                    let latest = due.unwrap_or_else(|| self.shadow(entry.nodes));
                    claim!(due.is_some() || promise == latest, "head {ticket} is promised {promise}, and the shadow is {latest}");
                    claim!(promise <= latest, "{ticket} is promised {promise}, after {latest}");
                    tried.promised += 1;
                    tried.heads_promised_less += u64::from(entry.forecast.is_some_and(|minute| promise < minute));
                    tried.promised_the_bound += u64::from(promise == entry.bound);
                    due = Some(latest + LONGEST_ESTIMATE + self.cleanup);
                }
                Fate::Ended(_) | Fate::Withdrawn(_) => {}
            }
        }
        self.tried = tried;
        Ok(())
    }

    /// The smallest minute, now or later, at which so many nodes are free if nobody starts.
    fn shadow(&self, nodes: u32) -> u32 {
        let ends = || self.entries.values().filter_map(|e| Some((self.freed(e)?, e.nodes)));
        let taken = |minute| ends().filter(|(end, _)| *end > minute).map(|(_, nodes)| nodes).sum::<u32>();
        let minutes = ends().map(|(end, _)| end).chain([self.clock]).filter(|minute| *minute >= self.clock);
        minutes.filter(|minute| taken(*minute) + nodes <= self.nodes).min().expect("all nodes are free in the end")
    }

    /// The minute from which the nodes of a job that has started are free again.
    fn freed(&self, entry: &Entry) -> Option<u32> {
        match entry.fate {
            Fate::Running(start) => Some(start + entry.hold + self.cleanup),
            Fate::Ended(minute) => Some(minute + self.cleanup),
            Fate::Waiting | Fate::Withdrawn(_) => None,
        }
    }

    /// A desk has a line for each job that is live, and for no other.
    fn has_lines(&self, lines: &Book) -> Result<(), String> {
        for (ticket, _) in self.live() {
            claim!(lines.entries.contains_key(ticket), "{ticket} is live and has no line");
        }
        for ticket in lines.entries.keys() {
            claim!(self.live().any(|(live, _)| live == ticket), "{ticket} has a line and is not live");
        }
        Ok(())
    }

    fn live(&self) -> impl Iterator<Item = (&u32, &Entry)> {
        self.entries.iter().filter(|(_, e)| e.is_live(self.clock, self.cleanup))
    }

    fn waiting(&self) -> impl Iterator<Item = (&u32, &Entry)> {
        self.entries.iter().filter(|(_, e)| e.fate == Fate::Waiting)
    }

    pub fn enter(&mut self, call: &Call, answer: &Answer) -> Result<(), String> {
        let (ended, started) = (answer.ended.as_slice(), answer.started.as_slice());
        match call {
            Call::Submit(order) => self.as_asked(order, answer)?,
            Call::Amend(amendment) => self.judged(amendment, answer)?,
            Call::Complete { .. } | Call::Cancel { .. } | Call::Tick => {}
        }
        if !answer.is_taken() {
            claim!(
                ended.is_empty() && started.is_empty() && answer.ticket == 0 && answer.head == 0 && answer.reads == 0,
                "a refusal gives more than its number"
            );
            return Ok(());
        }
        if let Call::Amend(amendment) = call {
            if answer.ticket != amendment.ticket {
                return self.taken_anew(amendment, answer);
            }
        }
        self.longest = None;
        self.reads(call, answer)?;
        match *call {
            Call::Submit(Order { nodes, estimate, tenant: house, least }) => {
                claim!(HOUSES.contains(&house), "a job of {house} is taken in");
                claim!(least <= estimate, "a job of {least} to {estimate} minutes is taken in");
                let bound = bound(self.clock, self.waiting().count() as u32 + 1, self.cleanup);
                let (promise, hold, fate, told) = (answer.promise, held(estimate), Fate::Waiting, Told::Answers);
                let (forecast, earliest, stale, corrected) = (None, None, None, false);
                let entry = Entry { nodes, house, promise, bound, forecast, fate, least, hold, earliest, stale, corrected, told };
                claim!(self.entries.insert(answer.ticket, entry).is_none(), "ticket {} is given twice", answer.ticket);
            }
            Call::Tick => self.clock += 1,
            Call::Complete { ticket } => claim!(*ended == [ticket], "an early end of {ticket} ends {ended:?}"),
            Call::Cancel { ticket } => {
                claim!(ended.is_empty(), "a withdrawal ends {ended:?}");
                self.withdraw(ticket)?;
            }
            Call::Amend(amendment) => {
                claim!(ended.is_empty(), "a correction ends {ended:?}");
                self.supersede(&amendment, answer)?;
            }
        }
        claim!(ended.windows(2).all(|w| w[0] < w[1]), "tickets ended do not ascend");
        for ticket in ended {
            let entry = self.entries.get_mut(ticket).ok_or("a ticket ends that was never given, or is over")?;
            let Fate::Running(start) = entry.fate else {
                return Err(format!("{ticket} ends and does not run"));
            };
            if let Call::Tick = call {
                claim!(start + entry.hold == self.clock, "{ticket} ends at another minute than its start + wall time");
            } else if entry.least > 0 {
                self.tried.leasts += 1;
                self.tried.ends_at_the_least += u64::from(self.clock == start + entry.least);
            }
            claim!(self.clock >= start + entry.least, "{ticket} ends before its start {start} + its least {}", entry.least);
            entry.fate = Fate::Ended(self.clock);
        }
        claim!(self.kind == Kind::Loose || started.windows(2).all(|w| w[0] < w[1]), "tickets started do not ascend");
        for ticket in started {
            let entry = self.entries.get_mut(ticket).ok_or("a ticket starts that was never given, or is over")?;
            claim!(entry.fate == Fate::Waiting, "{ticket} starts and does not wait: {:?}", entry.fate);
            entry.fate = Fate::Running(self.clock);
            for (what, minute) in entry.deadlines(self.kind) {
                claim!(self.clock <= minute, "{ticket} starts after its {what} {minute}");
            }
            match self.kind {
                Kind::Promise => self.tried.promises += 1,
                Kind::Loose => self.tried.bounds += 1,
            }
            self.tried.forecasts += u64::from(entry.forecast.is_some());
            match entry.told {
                Told::Answers => {}
                Told::Lines => {
                    self.tried.promises_of_lines += u64::from(self.kind == Kind::Promise);
                    self.tried.bounds_of_lines += u64::from(self.kind == Kind::Loose);
                    self.tried.forecasts_of_lines += u64::from(entry.forecast.is_some());
                }
                Told::Change => self.tried.promises_of_changes += 1,
            }
            if entry.corrected {
                self.tried.promises_of_corrected += u64::from(self.kind == Kind::Promise);
                self.tried.bounds_of_corrected += u64::from(self.kind == Kind::Loose);
                self.tried.forecasts_of_corrected += u64::from(entry.forecast.is_some());
                self.tried.starts_before_the_stale += u64::from(entry.stale.is_some_and(|minute| self.clock < minute));
            }
            if let Some((earliest, given)) = entry.earliest {
                claim!(self.clock >= earliest, "{ticket} starts before its earliest start {earliest}");
                self.tried.earliest_kept += 1;
                self.tried.starts_at_the_earliest += u64::from(given < earliest && earliest == self.clock);
            }
        }
        self.forecast(answer)?;
        self.holds()?;
        // What has ended and holds no nodes is settled. Who was withdrawn is kept: such a job never starts.
        let (clock, cleanup) = (self.clock, self.cleanup);
        self.entries.retain(|_, e| !matches!(e.fate, Fate::Ended(minute) if clock - minute >= cleanup));
        Ok(())
    }

    /// What holds after every call, and of a desk read back.
    fn holds(&mut self) -> Result<(), String> {
        self.heads()?;
        self.overdue()?;
        self.capacity()?;
        self.shares()
    }

    /// The machine has the nodes of all jobs that run, and of those that have ended for fewer than the minutes of cleanup.
    fn capacity(&mut self) -> Result<(), String> {
        let nodes = |holds: &dyn Fn(Fate) -> bool| self.entries.values().filter(|e| holds(e.fate)).map(|e| e.nodes).sum::<u32>();
        let running = nodes(&|fate| matches!(fate, Fate::Running(_)));
        let ended = nodes(&|fate| matches!(fate, Fate::Ended(minute) if self.clock - minute < self.cleanup));
        claim!(running + ended <= self.nodes, "{running} nodes run and {ended} are in cleanup, of {}", self.nodes);
        self.tried.sums += 1;
        self.tried.sums_in_cleanup += u64::from(ended > 0);
        self.tried.full_in_cleanup += u64::from(ended > 0 && running + ended == self.nodes);
        Ok(())
    }

    /// "No house ever has more live than its places": those that wait, that run, and that have ended for fewer than the minutes of cleanup.
    fn shares(&mut self) -> Result<(), String> {
        for (house, places) in HOUSES.into_iter().zip(self.places) {
            let jobs = |test: &dyn Fn(Fate) -> bool| self.entries.values().filter(|e| e.house == house && test(e.fate)).count() as u32;
            let ended = jobs(&|fate| matches!(fate, Fate::Ended(minute) if self.clock - minute < self.cleanup));
            let live = ended + jobs(&|fate| matches!(fate, Fate::Waiting | Fate::Running(_)));
            claim!(live <= places, "{live} jobs of {} are live, of {places}", char::from(house as u8));
            self.tried.houses_full += u64::from(live == places);
            self.tried.houses_full_in_cleanup += u64::from(live == places && ended > 0);
        }
        Ok(())
    }

    /// Only a job that waits is withdrawn, and before the minutes that it was told: these were not yet due.
    fn withdraw(&mut self, ticket: u32) -> Result<(), String> {
        let entry = self.entries.get_mut(&ticket).ok_or("a ticket is withdrawn that was never given, or is over")?;
        claim!(entry.fate == Fate::Waiting, "{ticket} is withdrawn and does not wait: {:?}", entry.fate);
        for (what, minute) in entry.deadlines(self.kind) {
            claim!(self.clock < minute, "{ticket} is withdrawn at its {what} {minute}");
        }
        entry.fate = Fate::Withdrawn(self.clock);
        self.tried.withdrawn += 1;
        self.tried.withdrawn_of_lines += u64::from(entry.told == Told::Lines);
        self.tried.withdrawn_of_changes += u64::from(entry.told == Told::Change);
        Ok(())
    }

    /// "Checks: 11 for the named ticket, then 1, 2 and 19, and if either grows the rest of intake's", of which 5 and 6 are left: its place is
    /// its own.
    fn judged(&self, amendment: &Amendment, answer: &Answer) -> Result<(), String> {
        let Amendment { ticket, nodes, estimate, least } = *amendment;
        let entry = self.entries.get(&ticket).filter(|e| e.fate == Fate::Waiting);
        let own = match entry {
            None => 11,
            Some(_) if !(1..=self.nodes).contains(&nodes) => 1,
            Some(_) if !(1..=LONGEST_ESTIMATE).contains(&estimate) => 2,
            Some(_) if least > estimate => 19,
            Some(entry) if entry.grows(amendment) && [5, 6].contains(&answer.refusal) => answer.refusal,
            Some(_) => 0,
        };
        claim!(answer.refusal == own, "a correction of {ticket} is refused by {}, and not by {own}", answer.refusal);
        Ok(())
    }

    /// "If neither nodes nor held time grow, it supersedes that record in place and keeps its promise, or on the Loose Desk its intake minute,
    /// r and forecast. [...] its soonest minute counts afresh." So its bound stays; "its nodes those last asked for it in a call not
    /// refused".
    fn supersede(&mut self, amendment: &Amendment, answer: &Answer) -> Result<(), String> {
        let Amendment { ticket, nodes, estimate, least } = *amendment;
        let entry = self.entries.get_mut(&ticket).expect("a job that waits");
        claim!(!entry.grows(amendment), "{ticket} grows to {nodes} nodes and {estimate} minutes, and keeps its ticket");
        let kept = if self.kind == Kind::Promise { entry.promise } else { 0 };
        claim!(answer.promise == kept, "{ticket} is corrected, promised {}, and keeps {kept}", answer.promise);
        let stale = entry.stale.max(entry.earliest.map(|(minute, _)| minute));
        *entry = Entry { nodes, least, hold: held(estimate), earliest: None, stale, corrected: true, ..*entry };
        self.tried.corrected_in_place += 1;
        self.tried.corrected_of_lines += u64::from(entry.told == Told::Lines);
        self.tried.corrected_of_changes += u64::from(entry.told == Told::Change);
        Ok(())
    }

    /// "If either grows, the old ticket is withdrawn and the order is taken in last with a new ticket": it counts as these two calls. Whoever
    /// starts or becomes head, and is not the new ticket, does so by the withdrawal.
    fn taken_anew(&mut self, amendment: &Amendment, answer: &Answer) -> Result<(), String> {
        let Amendment { ticket, nodes, estimate, least } = *amendment;
        let entry = self.entries[&ticket];
        claim!(entry.grows(amendment), "{ticket} does not grow, and gets the ticket {}", answer.ticket);
        let ended = answer.ended.as_slice();
        claim!(ended.is_empty(), "a correction ends {ended:?}");
        let started = answer.started.as_slice();
        let others = started.strip_suffix(&[answer.ticket]).unwrap_or(started);
        claim!(!others.contains(&answer.ticket), "{} starts, and then others: {started:?}", answer.ticket);
        let own_head = answer.head == answer.ticket;
        let head = |own| if own == own_head { (answer.head, answer.forecast) } else { (0, 0) };
        let of = |tickets: &[u32], (head, forecast)| Answer { started: listed(tickets), head, forecast, ..*answer };
        let withdrawal = Answer { ticket: 0, promise: 0, reads: 0, ..of(others, head(false)) };
        let submission = of(&started[others.len()..], head(true));
        self.enter(&Call::Cancel { ticket }, &withdrawal)?;
        self.enter(&Call::Submit(Order { nodes, estimate, tenant: entry.house, least }), &submission)?;
        self.tried.corrected_anew += 1;
        self.tried.corrected_of_lines += u64::from(entry.told == Told::Lines);
        self.tried.corrected_of_changes += u64::from(entry.told == Told::Change);
        Ok(())
    }

    /// Of every job that waits and of no other an earliest start is given, now or later, and no later than by when it starts. While it
    /// waits, and its order is not corrected, that never falls.
    pub fn earliest_start(&mut self, ticket: u32, answer: Earliest) -> Result<(), String> {
        let Earliest { refusal, minute } = answer;
        let waiting = self.entries.get_mut(&ticket).filter(|e| e.fate == Fate::Waiting);
        if refusal != 0 {
            claim!(minute == 0, "a refusal gives more than its number");
            claim!(waiting.is_none(), "{ticket} waits and its earliest start is refused");
            return Ok(());
        }
        let entry = waiting.ok_or_else(|| format!("{ticket} has an earliest start and does not wait"))?;
        claim!(minute >= self.clock, "the earliest start {minute} of {ticket} is past");
        for (what, deadline) in entry.deadlines(self.kind) {
            claim!(minute <= deadline, "the earliest start {minute} of {ticket} is after its {what} {deadline}");
        }
        let before = entry.earliest.map_or(0, |(earliest, _)| earliest);
        claim!(minute >= before, "the earliest start {minute} of {ticket} was {before}");
        if entry.earliest.is_none() || minute > before {
            self.tried.earliest_risen += u64::from(entry.earliest.is_some());
            self.tried.earliest_afresh += u64::from(entry.earliest.is_none() && entry.stale.is_some_and(|stale| minute < stale));
            entry.earliest = Some((minute, self.clock));
        }
        self.tried.earliest_given += 1;
        Ok(())
    }

    /// How long may a job be: of a Promise Desk an estimate that can be asked for, or none; "21, the wanted minute is before the clock".
    pub fn longest_estimate(&mut self, asked: Inquiry, answer: Longest) -> Result<(), String> {
        let Longest { refusal, estimate } = answer;
        if self.kind == Kind::Loose {
            claim!(refusal == 0 && estimate == 0, "a Loose Desk says how long a job may be");
            return Ok(());
        }
        claim!(refusal == 0 || estimate == 0, "a refusal gives more than its number");
        let past = asked.minute < self.clock;
        claim!(past == (refusal == 21), "asked for {} at {}, refused by {refusal}", asked.minute, self.clock);
        claim!(estimate <= LONGEST_ESTIMATE, "a job may be {estimate} minutes long");
        self.longest = Some((asked, answer));
        Ok(())
    }

    /// A submission of the nodes and the house that were asked for, with nothing changed since: it is promised that minute or an earlier one
    /// up to the estimate given and not above it, and where the question was refused, it is refused by that number.
    fn as_asked(&mut self, order: &Order, answer: &Answer) -> Result<(), String> {
        let Order { nodes, estimate, tenant, least } = *order;
        let judged = (1..=LONGEST_ESTIMATE).contains(&estimate) && least <= estimate;
        match self.longest {
            Some((asked, longest)) if judged && (asked.nodes, asked.tenant) == (nodes, tenant) => match longest.refusal {
                0 => {
                    let (by_then, within) = (answer.is_taken() && answer.promise <= asked.minute, estimate <= longest.estimate);
                    claim!(by_then || !within, "{estimate} minutes do not start by {}, and {} may", asked.minute, longest.estimate);
                    claim!(within || !by_then, "{estimate} minutes start by {}, and {} was the longest", asked.minute, longest.estimate);
                    self.tried.within_longest += u64::from(within);
                    self.tried.above_longest += u64::from(!within);
                }
                21 => {}
                refusal => {
                    claim!(answer.refusal == refusal, "{estimate} minutes: {}, and the question was refused by {refusal}", answer.refusal);
                    self.tried.refused_alike += 1;
                }
            },
            _ => {}
        }
        Ok(())
    }

    /// A profile has no more points: one for now, one for each job whose nodes are taken now, and two for each that waits.
    fn most_points(&self) -> usize {
        let points = |fate| match fate {
            Fate::Waiting => 2,
            Fate::Running(_) => 1,
            Fate::Ended(minute) => usize::from(self.clock - minute < self.cleanup),
            Fate::Withdrawn(_) => 0,
        };
        1 + self.entries.values().map(|e| points(e.fate)).sum::<usize>()
    }

    /// Before a call is entered: only a submission to a Promise Desk reads points, and no point twice.
    fn reads(&mut self, call: &Call, answer: &Answer) -> Result<(), String> {
        let reads = answer.reads as usize;
        let searches = self.kind == Kind::Promise && matches!(call, Call::Submit(_));
        claim!(searches || reads == 0, "{reads} points are read and nothing is searched");
        let most = self.most_points();
        claim!(reads <= most, "{reads} points are read, of at most {most}");
        self.tried.reads += u64::from(reads > 0);
        Ok(())
    }

    /// What a desk gives as its points and as their index, neither refused: "the index always agrees with the profile after any call".
    pub fn index(&mut self, points: &[Point], blocks: &[Block]) -> Result<(), String> {
        if self.kind == Kind::Loose {
            claim!(points.is_empty() && blocks.is_empty(), "a Loose Desk has points or blocks");
            return Ok(());
        }
        let most = self.most_points();
        claim!((1..=most).contains(&points.len()), "{} points, of at most {most}", points.len());
        let parts = points.chunks(BLOCK_POINTS);
        claim!(blocks.len() == parts.len(), "{} blocks of {} points", blocks.len(), points.len());
        for (part, block) in parts.zip(blocks) {
            let Block { fewest, most } = *block;
            claim!(fewest <= most && most <= self.nodes, "{fewest} and {most} nodes are free, of {}", self.nodes);
            let within = part.iter().all(|p| fewest <= p.free && p.free <= most);
            let met = |nodes| part.iter().any(|p| p.free == nodes);
            claim!(within && met(fewest) && met(most), "{fewest} and {most} nodes are free in {part:?}");
        }
        self.tried.indexes += 1;
        self.tried.blocks += blocks.len() as u64;
        Ok(())
    }

    /// Why jobs of a Promise Desk wait: each has a finding, of a minute now or later and before its promise, in which jobs that are live hold
    /// the nodes that they asked for. Of a job that has started it is known until when it does.
    pub fn why(&mut self, found: &[Finding]) -> Result<(), String> {
        let waiting: Vec<u32> = self.waiting().filter(|_| self.kind == Kind::Promise).map(|(ticket, _)| *ticket).collect();
        let tickets: Vec<u32> = found.iter().map(|f| f.ticket).collect();
        claim!(tickets == waiting, "{waiting:?} wait, and it is said why {tickets:?} do");
        for Finding { ticket, minute, holders } in found {
            let promise = self.entries[ticket].promise;
            claim!((self.clock..promise).contains(minute), "{ticket} waits in minute {minute}, from {} to {promise}", self.clock);
            for (other, nodes) in holders {
                let holder = self.live().find(|(live, _)| *live == other);
                claim!(holder.is_some_and(|(_, e)| e.nodes == *nodes), "{ticket} waits, {other} with {nodes}");
            }
            for (other, entry) in self.live() {
                let stands = holders.iter().any(|(holder, _)| holder == other);
                let until = self.freed(entry);
                claim!(until.is_none_or(|end| stands == (*minute < end)), "{other} holds nodes until {until:?}: {holders:?} in {minute}");
            }
        }
        self.tried.findings += found.len() as u64;
        Ok(())
    }

    /// Nobody but the head, for the first time, hears a forecast.
    fn forecast(&mut self, answer: &Answer) -> Result<(), String> {
        let head = self.waiting().next().map(|(ticket, _)| *ticket);
        if let Some((ticket, minute)) = answer.new_head() {
            claim!(self.kind == Kind::Loose && head == Some(ticket), "{ticket} hears a forecast and is not head");
            let entry = self.entries.get_mut(&ticket).unwrap();
            claim!(entry.forecast.is_none(), "{ticket} hears a second forecast");
            entry.forecast = Some(minute);
        }
        Ok(())
    }

    /// Every head of a Loose Desk has heard a forecast.
    fn heads(&mut self) -> Result<(), String> {
        let head = self.waiting().next().filter(|_| self.kind == Kind::Loose);
        if let Some((ticket, entry)) = head {
            claim!(entry.forecast.is_some(), "head {ticket} has heard no forecast");
            self.tried.heads += 1;
        }
        Ok(())
    }

    /// Nobody waits whose promise, bound or forecast the clock has reached.
    fn overdue(&self) -> Result<(), String> {
        for (ticket, entry) in self.waiting() {
            for (what, minute) in entry.deadlines(self.kind) {
                claim!(self.clock < minute, "{ticket} waits at its {what} {minute}");
            }
        }
        Ok(())
    }
}

/// Each claim can fail: answers made up to break it, and nothing else, are found out.
pub fn finds_broken_claims() {
    let answer = |ticket, promise, started: &[u32], (head, forecast)| Answer {
        refusal: 0,
        ticket,
        promise,
        reads: 0,
        head,
        forecast,
        ended: listed(&[]),
        started: listed(started),
    };
    let order = Order { nodes: 6, estimate: 20, tenant: HOUSES[0], least: 0 };
    let submit = || Call::Submit(order);
    let cancel = || Call::Cancel { ticket: 1 };
    let nothing = || (Call::Tick, answer(0, 0, &[], (0, 0)));
    let broken_with = |cleanup, kind, calls: Vec<(Call, Answer)>, claim: &str| {
        let mut book = Book::new(kind, 10, cleanup, [63, 1], 0);
        let last = calls.len() - 1;
        for (i, (call, answer)) in calls.iter().enumerate() {
            match book.enter(call, answer) {
                Ok(()) => assert!(i < last, "not found out: {claim}"),
                Err(found) => assert!(i == last && found.contains(claim), "{claim}: {found}"),
            }
        }
    };
    let broken = |kind, calls, claim: &str| broken_with(0, kind, calls, claim);
    let waits = |forecast| (submit(), answer(1, 0, &[], (1, forecast)));
    broken(Kind::Promise, vec![(submit(), answer(1, 1, &[], (0, 0))), nothing()], "waits at its promise");
    broken(Kind::Loose, vec![waits(1), nothing()], "waits at its forecast");
    broken(Kind::Loose, vec![(submit(), answer(1, 0, &[], (0, 0)))], "heard no forecast");
    for cleanup in [0, 7] {
        let years = std::iter::once(waits(20_000)).chain((0..LONGEST_ESTIMATE + cleanup).map(|_| nothing()));
        broken_with(cleanup, Kind::Loose, years.collect(), "waits at its bound");
    }
    broken(
        Kind::Loose,
        vec![(submit(), answer(1, 0, &[1], (0, 0))), (submit(), answer(2, 0, &[2], (0, 0)))],
        "12 nodes run and 0 are in cleanup, of 10",
    );
    broken(Kind::Promise, vec![(submit(), answer(1, 0, &[1], (0, 0))), (submit(), answer(1, 9, &[], (0, 0)))], "given twice");

    let promised = |minute| (submit(), answer(1, minute, &[], (0, 0)));
    let withdrawn = || (cancel(), answer(0, 0, &[], (0, 0)));
    let starts = || (Call::Tick, answer(0, 0, &[1], (0, 0)));
    broken(Kind::Promise, vec![promised(9), withdrawn(), starts()], "1 starts and does not wait: Withdrawn(0)");
    broken(Kind::Promise, vec![promised(9), (cancel(), answer(0, 0, &[1], (0, 0)))], "1 starts and does not wait: Withdrawn(0)");
    broken(Kind::Promise, vec![promised(9), starts(), withdrawn()], "1 is withdrawn and does not wait: Running(1)");
    broken(Kind::Promise, vec![promised(9), withdrawn(), withdrawn()], "1 is withdrawn and does not wait: Withdrawn(0)");
    broken(Kind::Promise, vec![withdrawn()], "withdrawn that was never given");
    let ends = Answer { ended: listed(&[1]), ..answer(0, 0, &[], (0, 0)) };
    broken(Kind::Promise, vec![promised(9), (cancel(), ends)], "a withdrawal ends [1]");
    // A job that waits in the minute it was told is found out there and then; so that its withdrawal is what is wrong, the clock is put there.
    let withdrawn_at = |kind, taken: (Call, Answer), minute, claim: &str| {
        let mut book = Book::new(kind, 10, 0, [63, 1], 0);
        book.enter(&taken.0, &taken.1).unwrap();
        let (call, answer) = withdrawn();
        book.clock = minute;
        let found = book.enter(&call, &answer).expect_err(claim);
        assert!(found.contains(claim), "{claim}: {found}");
    };
    withdrawn_at(Kind::Promise, promised(9), 9, "withdrawn at its promise 9");
    withdrawn_at(Kind::Loose, waits(9), 9, "withdrawn at its forecast 9");
    withdrawn_at(Kind::Loose, waits(20_000), LONGEST_ESTIMATE, "withdrawn at its bound 10080");

    // Job 1 ends in the minute of its start, and its 6 nodes are taken for 5 minutes more: job 2 starts one minute too early, and in time.
    let ended = || (Call::Complete { ticket: 1 }, Answer { ended: listed(&[1]), ..answer(0, 0, &[], (0, 0)) });
    let both = |minutes: usize| {
        let mut calls = vec![(submit(), answer(1, 0, &[1], (0, 0))), ended()];
        calls.extend((0..minutes).map(|_| nothing()));
        calls.push((submit(), answer(2, 9, &[2], (0, 0))));
        calls
    };
    broken_with(5, Kind::Promise, both(0), "6 nodes run and 6 are in cleanup, of 10");
    broken_with(5, Kind::Promise, both(4), "6 nodes run and 6 are in cleanup, of 10");
    let mut book = Book::new(Kind::Promise, 10, 5, [63, 1], 0);
    both(5).iter().for_each(|(call, answer)| book.enter(call, answer).unwrap());
    broken_with(5, Kind::Promise, vec![(submit(), answer(1, 0, &[1], (0, 0))), ended(), ended()], "1 ends and does not run");

    // B has one place: a second job of its comes while the first waits, runs, or has ended for 4 minutes of 5, and in time; A's take none.
    let of = |house, ticket, started: &[u32]| {
        let one = Order { nodes: 1, tenant: house, ..order };
        (Call::Submit(one), answer(ticket, 9, started, (0, 0)))
    };
    let (a, b) = (|ticket| of(HOUSES[0], ticket, &[]), |ticket, started: &[u32]| of(HOUSES[1], ticket, started));
    let two = "2 jobs of B are live, of 1";
    broken(Kind::Promise, vec![b(1, &[]), a(2), b(3, &[])], two);
    broken(Kind::Promise, vec![b(1, &[1]), a(2), b(3, &[])], two);
    let after = |minutes: usize| {
        let mut calls = vec![b(1, &[1]), a(2), ended()];
        calls.extend((0..minutes).map(|_| nothing()));
        calls.push(b(3, &[]));
        calls
    };
    broken_with(5, Kind::Promise, after(0), two);
    broken_with(5, Kind::Promise, after(4), two);
    let mut book = Book::new(Kind::Promise, 10, 5, [63, 1], 0);
    after(5).iter().for_each(|(call, answer)| book.enter(call, answer).unwrap());
    let mut book = Book::new(Kind::Promise, 10, 0, [63, 1], 0);
    [b(1, &[]), withdrawn(), b(2, &[])].iter().for_each(|(call, answer)| book.enter(call, answer).unwrap());
    broken(Kind::Promise, (1..=64).map(a).collect(), "64 jobs of A are live, of 63");
    broken(Kind::Promise, vec![of(67, 1, &[])], "a job of 67 is taken in");

    // Job 1 runs from 7 to 20 minutes: it ends one minute too early, and in time.
    let from = |least| (Call::Submit(Order { least, ..order }), answer(1, 0, &[1], (0, 0)));
    let early = |minutes: usize| {
        let passed = std::iter::repeat_with(nothing).take(minutes);
        std::iter::once(from(7)).chain(passed).chain(std::iter::once(ended())).collect::<Vec<_>>()
    };
    for kind in [Kind::Promise, Kind::Loose] {
        broken(kind, early(0), "1 ends before its start 0 + its least 7");
        broken(kind, early(6), "1 ends before its start 0 + its least 7");
        let mut book = Book::new(kind, 10, 0, [63, 1], 0);
        early(7).iter().for_each(|(call, answer)| book.enter(call, answer).unwrap());
    }
    broken(Kind::Promise, vec![from(21)], "a job of 21 to 20 minutes is taken in");

    // Job 1 waits and is to start by 9. It starts one minute before the earliest start given of it, and in that minute.
    let waiting = |kind| {
        let mut book = Book::new(kind, 10, 0, [63, 1], 0);
        let (call, answer) = if kind == Kind::Promise { promised(9) } else { waits(9) };
        book.enter(&call, &answer).unwrap();
        book
    };
    let given = |minute| Earliest { refusal: 0, minute };
    let refused = Earliest { refusal: 11, minute: 0 };
    let started_after = |kind, minutes: usize, earliest| {
        let mut book = waiting(kind);
        book.earliest_start(1, given(earliest)).unwrap();
        for (call, answer) in std::iter::repeat_with(nothing).take(minutes - 1) {
            book.enter(&call, &answer).unwrap();
        }
        let (call, answer) = starts();
        book.enter(&call, &answer).map(|()| book)
    };
    let finds = |found: Result<(), String>, claim: &str| {
        let found = found.expect_err(claim);
        assert!(found.contains(claim), "{claim}: {found}");
    };
    for kind in [Kind::Promise, Kind::Loose] {
        finds(started_after(kind, 1, 6).map(|_| ()), "1 starts before its earliest start 6");
        finds(started_after(kind, 5, 6).map(|_| ()), "1 starts before its earliest start 6");
        let mut book = started_after(kind, 6, 6).unwrap();
        assert_eq!(book.tried.starts_at_the_earliest, 1);
        book.earliest_start(1, refused).unwrap();
        finds(book.earliest_start(1, given(6)), "1 has an earliest start and does not wait");
        finds(book.earliest_start(2, given(6)), "2 has an earliest start and does not wait");
        finds(book.earliest_start(1, Earliest { refusal: 11, minute: 6 }), "a refusal gives more than its number");
        finds(waiting(kind).earliest_start(1, refused), "1 waits and its earliest start is refused");
        let mut book = waiting(kind);
        book.earliest_start(1, given(3)).unwrap();
        book.earliest_start(1, given(3)).unwrap();
        book.earliest_start(1, given(9)).unwrap();
        finds(book.earliest_start(1, given(8)), "the earliest start 8 of 1 was 9");
        let (call, answer) = nothing();
        let mut book = waiting(kind);
        book.enter(&call, &answer).unwrap();
        finds(book.earliest_start(1, given(0)), "the earliest start 0 of 1 is past");
    }
    finds(waiting(Kind::Promise).earliest_start(1, given(10)), "the earliest start 10 of 1 is after its promise 9");
    finds(waiting(Kind::Loose).earliest_start(1, given(10)), "the earliest start 10 of 1 is after its forecast 9");

    // Job 2 is submitted after it was asked how long it may be and still start by minute 5. At 6 or later it does not.
    let asked = |minute| Inquiry { nodes: order.nodes, tenant: order.tenant, minute };
    let may = |estimate| Longest { refusal: 0, estimate };
    let not = |refusal| Longest { refusal, estimate: 0 };
    let next = |estimate, least, promise| (Call::Submit(Order { estimate, least, ..order }), answer(2, promise, &[], (0, 0)));
    let turned_away = |estimate, refusal| (Call::Submit(Order { estimate, ..order }), Answer { refusal, ..answer(0, 0, &[], (0, 0)) });
    let after = |longest, calls: Vec<(Call, Answer)>| {
        let mut book = waiting(Kind::Promise);
        book.longest_estimate(asked(5), longest).unwrap();
        calls.iter().try_for_each(|(call, answer)| book.enter(call, answer)).map(|()| book.tried)
    };
    let found = |longest, calls, claim: &str| finds(after(longest, calls).map(|_| ()), claim);
    assert_eq!(after(may(20), vec![next(20, 0, 5)]).unwrap().within_longest, 1);
    assert_eq!(after(may(20), vec![next(1, 1, 3)]).unwrap().within_longest, 1);
    assert_eq!(after(may(20), vec![next(21, 0, 6)]).unwrap().above_longest, 1);
    assert_eq!(after(may(20), vec![turned_away(21, 6)]).unwrap().above_longest, 1);
    assert_eq!(after(may(0), vec![next(1, 0, 6)]).unwrap().above_longest, 1);
    assert_eq!(after(not(15), vec![turned_away(1, 15)]).unwrap().refused_alike, 1);
    found(may(20), vec![next(20, 0, 6)], "20 minutes do not start by 5, and 20 may");
    found(may(20), vec![next(1, 0, 6)], "1 minutes do not start by 5, and 20 may");
    found(may(20), vec![turned_away(20, 6)], "20 minutes do not start by 5, and 20 may");
    found(may(20), vec![next(21, 0, 5)], "21 minutes start by 5, and 20 was the longest");
    found(may(0), vec![next(1, 0, 5)], "1 minutes start by 5, and 0 was the longest");
    found(not(15), vec![next(1, 0, 5)], "1 minutes: 0, and the question was refused by 15");
    found(not(15), vec![turned_away(1, 5)], "1 minutes: 5, and the question was refused by 15");
    // Refused calls change nothing; once one is taken, or of other nodes or another house, nothing is said.
    found(may(20), vec![turned_away(0, 2), turned_away(20, 6)], "20 minutes do not start by 5, and 20 may");
    assert_eq!(after(may(20), vec![nothing(), turned_away(20, 6)]).unwrap().within_longest, 0);
    for other in [Order { nodes: 5, ..order }, Order { tenant: HOUSES[1], ..order }, Order { least: 21, ..order }] {
        let (call, refused) = (Call::Submit(other), turned_away(20, 6).1);
        assert_eq!(after(may(20), vec![(call, refused)]).unwrap().within_longest, 0);
    }
    finds(waiting(Kind::Promise).longest_estimate(asked(5), may(10_081)), "a job may be 10081 minutes long");
    finds(waiting(Kind::Promise).longest_estimate(asked(5), Longest { refusal: 1, estimate: 5 }), "a refusal gives more than its number");
    finds(waiting(Kind::Promise).longest_estimate(asked(0), not(21)), "asked for 0 at 0, refused by 21");
    let mut book = waiting(Kind::Promise);
    let (call, passed) = nothing();
    book.enter(&call, &passed).unwrap();
    finds(book.longest_estimate(asked(0), may(5)), "asked for 0 at 1, refused by 0");
    finds(book.longest_estimate(asked(0), not(14)), "asked for 0 at 1, refused by 14");
    book.longest_estimate(asked(0), not(21)).unwrap();
    for wrong in [may(5), not(21), not(1)] {
        finds(waiting(Kind::Loose).longest_estimate(asked(5), wrong), "a Loose Desk says how long a job may be");
    }
    waiting(Kind::Loose).longest_estimate(asked(5), may(0)).unwrap();

    // With job 1 waiting there are at most three points: job 2 reads one more than there can be, and as many.
    let reading = |reads, answer: Answer| Answer { reads, ..answer };
    let (second, refused) = (answer(2, 9, &[], (0, 0)), Answer { refusal: 6, ..answer(0, 0, &[], (0, 0)) });
    broken(Kind::Promise, vec![(submit(), reading(2, answer(1, 9, &[], (0, 0))))], "2 points are read, of at most 1");
    broken(Kind::Promise, vec![promised(9), (submit(), reading(4, second))], "4 points are read, of at most 3");
    waiting(Kind::Promise).enter(&submit(), &reading(3, second)).unwrap();
    broken(Kind::Promise, vec![promised(9), (submit(), reading(3, refused))], "a refusal gives more than its number");
    broken(Kind::Promise, vec![promised(9), (Call::Tick, reading(1, nothing().1))], "1 points are read and nothing is searched");
    broken(Kind::Promise, vec![promised(9), (cancel(), reading(1, withdrawn().1))], "1 points are read and nothing is searched");
    broken(Kind::Loose, vec![(submit(), reading(1, waits(9).1))], "1 points are read and nothing is searched");

    // 20 jobs wait: there are up to 41 points, here 17, 3 nodes free at the first and at the last and 5 between, so that the last is alone.
    let mut book = Book::new(Kind::Promise, 10, 0, [63, 1], 0);
    (1..=20).map(a).for_each(|(call, answer)| book.enter(&call, &answer).unwrap());
    let points: Vec<Point> = (0..17).map(|i| Point { minute: 2 * i, free: if i % 16 == 0 { 3 } else { 5 } }).collect();
    let blocks = |given: &[(u32, u32)]| given.iter().map(|(fewest, most)| Block { fewest: *fewest, most: *most }).collect::<Vec<_>>();
    book.index(&points, &blocks(&[(3, 5), (3, 3)])).unwrap();
    for wrong in [[(2, 5), (3, 3)], [(4, 5), (3, 3)], [(3, 4), (3, 3)], [(3, 6), (3, 3)], [(5, 5), (3, 3)], [(3, 5), (3, 5)]] {
        finds(book.index(&points, &blocks(&wrong)), "nodes are free in");
    }
    finds(book.index(&points, &blocks(&[(5, 3), (3, 3)])), "5 and 3 nodes are free, of 10");
    finds(book.index(&points, &blocks(&[(3, 11), (3, 3)])), "3 and 11 nodes are free, of 10");
    finds(book.index(&points, &blocks(&[(3, 5)])), "1 blocks of 17 points");
    finds(book.index(&points[..16], &blocks(&[(3, 5), (3, 3)])), "2 blocks of 16 points");
    finds(book.index(&[], &[]), "0 points, of at most 41");
    finds(waiting(Kind::Promise).index(&points[..4], &blocks(&[(3, 5)])), "4 points, of at most 3");
    waiting(Kind::Loose).index(&[], &[]).unwrap();
    finds(waiting(Kind::Loose).index(&points[..1], &[]), "a Loose Desk has points or blocks");
    finds(waiting(Kind::Loose).index(&[], &blocks(&[(3, 3)])), "a Loose Desk has points or blocks");
}
