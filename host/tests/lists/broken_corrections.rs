//! The claims of corrected orders can fail: answers and desks made up to break one, and nothing else, are found out.

use super::answers::{Answer, Earliest, NOTHING};
use super::book::{listed, Book, Call};
use super::broken_lines::{desk, finds, starts, ticks, LINE};
use super::correction::{self, kept, Given};
use super::numbers;
use crate::common::model::{self, Job, Model, State, HOUSES};
use hingerota_host::{Amendment, Desk, Kind, Numbers, Order};

const CLOCK: u32 = 20_008;
const CLEANUP: u32 = 7;
const UNIT: u32 = 10_080 + CLEANUP;

/// On 10 nodes job 1 runs until 20,025, and its 6 nodes are free again at 20,032. Job 3 waits for 8 nodes and is promised a later minute than
/// it is planned for, and then job 4, which is B's, for 6.
const PROMISE: [Job; 3] = [
    Job { state: State::Running, start: 20_005, promise: 20_005, ..LINE },
    Job { ticket: 3, nodes: 8, least: 5, start: 20_032, promise: 20_040, ..LINE },
    Job { ticket: 4, house: HOUSES[1], start: 20_059, promise: 20_060, ..LINE },
];

/// With 4 nodes job 3 starts, and job 4 can begin when job 1 has left.
const IN_PLACE: [Job; 3] = [
    PROMISE[0],
    Job { nodes: 4, estimate: 18, least: 9, state: State::Running, start: CLOCK, ..PROMISE[1] },
    Job { start: 20_032, ..PROMISE[2] },
];

/// With 9 nodes it is the last.
const ANEW: [Job; 3] = [PROMISE[0], IN_PLACE[2], Job { ticket: 100, nodes: 9, least: 9, start: 20_059, promise: 20_059, ..PROMISE[1] }];

/// The same on a Loose Desk.
const LOOSE: [Job; 3] = [
    Job { state: State::Running, start: 20_005, intake: 20_005, r: 1, ..LINE },
    Job { ticket: 3, nodes: 8, least: 5, intake: 20_006, r: 1, forecast: 20_033, ..LINE },
    Job { ticket: 4, house: HOUSES[1], intake: 20_007, r: 2, ..LINE },
];

const LOOSE_IN_PLACE: [Job; 3] = [
    LOOSE[0],
    Job { nodes: 4, estimate: 18, least: 9, state: State::Running, start: CLOCK, ..LOOSE[1] },
    Job { forecast: 20_032, ..LOOSE[2] },
];

const LOOSE_ANEW: [Job; 3] =
    [LOOSE[0], LOOSE_IN_PLACE[2], Job { ticket: 100, nodes: 9, least: 9, intake: CLOCK, r: 2, forecast: 0, ..LOOSE[1] }];

fn promise(jobs: &[Job]) -> Model {
    desk(Kind::Promise, CLOCK, CLEANUP, jobs)
}

fn loose(jobs: &[Job]) -> Model {
    desk(Kind::Loose, CLOCK, CLEANUP, jobs)
}

fn of(kind: Kind) -> Model {
    match kind {
        Kind::Promise => promise(&PROMISE),
        Kind::Loose => loose(&LOOSE),
    }
}

/// Of job 3: held no longer, by fewer nodes; and as long, by more.
const FEWER: Amendment = Amendment { ticket: 3, nodes: 4, estimate: 18, least: 9 };
const MORE: Amendment = Amendment { ticket: 3, nodes: 9, estimate: 20, least: 9 };

/// What is answered of these.
fn answers(kind: Kind) -> (Answer, Answer) {
    let fewer = Answer { ticket: 3, started: listed(&[3]), ..NOTHING };
    let more = Answer { ticket: 100, ..NOTHING };
    match kind {
        Kind::Promise => (Answer { promise: 20_040, ..fewer }, Answer { promise: 20_059, reads: 3, ..more }),
        Kind::Loose => (Answer { head: 4, forecast: 20_032, ..fewer }, Answer { head: 4, forecast: 20_032, ..more }),
    }
}

fn amends(amendment: Amendment, answer: Answer) -> (Call, Answer) {
    (Call::Amend(amendment), answer)
}

fn play(book: &Book, calls: impl IntoIterator<Item = (Call, Answer)>) -> Result<Book, String> {
    let mut book = book.clone();
    calls.into_iter().try_for_each(|(call, answer)| book.enter(&call, &answer)).map(|()| book)
}

fn begin(kind: Kind) -> Book {
    Book::of_lines(&of(kind)).unwrap()
}

const KINDS: [Kind; 2] = [Kind::Promise, Kind::Loose];

pub fn are_found() {
    refusals();
    in_place();
    asked_last();
    earliest_starts();
    anew();
    records();
    own_calls();
}

/// "Checks: 11 for the named ticket, then 1, 2 and 19, and if either grows the rest of intake's."
fn refusals() {
    for kind in KINDS {
        let refused = |amendment, refusal| play(&begin(kind), [amends(amendment, Answer { refusal, ..NOTHING })]);
        let by = |amendment: Amendment, right: u32| {
            refused(amendment, right).unwrap();
            for wrong in [1, 2, 5, 6, 11, 15, 19].into_iter().filter(|wrong| *wrong != right) {
                finds(refused(amendment, wrong), &format!("is refused by {wrong}, and not by {right}"));
            }
            finds(play(&begin(kind), [amends(amendment, answers(kind).0)]), &format!("is refused by 0, and not by {right}"));
        };
        for ticket in [0, 1, 2, 5, 100] {
            by(Amendment { ticket, nodes: 11, estimate: 0, least: 9 }, 11);
        }
        for nodes in [0, 11, 65_540] {
            by(Amendment { nodes, estimate: 0, ..FEWER }, 1);
        }
        for estimate in [0, 10_081, 65_554] {
            by(Amendment { estimate, least: 70_000, ..FEWER }, 2);
        }
        // The least is compared with the most as it is given, not with the minutes that are held.
        by(Amendment { least: 19, ..FEWER }, 19);
        by(Amendment { least: 21, ..MORE }, 19);
        for refusal in [5, 6] {
            refused(MORE, refusal).unwrap();
            refused(Amendment { estimate: 21, ..FEWER }, refusal).unwrap();
            for in_place in [FEWER, Amendment { nodes: 8, ..FEWER }, Amendment { estimate: 20, ..FEWER }] {
                finds(refused(in_place, refusal), &format!("is refused by {refusal}, and not by 0"));
            }
        }
        for refusal in [11, 1, 2, 19, 15] {
            finds(refused(MORE, refusal), &format!("is refused by {refusal}, and not by 0"));
        }
        let (_, taken) = answers(kind);
        for more in [
            Answer { ticket: 100, ..NOTHING },
            Answer { started: listed(&[4]), ..NOTHING },
            Answer { head: 4, ..NOTHING },
            Answer { reads: 1, ..NOTHING },
            taken,
        ] {
            let refused = play(&begin(kind), [amends(MORE, Answer { refusal: 5, ..more })]);
            finds(refused, "a refusal gives more than its number");
        }
    }
}

fn in_place() {
    for kind in KINDS {
        let (fewer, more) = answers(kind);
        let corrected = |amendment, answer| play(&begin(kind), [amends(amendment, answer)]);
        let tried = corrected(FEWER, fewer).unwrap().tried;
        assert_eq!((tried.corrected_in_place, tried.corrected_anew, tried.corrected_of_lines), (1, 0, 1));
        let kept = if kind == Kind::Promise { (1, 0, 0) } else { (0, 1, 1) };
        assert_eq!((tried.promises_of_corrected, tried.bounds_of_corrected, tried.forecasts_of_corrected), kept);
        finds(corrected(MORE, fewer), "3 grows to 9 nodes and 20 minutes, and keeps its ticket");
        finds(corrected(Amendment { estimate: 21, ..FEWER }, fewer), "3 grows to 4 nodes and 21 minutes, and keeps its ticket");
        for same in [FEWER, Amendment { nodes: 8, estimate: 20, ..FEWER }] {
            finds(corrected(same, more), "3 does not grow, and gets the ticket 100");
        }
        let told = if kind == Kind::Promise { 20_040 } else { 0 };
        for promise in [told + 1, CLOCK, 20_032, 20_033] {
            let wrong = corrected(FEWER, Answer { promise, ..fewer });
            finds(wrong, &format!("3 is corrected, promised {promise}, and keeps {told}"));
        }
        finds(corrected(FEWER, Answer { ended: listed(&[1]), ..fewer }), "a correction ends [1]");
        finds(corrected(FEWER, Answer { reads: 1, ..fewer }), "1 points are read and nothing is searched");
        finds(corrected(FEWER, Answer { started: listed(&[5]), ..fewer }), "a ticket starts that was never given");
        finds(corrected(FEWER, Answer { started: listed(&[1]), ..fewer }), "1 starts and does not wait: Running(20005)");
    }
    let (fewer, _) = answers(Kind::Loose);
    let corrected = |answer| play(&begin(Kind::Loose), [amends(FEWER, answer)]);
    finds(corrected(Answer { head: 0, ..fewer }), "head 4 has heard no forecast");
    finds(corrected(Answer { started: listed(&[]), ..fewer }), "4 hears a forecast and is not head");
    let waits = |head| Answer { started: listed(&[]), head, forecast: 20_032, ..fewer };
    finds(corrected(waits(3)), "3 hears a second forecast");
    corrected(Answer { forecast: 0, ..waits(0) }).unwrap();
    // It waits on, and what it was told binds on.
    let waits_on = |kind, jobs: &[Job], minutes: u32| {
        let book = Book::of_lines(&desk(kind, CLOCK, CLEANUP, jobs)).unwrap();
        let (fewer, _) = answers(kind);
        let ended = (Call::Tick, Answer { ended: listed(&[1]), ..NOTHING });
        let calls = [amends(FEWER, Answer { started: listed(&[]), head: 0, forecast: 0, ..fewer })];
        play(&book, calls.into_iter().chain(ticks(16)).chain([ended]).chain(ticks(minutes - 17)))
    };
    waits_on(Kind::Promise, &PROMISE, 31).unwrap();
    finds(waits_on(Kind::Promise, &PROMISE, 32), "3 waits at its promise 20040");
    waits_on(Kind::Loose, &LOOSE, 24).unwrap();
    finds(waits_on(Kind::Loose, &LOOSE, 25), "3 waits at its forecast 20033");
    let bound = LOOSE.map(|job| if job.ticket == 3 { Job { intake: 20_035 - UNIT, forecast: 50_000, ..job } } else { job });
    waits_on(Kind::Loose, &bound, 26).unwrap();
    finds(waits_on(Kind::Loose, &bound, 27), "3 waits at its bound 20035");
}

/// "its nodes those last asked for it in a call not refused"
fn asked_last() {
    for kind in KINDS {
        let (fewer, _) = answers(kind);
        let starts_with = |nodes| play(&begin(kind), [amends(Amendment { nodes, ..FEWER }, fewer)]);
        let book = starts_with(4).unwrap();
        finds(starts_with(5), "11 nodes run and 0 are in cleanup, of 10");
        // What is refused asks for nothing.
        let refused = amends(Amendment { estimate: 21, ..FEWER }, Answer { refusal: 6, ..NOTHING });
        let begins = (Call::Tick, Answer { ticket: 0, promise: 0, ..fewer });
        finds(play(&begin(kind), [refused, begins]), "14 nodes run and 0 are in cleanup, of 10");
        // It is over at its least as asked, and at the end of the minutes that are held.
        let ended = |call| (call, Answer { ended: listed(&[3]), ..NOTHING });
        let early = |minutes| play(&book, ticks(minutes).chain([ended(Call::Complete { ticket: 3 })]));
        finds(early(8), "3 ends before its start 20008 + its least 9");
        assert_eq!(early(9).unwrap().tried.ends_at_the_least, 1);
        let first = (Call::Tick, Answer { ended: listed(&[1]), ..NOTHING });
        let shorter = Amendment { estimate: 11, ..FEWER };
        let over = |minutes: u32| {
            let calls = [amends(shorter, fewer)].into_iter().chain(ticks(minutes - 1));
            play(&begin(kind), calls.chain([ended(Call::Tick)])).map(|book| play(&book, ticks(1).chain([(Call::Tick, first.1)])).unwrap())
        };
        over(15).unwrap();
        finds(over(14), "3 ends at another minute than its start + wall time");
        finds(over(16), "3 ends at another minute than its start + wall time");
        // So does the line that is read back.
        let line = if kind == Kind::Promise { promise(&IN_PLACE) } else { loose(&LOOSE_IN_PLACE) };
        let reread = |change: &dyn Fn(Job) -> Job| {
            let mut book = book.clone();
            let jobs = line.jobs.iter().map(|job| if job.ticket == 3 { change(*job) } else { *job }).collect();
            book.reread(&Model { jobs, ..line.clone() }).map(|()| book)
        };
        reread(&|job| job).unwrap();
        reread(&|job| Job { estimate: 20, ..job }).unwrap();
        finds(reread(&|job| Job { nodes: 3, ..job }), "3 is read back as");
        finds(reread(&|job| Job { least: 5, ..job }), "3 is read back as");
        finds(reread(&|job| Job { estimate: 21, ..job }), "3 is read back as");
        finds(reread(&|job| Job { house: HOUSES[1], ..job }), "2 jobs of B are live, of 1");
        finds(reread(&|job| Job { promise: job.promise + 1, ..job }), "3 is read back as");
        if kind == Kind::Loose {
            finds(reread(&|job| Job { intake: CLOCK, ..job }), "3 is read back as");
            finds(reread(&|job| Job { r: 2, ..job }), "3 is read back as");
            finds(reread(&|job| Job { forecast: 20_032, ..job }), "3 is read back as");
            finds(reread(&|job| Job { forecast: 0, ..job }), "3 is read back as");
        }
    }
}

/// "its soonest minute counts afresh": its own, and no other's.
fn earliest_starts() {
    for kind in KINDS {
        let (fewer, _) = answers(kind);
        let given = |minute| Earliest { refusal: 0, minute };
        let before = |ticket, minute| {
            let mut book = begin(kind);
            book.earliest_start(ticket, given(minute)).unwrap();
            book
        };
        finds(play(&before(3, 20_020), [starts(3)]), "3 starts before its earliest start 20020");
        let afresh = play(&before(3, 20_020), [amends(FEWER, fewer)]).unwrap();
        assert_eq!((afresh.tried.starts_before_the_stale, afresh.tried.earliest_kept), (1, 0));
        // Job 4, with 4 nodes of its 6, starts by the correction of job 3.
        let other = Amendment { ticket: 4, ..FEWER };
        let (ticket, promise) = if kind == Kind::Promise { (4, 20_060) } else { (4, 0) };
        let other_starts = Answer { ticket, promise, started: listed(&[4]), head: 0, forecast: 0, ..fewer };
        assert_eq!(play(&before(4, 20_020), [amends(other, other_starts)]).unwrap().tried.starts_before_the_stale, 1);
        let waits = Answer { started: listed(&[]), head: 0, forecast: 0, ..fewer };
        let fourth = Answer { started: listed(&[4]), ..waits };
        finds(play(&before(4, 20_020), [amends(FEWER, fourth)]), "4 starts before its earliest start 20020");
        let corrected = |minute| {
            let mut book = play(&before(3, 20_020), [amends(FEWER, waits)]).unwrap();
            book.earliest_start(3, given(minute)).map(|()| book)
        };
        assert_eq!(corrected(20_015).unwrap().tried.earliest_afresh, 1);
        assert_eq!(corrected(20_020).unwrap().tried.earliest_afresh, 0);
        finds(play(&corrected(20_015).unwrap(), [starts(3)]), "3 starts before its earliest start 20015");
        let mut book = corrected(20_015).unwrap();
        finds(book.earliest_start(3, given(20_014)).map(|()| book), "the earliest start 20014 of 3 was 20015");
        let mut book = play(&before(4, 20_020), [amends(FEWER, waits)]).unwrap();
        finds(book.earliest_start(4, given(20_019)).map(|()| book), "the earliest start 20019 of 4 was 20020");
    }
}

/// "the old ticket is withdrawn and the order is taken in last with a new ticket"
fn anew() {
    for kind in KINDS {
        let (_, more) = answers(kind);
        let corrected = |amendment, answer| play(&begin(kind), [amends(amendment, answer)]);
        let book = corrected(MORE, more).unwrap();
        let tried = book.tried;
        assert_eq!((tried.corrected_in_place, tried.corrected_anew, tried.corrected_of_lines, tried.withdrawn), (0, 1, 1, 1));
        finds(play(&book, [starts(3)]), "3 starts and does not wait: Withdrawn(20008)");
        finds(play(&book, [amends(FEWER, answers(kind).0)]), "is refused by 0, and not by 11");
        finds(corrected(MORE, Answer { ticket: 1, ..more }), "ticket 1 is given twice");
        finds(corrected(MORE, Answer { ended: listed(&[1]), ..more }), "a correction ends [1]");
        finds(corrected(MORE, Answer { started: listed(&[3]), ..more }), "3 starts and does not wait: Withdrawn(20008)");
        let many = |reads| Answer { reads, ..more };
        if kind == Kind::Promise {
            // For now, for job 1, and two for job 4: the old order is not there.
            corrected(MORE, many(4)).unwrap();
            finds(corrected(MORE, many(5)), "5 points are read, of at most 4");
        } else {
            finds(corrected(MORE, many(1)), "1 points are read and nothing is searched");
        }
        // With 1 node it starts at once, but after job 4, whose order is 3 nodes here.
        let jobs = of(kind).jobs.into_iter().map(|job| if job.ticket == 4 { Job { nodes: 3, ..job } } else { job });
        let narrow = Book::of_lines(&Model { jobs: jobs.collect(), ..of(kind) }).unwrap();
        let small = Amendment { nodes: 1, estimate: 21, ..MORE };
        let both = |started: &[u32]| {
            play(&narrow, [amends(small, Answer { started: listed(started), promise: CLOCK, head: 0, forecast: 0, ..more })])
        };
        assert_eq!(both(&[4, 100]).unwrap().tried.corrected_anew, 1);
        finds(both(&[100, 4]), "100 starts, and then others: [100, 4]");
        finds(both(&[100, 4, 100]), "100 starts, and then others: [100, 4, 100]");
        // The house is kept: B has one place.
        let fourth = Answer { head: 0, forecast: 0, ..more };
        let book = corrected(Amendment { ticket: 4, ..MORE }, fourth).unwrap();
        let of_b = Order { nodes: 1, estimate: 5, tenant: HOUSES[1], least: 0 };
        let second = (Call::Submit(of_b), Answer { ticket: 101, promise: 50_000, ..NOTHING });
        finds(play(&book, [second]), "2 jobs of B are live, of 1");
    }
    let (_, more) = answers(Kind::Promise);
    let until = |minute: u32| {
        let ended = (Call::Tick, Answer { ended: listed(&[1]), ..NOTHING });
        [amends(MORE, more)].into_iter().chain(ticks(16)).chain([ended]).chain(ticks(minute - 20_025))
    };
    play(&begin(Kind::Promise), until(20_058)).unwrap();
    finds(play(&begin(Kind::Promise), until(20_059)), "100 waits at its promise 20059");
    finds(play(&begin(Kind::Promise), [amends(MORE, Answer { head: 4, forecast: 20_032, ..more })]), "4 hears a forecast and is not head");
    let (_, more) = answers(Kind::Loose);
    let corrected = |answer| play(&begin(Kind::Loose), [amends(MORE, answer)]);
    finds(corrected(Answer { head: 0, forecast: 0, ..more }), "head 4 has heard no forecast");
    finds(corrected(Answer { head: 100, ..more }), "head 4 has heard no forecast");
    // r counts those that wait once the old one is withdrawn.
    let reread = |r| {
        let jobs = LOOSE_ANEW.map(|job| if job.ticket == 100 { Job { r, ..job } } else { job });
        let mut book = corrected(more).unwrap();
        book.reread(&loose(&jobs)).map(|()| book)
    };
    reread(2).unwrap();
    finds(reread(1), "100 is read back as");
    finds(reread(3), "100 is read back as");
}

/// A desk before and after a correction, and what was answered.
fn taken(kind: Kind) -> [(Amendment, Model, Answer); 2] {
    let (fewer, more) = answers(kind);
    match kind {
        Kind::Promise => [(FEWER, promise(&IN_PLACE), fewer), (MORE, Model { next: 101, ..promise(&ANEW) }, more)],
        Kind::Loose => [(FEWER, loose(&LOOSE_IN_PLACE), fewer), (MORE, Model { next: 101, ..loose(&LOOSE_ANEW) }, more)],
    }
}

fn in_numbers(desk: &Model) -> Numbers {
    numbers::of(desk).unwrap()
}

fn records() {
    for kind in KINDS {
        let before = in_numbers(&of(kind));
        for (amendment, right, answer) in taken(kind) {
            let holds = |after: &Model, answer: Answer| kept(&before, &in_numbers(after), &amendment, &answer);
            let wrong = |after: &Model, claim: &str| {
                let found = holds(after, answer).err().unwrap_or_else(|| panic!("not found out: {claim}"));
                assert!(found.contains(claim), "{claim}: {found}");
            };
            holds(&right, answer).unwrap();
            let refused = Answer { refusal: 6, ..NOTHING };
            holds(&of(kind), refused).unwrap();
            assert!(holds(&right, refused).is_err_and(|found| found.contains("a refused correction changes the desk")));
            for another in [
                Model { kind: if kind == Kind::Promise { Kind::Loose } else { Kind::Promise }, ..right.clone() },
                Model { nodes: 11, ..right.clone() },
                Model { cleanup: 8, ..right.clone() },
                Model { places: [62, 2], ..right.clone() },
                Model { clock: CLOCK + 1, ..right.clone() },
                Model { next: right.next + 1, ..right.clone() },
                Model { next: right.next - 1, ..right.clone() },
            ] {
                wrong(&another, "and next ");
            }
            for ticket in [3, 4, 99, 100, 101].into_iter().filter(|ticket| *ticket != answer.ticket) {
                assert!(holds(&right, Answer { ticket, ..answer }).is_err_and(|found| found.contains("and next ")));
            }
            wrong(&Model { jobs: right.jobs[..2].to_vec(), ..right.clone() }, "3 jobs should be live");
            for place in 0..3 {
                let another = |change: &dyn Fn(Job) -> Job, claim: &str| {
                    let mut jobs = right.jobs.clone();
                    jobs[place] = change(jobs[place]);
                    wrong(&Model { jobs, ..right.clone() }, claim);
                };
                let changed = "after a correction, and before it";
                another(&|job| Job { ticket: 50, ..job }, changed);
                another(&|job| Job { nodes: job.nodes + 1, ..job }, changed);
                another(&|job| Job { estimate: job.estimate + 1, ..job }, changed);
                another(&|job| Job { least: job.least + 1, ..job }, changed);
                another(&|job| Job { house: HOUSES[0] + HOUSES[1] - job.house, ..job }, changed);
                another(&|job| Job { promise: job.promise + 1, ..job }, changed);
                another(&|job| Job { end: 1, ..job }, changed);
                another(&|job| Job { intake: job.intake + 1, ..job }, changed);
                another(&|job| Job { r: job.r + 1, ..job }, changed);
                another(&|job| Job { forecast: job.forecast + 1, ..job }, changed);
                another(&|job| Job { state: if job.waits() { State::Running } else { State::Waiting }, ..job }, changed);
                let later = if kind == Kind::Promise && right.jobs[place].waits() { " is planned for " } else { changed };
                another(&|job| Job { start: job.start + 28, ..job }, later);
            }
        }
    }
    // One that is planned earlier may be, and one that waits on is not planned later.
    let before = in_numbers(&promise(&PROMISE));
    let (fewer, _) = answers(Kind::Promise);
    let waits = Answer { started: listed(&[]), ..fewer };
    let planned = |minute| {
        let jobs = [PROMISE[0], Job { state: State::Waiting, start: minute, ..IN_PLACE[1] }, PROMISE[2]];
        kept(&before, &in_numbers(&promise(&jobs)), &FEWER, &waits)
    };
    planned(20_032).unwrap();
    planned(20_031).unwrap();
    assert!(planned(20_033).is_err_and(|found| found.contains("3 is planned for 20033, and was for 20032")));
}

/// As the model has it, whose word is good here.
fn once_more(desk: &Numbers, amendment: &Amendment) -> Given {
    let mut model = numbers::read(desk).map_err(|refusal| format!("refused by {refusal}"))?;
    let model::Answer { refusal, ticket, promise, reads, ended, started, head } = model.amend(*amendment);
    let (head, forecast) = head.unwrap_or((0, 0));
    let answer = Answer { refusal, ticket, promise, reads, head, forecast, ended: listed(&ended), started: listed(&started) };
    Ok((answer, in_numbers(&model)))
}

/// What calls give is compared with what was answered, and with the desk.
fn own_calls() {
    let counted = |before: &Numbers, after: &Numbers, amendment: &Amendment, answer: &Answer| {
        correction::counted(before, after, amendment, answer, once_more)
    };
    for kind in KINDS {
        let before = in_numbers(&of(kind));
        let wrong = |after: &Numbers, amendment: &Amendment, answer: &Answer, claim: &str| {
            let found = counted(&before, after, amendment, answer).err().unwrap_or_else(|| panic!("not found out: {claim}"));
            assert!(found.contains(claim), "{claim}: {found}");
        };
        let mut desk = Desk::from_numbers(before).unwrap();
        let withdrawn = desk.cancel(3).unwrap();
        let submitted = desk.submit(Order { nodes: 9, estimate: 20, tenant: HOUSES[0], least: 9 }).unwrap();
        let (_, more) = answers(kind);
        let both = Answer { reads: submitted.reads, ..more };
        let after = *desk.numbers();
        assert_eq!((withdrawn.head, submitted.promise), (more.head, more.promise));
        counted(&before, &after, &MORE, &both).unwrap();
        wrong(&before, &MORE, &both, "desk after both");
        for answer in [
            Answer { ticket: 101, ..both },
            Answer { promise: both.promise + 1, ..both },
            Answer { reads: both.reads + 1, ..both },
            Answer { head: 100, ..both },
            Answer { forecast: both.forecast + 1, ..both },
            Answer { started: listed(&[4]), ..both },
            Answer { ended: listed(&[3]), ..both },
        ] {
            wrong(&after, &MORE, &answer, "answer of both");
        }
        for refusal in [5, 6] {
            wrong(&before, &MORE, &Answer { refusal, ..NOTHING }, "refusal of the submission");
        }
        let last = in_numbers(&Model { next: 1_000_000, ..of(kind) });
        counted(&last, &last, &MORE, &Answer { refusal: 5, ..NOTHING }).unwrap();
        assert!(counted(&last, &last, &MORE, &Answer { refusal: 6, ..NOTHING }).is_err());
        assert!(counted(&last, &after, &MORE, &both).is_err());
        // In place: sent once more, one that did not move all that could be moved starts somebody, or moves.
        let (fewer, _) = answers(kind);
        let [(_, right, _), _] = taken(kind);
        counted(&before, &in_numbers(&right), &FEWER, &fewer).unwrap();
        let waits = Answer { started: listed(&[]), head: 0, forecast: 0, ..fewer };
        wrong(&in_numbers(&right), &FEWER, &waits, "what is answered once more");
        wrong(&before, &FEWER, &fewer, "refusal of one that runs by now");
    }
    let (fewer, _) = answers(Kind::Promise);
    let unmoved = in_numbers(&promise(&[PROMISE[0], Job { nodes: 4, estimate: 18, least: 9, ..PROMISE[1] }, PROMISE[2]]));
    let waits = Answer { started: listed(&[]), ..fewer };
    let found = counted(&unmoved, &unmoved, &FEWER, &waits).expect_err("not found out: nobody moved");
    assert!(found.contains("what is answered once more"), "{found}");
}
