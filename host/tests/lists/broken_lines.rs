//! The claims of a list that starts from a desk read back, or goes on from its own lines, can fail: answers and lines made up to break one,
//! and nothing else, are found out.

use super::answers::{Answer, NOTHING};
use super::book::{Book, Call};
use crate::common::model::{Job, Model, State, HOUSES};
use hingerota_host::{Kind, Order, Tickets};

/// 6 nodes, for 20 minutes, of A.
pub const LINE: Job = Job {
    ticket: 1,
    nodes: 6,
    estimate: 20,
    state: State::Waiting,
    house: HOUSES[0],
    least: 0,
    start: 0,
    promise: 0,
    end: 0,
    intake: 0,
    r: 0,
    forecast: 0,
};

pub fn one(ticket: u32) -> Tickets {
    let mut list = [0; 64];
    list[0] = ticket;
    Tickets { count: 1, list }
}

/// A machine of 10 nodes, 63 places for A and 1 for B.
pub fn desk(kind: Kind, clock: u32, cleanup: u32, jobs: &[Job]) -> Model {
    let (_, desk) = Model::open(kind, 10, clock, 100, cleanup, [63, 1]);
    Model { jobs: jobs.to_vec(), ..desk }
}

fn promised(minute: u32) -> Job {
    Job { start: minute, promise: minute, ..LINE }
}

fn told(intake: u32, r: u32, forecast: u32) -> Job {
    Job { intake, r, forecast, ..LINE }
}

fn running(start: u32) -> Job {
    Job { state: State::Running, start, promise: start, ..LINE }
}

fn ended(end: u32) -> Job {
    Job { state: State::Cleanup, end, ..LINE }
}

fn tick() -> (Call, Answer) {
    (Call::Tick, NOTHING)
}

pub fn starts(ticket: u32) -> (Call, Answer) {
    (Call::Tick, Answer { started: one(ticket), ..NOTHING })
}

fn ends(call: Call) -> (Call, Answer) {
    (call, Answer { ended: one(1), ..NOTHING })
}

/// Job 2, of 6 nodes, starts at once.
fn second(house: u32) -> (Call, Answer) {
    let order = Order { nodes: LINE.nodes, estimate: 20, tenant: house, least: 0 };
    (Call::Submit(order), Answer { ticket: 2, promise: 60_000, started: one(2), ..NOTHING })
}

pub fn ticks(minutes: u32) -> impl Iterator<Item = (Call, Answer)> {
    (0..minutes).map(|_| tick())
}

fn play(desk: &Model, calls: impl IntoIterator<Item = (Call, Answer)>) -> Result<Book, String> {
    let mut book = Book::of_lines(desk)?;
    calls.into_iter().try_for_each(|(call, answer)| book.enter(&call, &answer))?;
    Ok(book)
}

pub fn finds<T>(found: Result<T, String>, claim: &str) {
    let found = found.err().unwrap_or_else(|| panic!("not found out: {claim}"));
    assert!(found.contains(claim), "{claim}: {found}");
}

pub fn are_found() {
    promises();
    bounds_and_forecasts();
    nodes_and_places();
    ends_of_runs();
    rereads();
}

fn promises() {
    let desk = |minute| desk(Kind::Promise, 0, 0, &[promised(minute)]);
    finds(play(&desk(9), ticks(9)), "1 waits at its promise 9");
    finds(play(&desk(0), []), "1 waits at its promise 0");
    let kept = play(&desk(9), ticks(8).chain([starts(1)])).unwrap();
    assert_eq!((kept.tried.promises, kept.tried.promises_of_lines), (1, 1));
    let withdrawn = || (Call::Cancel { ticket: 1 }, NOTHING);
    let kept = play(&desk(9), ticks(8).chain([withdrawn()])).unwrap();
    assert_eq!(kept.tried.withdrawn_of_lines, 1);
    finds(play(&desk(9), [withdrawn(), starts(1)]), "1 starts and does not wait: Withdrawn(0)");
    // A promise later than the planned start is kept as it is, by the minute that it names.
    play(&Model { jobs: vec![Job { promise: 20, ..promised(9) }], ..desk(9) }, ticks(19).chain([starts(1)])).unwrap();
}

fn bounds_and_forecasts() {
    for cleanup in [0, 7] {
        // Submitted at 3, with one other that waited: so close to its bound that one minute more is too late.
        let bound = 3 + 2 * (10_080 + cleanup);
        let desk = |clock, forecast| desk(Kind::Loose, clock, cleanup, &[told(3, 2, forecast)]);
        finds(play(&desk(bound - 1, 50_000), [tick()]), &format!("1 waits at its bound {bound}"));
        let kept = play(&desk(bound - 1, 50_000), [starts(1)]).unwrap();
        assert_eq!((kept.tried.bounds_of_lines, kept.tried.forecasts_of_lines), (1, 1));
        finds(play(&desk(bound, 50_000), []), &format!("1 waits at its bound {bound}"));
        finds(play(&desk(10, 12), ticks(2)), "1 waits at its forecast 12");
        play(&desk(10, 12), [tick(), starts(1)]).unwrap();
        finds(play(&desk(10, 0), []), "head 1 has heard no forecast");
        let heard = (Call::Tick, Answer { head: 1, forecast: 11, ..NOTHING });
        finds(play(&desk(10, 12), [heard]), "1 hears a second forecast");
    }
    // Who runs in the lines may have started after its bound and its forecast.
    let late = Job { state: State::Running, start: 49_999, ..told(0, 1, 7) };
    play(&desk(Kind::Loose, 50_000, 0, &[late]), [tick()]).unwrap();
}

fn nodes_and_places() {
    let [a, b] = HOUSES;
    finds(play(&desk(Kind::Promise, 5, 0, &[running(5)]), [second(a)]), "12 nodes run and 0 are in cleanup, of 10");
    // Ended at 5: its nodes are taken for 7 minutes, until 12.
    let cleared = |minutes| play(&desk(Kind::Promise, 8, 7, &[ended(5)]), ticks(minutes).chain([second(a)]));
    finds(cleared(3), "6 nodes run and 6 are in cleanup, of 10");
    cleared(4).unwrap();
    let of_b = Job { house: b, nodes: 1, ..promised(50_000) };
    finds(play(&desk(Kind::Promise, 5, 0, &[of_b]), [second(b)]), "2 jobs of B are live, of 1");
    finds(play(&desk(Kind::Promise, 5, 0, &[promised(9), promised(9)]), []), "ticket 1 stands in two lines");
    finds(play(&desk(Kind::Promise, 5, 0, &[running(5), Job { ticket: 2, ..running(5) }]), []), "12 nodes run");
}

fn ends_of_runs() {
    let desk = |least| desk(Kind::Promise, 8, 0, &[Job { least, ..running(5) }]);
    let early = || ends(Call::Complete { ticket: 1 });
    finds(play(&desk(7), ticks(3).chain([early()])), "1 ends before its start 5 + its least 7");
    play(&desk(7), ticks(4).chain([early()])).unwrap();
    finds(play(&desk(0), ticks(15).chain([ends(Call::Tick)])), "1 ends at another minute than its start + wall time");
    play(&desk(0), ticks(16).chain([ends(Call::Tick)])).unwrap();
}

/// A desk goes on from lines that are not its own.
fn rereads() {
    let reread = |kind, was: Job, line: Job, clock| {
        let mut book = Book::of_lines(&desk(kind, 8, 7, &[was]))?;
        book.reread(&desk(kind, clock, 7, &[line])).map(|()| book)
    };
    let kept = |kind, was: Job| assert_eq!(reread(kind, was, was, 8).unwrap().tried.jobs_reread, 1);
    let lost = |kind, was: Job, line: Job| finds(reread(kind, was, line, 8), "1 is read back as");
    for (kind, was) in
        [(Kind::Promise, promised(20)), (Kind::Promise, running(5)), (Kind::Promise, ended(5)), (Kind::Loose, told(3, 2, 20))]
    {
        kept(kind, was);
        lost(kind, was, Job { nodes: 5, ..was });
        lost(kind, was, Job { house: HOUSES[1], ..was });
        lost(kind, was, Job { least: 1, ..was });
        lost(kind, was, Job { estimate: 21, ..was });
        lost(kind, was, Job { promise: was.promise + 1, ..was });
        finds(reread(kind, was, Job { ticket: 2, ..was }, 8), "1 is live and has no line");
        finds(reread(kind, was, was, 9), "is read back as");
    }
    lost(Kind::Promise, running(5), running(6));
    lost(Kind::Promise, ended(5), ended(6));
    lost(Kind::Promise, running(5), Job { promise: 5, ..ended(5) });
    let started = Job { state: State::Running, start: 8, ..told(3, 2, 20) };
    kept(Kind::Loose, started);
    for was in [told(3, 2, 20), started] {
        lost(Kind::Loose, was, Job { intake: 4, ..was });
        lost(Kind::Loose, was, Job { r: 3, ..was });
        lost(Kind::Loose, was, Job { forecast: 21, ..was });
    }
    lost(Kind::Loose, started, Job { forecast: 0, ..started });
    // Who was withdrawn is no longer there.
    let withdrawn = |lines: &[Job]| {
        let mut book = play(&desk(Kind::Promise, 8, 0, &[promised(20)]), [(Call::Cancel { ticket: 1 }, NOTHING)])?;
        book.reread(&desk(Kind::Promise, 8, 0, lines))?;
        book.enter(&Call::Tick, &Answer { started: one(1), ..NOTHING }).map(|()| book)
    };
    finds(withdrawn(&[promised(20)]), "1 has a line and is not live");
    finds(withdrawn(&[]), "1 starts and does not wait: Withdrawn(8)");
}
