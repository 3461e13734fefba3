//! The claims of a desk that changes its kind can fail: desks made up to break one, and nothing else, are found out.

use super::answers::{Answer, Earliest, NOTHING};
use super::book::{Book, Call};
use super::broken_lines::{desk, finds, one, starts, ticks, LINE};
use super::migration::kept;
use super::numbers;
use crate::common::model::{Job, Model, State, HOUSES};
use hingerota_host::Kind;

const CLOCK: u32 = 20_008;
const CLEANUP: u32 = 7;
const UNIT: u32 = 10_080 + CLEANUP;

/// On 10 nodes job 1 runs until 20,025, and its 6 nodes are free again at 20,032; the 2 nodes of job 2, which has ended, at 20,012. Job 3
/// waits for 8 nodes, with the shadow for its forecast and its bound, and job 4 for 6.
const BEFORE: [Job; 4] = [
    Job { state: State::Running, start: 20_005, intake: 20_005, r: 1, ..LINE },
    Job { ticket: 2, nodes: 2, state: State::Cleanup, start: 20_001, end: 20_005, intake: 20_000, r: 1, ..LINE },
    Job { ticket: 3, nodes: 8, intake: 20_032 - UNIT, r: 1, forecast: 20_032, ..LINE },
    Job { ticket: 4, intake: 20_007, r: 2, ..LINE },
];

const AFTER: [Job; 4] = [
    Job { state: State::Running, start: 20_005, promise: 20_005, ..LINE },
    Job { ticket: 2, nodes: 2, state: State::Cleanup, start: 20_001, promise: 20_001, end: 20_005, ..LINE },
    Job { ticket: 3, nodes: 8, start: 20_032, promise: 20_032, ..LINE },
    Job { ticket: 4, start: 20_059, promise: 20_059, ..LINE },
];

fn loose(jobs: &[Job]) -> Model {
    desk(Kind::Loose, CLOCK, CLEANUP, jobs)
}

fn promise(jobs: &[Job]) -> Model {
    desk(Kind::Promise, CLOCK, CLEANUP, jobs)
}

/// The jobs, with one of them another.
fn with(jobs: [Job; 4], ticket: u32, change: impl Fn(Job) -> Job) -> [Job; 4] {
    jobs.map(|job| if job.ticket == ticket { change(job) } else { job })
}

fn promised(ticket: u32, minute: u32) -> [Job; 4] {
    with(AFTER, ticket, |job| Job { start: minute, promise: minute, ..job })
}

fn changed(before: &Model, after: &Model) -> Result<Book, String> {
    let mut book = Book::of_lines(before)?;
    book.migrate(after).map(|()| book)
}

pub fn are_found() {
    promises();
    jobs_and_settings();
    kept_after();
    records();
}

fn promises() {
    let change = |before: [Job; 4], after: [Job; 4]| changed(&loose(&before), &promise(&after));
    let tried = change(BEFORE, AFTER).unwrap().tried;
    assert_eq!((tried.changes, tried.promised, tried.heads_promised_less, tried.promised_the_bound), (1, 2, 0, 1));
    let late = with(BEFORE, 3, |head| Job { intake: 20_000, forecast: 20_040, ..head });
    assert_eq!(change(late, AFTER).unwrap().tried.heads_promised_less, 1);
    for minute in [20_031, 20_033, 20_040] {
        finds(change(late, promised(3, minute)), &format!("head 3 is promised {minute}, "));
    }
    finds(change(late, promised(3, 20_041)), "3 is promised 20041, after its forecast 20040");
    let hurried = with(BEFORE, 3, |head| Job { forecast: 20_031, ..head });
    finds(change(hurried, AFTER), "3 is promised 20032, after its forecast 20031");
    let bound = |ticket, minute| with(BEFORE, ticket, |job| Job { intake: minute - UNIT, r: 1, ..job });
    finds(change(bound(3, 20_031), AFTER), "3 is promised 20032, after its bound 20031");
    finds(change(bound(4, 20_058), AFTER), "4 is promised 20059, after its bound 20058");
    assert_eq!(change(bound(4, 20_059), AFTER).unwrap().tried.promised_the_bound, 2);
    let patient = with(BEFORE, 4, |job| Job { r: 3, ..job });
    change(patient, promised(4, 20_032 + UNIT)).unwrap();
    finds(change(patient, promised(4, 20_033 + UNIT)), "4 is promised 30120, after 30119");
    finds(change(BEFORE, promised(3, CLOCK)), "3 waits at its promise 20008");
    // The nodes of a job that has ended count until its cleanup is over, and no longer.
    let ended = |jobs: [Job; 4]| with(jobs, 2, |job| Job { nodes: 6, ..job })[1..3].to_vec();
    let cleared = |minute| changed(&loose(&ended(late)), &promise(&ended(promised(3, minute))));
    cleared(20_012).unwrap();
    finds(cleared(20_011), "head 3 is promised 20011, and the shadow is 20012");
    finds(cleared(20_013), "head 3 is promised 20013, and the shadow is 20012");
}

fn jobs_and_settings() {
    let becomes = |after: Model, claim: &str| finds(changed(&loose(&BEFORE), &after), claim);
    for ticket in 1..=4 {
        let another = |change: &dyn Fn(Job) -> Job| {
            becomes(promise(&with(AFTER, ticket, change)), &format!("{ticket} was "));
        };
        another(&|job| Job { nodes: 1, ..job });
        another(&|job| Job { house: HOUSES[1], ..job });
        another(&|job| Job { least: 1, ..job });
        another(&|job| Job { estimate: 21, ..job });
        let others: Vec<Job> = AFTER.into_iter().filter(|job| job.ticket != ticket).collect();
        becomes(promise(&others), &format!("{ticket} is live and has no line"));
    }
    becomes(promise(&with(AFTER, 1, |job| Job { start: 20_006, promise: 20_006, ..job })), "1 was ");
    becomes(promise(&with(AFTER, 1, |job| Job { state: State::Cleanup, end: 20_005, ..job })), "1 was ");
    becomes(promise(&with(AFTER, 2, |job| Job { end: 20_006, ..job })), "2 was ");
    becomes(promise(&with(AFTER, 4, |job| Job { nodes: 1, state: State::Running, start: CLOCK, ..job })), "4 was ");
    for minute in [0, 20_004, 20_006] {
        let another = with(AFTER, 1, |job| Job { promise: minute, ..job });
        becomes(promise(&another), &format!("1 runs since 20005 and is promised {minute}"));
    }
    let more: Vec<Job> = AFTER.into_iter().chain([Job { ticket: 5, ..promised(4, 20_100)[3] }]).collect();
    becomes(promise(&more), "5 has a line and is not live");
    becomes(Model { clock: CLOCK + 1, ..promise(&AFTER) }, " becomes ");
    becomes(Model { nodes: 11, ..promise(&AFTER) }, " becomes ");
    becomes(Model { cleanup: 8, ..promise(&AFTER) }, " becomes ");
    becomes(Model { places: [62, 2], ..promise(&AFTER) }, " becomes ");
    becomes(loose(&BEFORE), "a Loose desk becomes a Loose desk");
    finds(changed(&promise(&AFTER), &promise(&AFTER)), "a Promise desk becomes a Promise desk");
}

/// "these promises are kept there in the same way"
fn kept_after() {
    let play = |book: &Book, calls: Vec<(Call, Answer)>| {
        let mut book = book.clone();
        calls.iter().try_for_each(|(call, answer)| book.enter(call, answer)).map(|()| book)
    };
    let ends = (Call::Tick, Answer { ended: one(1), ..NOTHING });
    let until = |minute: u32, last: (Call, Answer)| {
        let ended = ticks(16).chain([(Call::Tick, ends.1)]);
        ended.chain(ticks(minute - 20_026)).chain([last]).collect()
    };
    let book = changed(&loose(&BEFORE), &promise(&AFTER)).unwrap();
    assert_eq!(play(&book, until(20_032, starts(3))).unwrap().tried.promises_of_changes, 1);
    finds(play(&book, until(20_032, (Call::Tick, NOTHING))), "3 waits at its promise 20032");
    let withdrawn = |ticket| (Call::Cancel { ticket }, NOTHING);
    assert_eq!(play(&book, vec![withdrawn(3)]).unwrap().tried.withdrawn_of_changes, 1);
    // Who was withdrawn before never starts, and who was given an earliest start does not start before it.
    let mut book = Book::of_lines(&loose(&BEFORE)).unwrap();
    book.earliest_start(3, Earliest { refusal: 0, minute: 20_020 }).unwrap();
    let mut book = play(&book, vec![withdrawn(4)]).unwrap();
    finds(book.clone().migrate(&promise(&AFTER)).map(|()| book.clone()), "4 has a line and is not live");
    book.migrate(&promise(&AFTER[..3])).unwrap();
    finds(play(&book, vec![starts(4)]), "4 starts and does not wait: Withdrawn(20008)");
    finds(play(&book, vec![starts(3)]), "3 starts before its earliest start 20020");
}

fn records() {
    let of = |desk: &Model| numbers::of(desk).unwrap();
    let finds = |after: Model, claim: &str| {
        let found = kept(&of(&loose(&BEFORE)), &of(&after)).err().unwrap_or_else(|| panic!("not found out: {claim}"));
        assert!(found.contains(claim), "{claim}: {found}");
    };
    let right = promise(&AFTER);
    kept(&of(&loose(&BEFORE)), &of(&right)).unwrap();
    for wrong in [
        Model { kind: Kind::Loose, ..right.clone() },
        Model { nodes: 11, ..right.clone() },
        Model { cleanup: 8, ..right.clone() },
        Model { places: [62, 2], ..right.clone() },
        Model { clock: CLOCK + 1, ..right.clone() },
        Model { next: right.next + 1, ..right.clone() },
    ] {
        finds(wrong, "a desk of kind");
    }
    finds(promise(&AFTER[..3]), "after the change, and before it");
    for ticket in 1..=4 {
        let another = |change: &dyn Fn(Job) -> Job| finds(promise(&with(AFTER, ticket, change)), "after the change, and before it");
        another(&|job| Job { ticket: 5, ..job });
        another(&|job| Job { nodes: job.nodes - 1, ..job });
        another(&|job| Job { estimate: 21, ..job });
        another(&|job| Job { house: HOUSES[1], ..job });
        another(&|job| Job { least: 1, ..job });
        another(&|job| Job { end: job.end + 1, ..job });
        another(&|job| Job { promise: job.promise + 1, ..job });
        another(&|job| Job { start: job.start - 1, ..job });
        another(&|job| Job { intake: 1, ..job });
        another(&|job| Job { r: 1, ..job });
        another(&|job| Job { forecast: 1, ..job });
    }
    for ticket in 1..=2 {
        // Also if the promise goes along.
        let another = with(AFTER, ticket, |job| Job { start: job.start + 1, promise: job.promise + 1, ..job });
        finds(promise(&another), "after the change, and before it");
    }
    finds(promise(&with(AFTER, 4, |job| Job { state: State::Running, start: CLOCK, promise: CLOCK, ..job })), "after the change");
    finds(promise(&promised(4, CLOCK)), "4 is planned for 20008 at 20008");
    finds(promise(&promised(4, 999_974)), "4 holds its nodes until 1000001");
    kept(&of(&loose(&BEFORE)), &of(&promise(&promised(4, 999_973)))).unwrap();
}
