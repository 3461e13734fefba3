//! Document 02, No. 10: "after any call no waiting stack of the Promise Desk could begin earlier with all others held." Watched by the
//! points and the records that a desk gives.

use super::numbers::UNUSED;
use crate::common::model::held;
use hingerota_host::{Point, Record};

/// Of every waiting record: from no minute before its start are its nodes free for its hold, its own hold left out. How many wait.
pub fn none(points: &[Point], records: &[Record], cleanup: u32) -> Result<u64, String> {
    let mut watched = 0;
    for job in records.iter().filter(|r| r.waits()) {
        let (nodes, hold) = (u32::from(job.nodes), held(u32::from(job.estimate)) + cleanup);
        if let Some(minute) = begins_earlier(points, nodes, job.start, hold) {
            return Err(format!("{} is planned for {} and could begin at {minute}", job.ticket, job.start));
        }
        watched += 1;
    }
    Ok(watched)
}

/// If it fits from a minute on and not from the one before, free nodes of the others change in that minute; before its start, these are
/// the points.
fn begins_earlier(points: &[Point], nodes: u32, start: u32, hold: u32) -> Option<u32> {
    let own = |minute: u32| if start <= minute && minute < start + hold { nodes } else { 0 };
    let fits = |from: usize| {
        let begin = points[from].minute;
        points[from..].iter().take_while(|p| p.minute < begin + hold).all(|p| p.free + own(p.minute) >= nodes)
    };
    (0..points.len()).take_while(|i| points[*i].minute < start).find(|i| fits(*i)).map(|i| points[i].minute)
}

/// The claim can fail: jobs that could begin earlier are found out.
pub fn finds_gaps() {
    // On a machine of 10, 4 nodes are free until 20, none until 30, then 6 until 40, and all after that.
    let points = [(0, 4), (20, 0), (30, 6), (40, 10)].map(|(minute, free)| Point { minute, free });
    let job = |ticket, nodes, estimate, start| Record { ticket, nodes, estimate, state: 1, tenant: 65, start, promise: start, ..UNUSED };
    let found = |records: &[Record], cleanup| none(&points, records, cleanup);
    // Who has taken the nodes from 20 to 30 could begin at 0 only with no more than 4.
    assert_eq!(found(&[job(1, 5, 10, 20)], 0), Ok(1));
    assert_eq!(found(&[job(1, 4, 10, 20)], 0), Err("1 is planned for 20 and could begin at 0".to_string()));
    // From 20 on its own nodes are enough: it begins at 0 and is over within the minutes that were its own.
    assert_eq!(found(&[job(1, 4, 25, 20)], 0), Err("1 is planned for 20 and could begin at 0".to_string()));
    // The first that could is found. One that is longer could not, nor could one with a minute of cleanup.
    assert_eq!(found(&[job(1, 4, 20, 30), job(2, 4, 20, 30)], 0), Err("1 is planned for 30 and could begin at 0".to_string()));
    assert_eq!(found(&[job(1, 4, 25, 30), job(2, 4, 20, 30)], 0), Err("2 is planned for 30 and could begin at 0".to_string()));
    assert_eq!(found(&[job(1, 4, 25, 30), job(2, 4, 20, 30)], 1), Ok(2));
    assert_eq!(found(&[job(1, 4, 5, 40)], 0), Err("1 is planned for 40 and could begin at 0".to_string()));
    assert_eq!(found(&[job(1, 6, 5, 40)], 0), Err("1 is planned for 40 and could begin at 30".to_string()));
    // Who runs or is in cleanup does not count.
    assert_eq!(found(&[Record { state: 2, ..job(1, 4, 5, 40) }, Record { state: 3, ..job(2, 4, 5, 40) }], 0), Ok(0));
}
