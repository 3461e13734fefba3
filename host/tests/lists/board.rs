//! The page of document 02, No. 8, from its words: a sheet of 66 lines by 72 columns, all spaces, into which each text is set so that it ends
//! in a given column.

use crate::common::model::{held, Model, State};
use hingerota_host::{Kind, PAGE_BYTES, PAGE_COLUMNS, PAGE_LINES};

/// "One heading line with rack nodes, clock and next ticket in 8 columns each": where each ends.
const HEADING: [usize; 3] = [8, 16, 24];

/// "ticket 7 columns, house 2, nodes 5, start 8, promise 8, held time 6, state (waiting, running, clearing) 10, all right-set": where each
/// ends.
const LINE: [usize; 7] = [7, 9, 14, 22, 30, 36, 46];

fn set<const N: usize>(line: &mut [u8], ends: [usize; N], texts: [String; N]) {
    for (end, text) in ends.into_iter().zip(texts) {
        line[end - text.len()..end].copy_from_slice(text.as_bytes());
    }
}

pub fn page(model: &Model) -> Vec<u8> {
    let mut sheet = [[b' '; PAGE_COLUMNS]; PAGE_LINES];
    set(&mut sheet[0], HEADING, [model.nodes, model.clock, model.next].map(|n| n.to_string()));
    // "then a line for each live stack in ticket order"
    for (line, job) in sheet[1..].iter_mut().zip(&model.jobs) {
        let state = match job.state {
            State::Waiting => "waiting",
            State::Running => "running",
            State::Cleanup => "clearing",
        };
        // "On the Loose Desk the promise, and a waiting stack's start, is a single hyphen."
        let hyphen = |loose: bool, minute: u32| if loose { "-".to_string() } else { minute.to_string() };
        let loose = model.kind == Kind::Loose;
        let house = char::from_u32(job.house).unwrap();
        let start = hyphen(loose && job.state == State::Waiting, job.start);
        let promise = hyphen(loose, job.promise);
        let texts = [
            job.ticket.to_string(),
            house.to_string(),
            job.nodes.to_string(),
            start,
            promise,
            held(job.estimate).to_string(),
            state.to_string(),
        ];
        set(line, LINE, texts);
    }
    let page: Vec<u8> = sheet.iter().flat_map(|line| line.iter().copied().chain([b'\n'])).collect();
    assert_eq!(page.len(), PAGE_BYTES);
    page
}

/// "Every page has exactly 66 × 72 characters and 66 line ends."
pub fn shaped(page: &[u8]) -> Result<(), String> {
    let ends = page.iter().filter(|byte| **byte == b'\n').count();
    let characters = page.iter().filter(|byte| (b' '..=b'~').contains(*byte)).count();
    let placed = page.chunks(PAGE_COLUMNS + 1).all(|line| line.last() == Some(&b'\n'));
    if ends == PAGE_LINES && characters == PAGE_LINES * PAGE_COLUMNS && placed && page.len() == PAGE_BYTES {
        return Ok(());
    }
    Err(format!("a page of {characters} characters and {ends} line ends"))
}

/// A page that lacks a line, or whose line ends stand elsewhere, is not taken for one.
pub fn finds_broken_pages() {
    let (_, model) = Model::open(Kind::Loose, 4, 0, 1, 0, [63, 1]);
    let whole = page(&model);
    let mut moved = whole.clone();
    moved.swap(71, 72);
    let mut tabbed = whole.clone();
    tabbed[0] = b'\t';
    assert!(shaped(&whole).is_ok());
    for broken in [&whole[73..], &whole[1..], &moved, &tabbed] {
        assert!(shaped(broken).is_err());
    }
}
