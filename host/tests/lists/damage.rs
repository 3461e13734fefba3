//! Desks that are damaged: their lines, and their numbers in memory.

use super::numbers::UNUSED;
use crate::common::model::{LAST_MINUTE, LONGEST_ESTIMATE};
use crate::common::random::Random;
use hingerota_host::{Numbers, Record};

/// Bytes that mean something in a line, and some that do not.
const BYTES: &[u8] = b"0123456789\t\t\t\n\n\nABCwrcZaz -+.\r\0\x7f\xc3\xff";

/// Lines of fields.
type Lines = Vec<Vec<Vec<u8>>>;

fn lines_of(text: &[u8]) -> Lines {
    let fields = |line: &[u8]| line.split(|byte| *byte == b'\t').map(<[u8]>::to_vec).collect();
    text.strip_suffix(b"\n").unwrap_or(text).split(|byte| *byte == b'\n').map(fields).collect()
}

fn text_of(lines: &Lines) -> Vec<u8> {
    let closed = |line: &Vec<Vec<u8>>| [line.join(&b'\t'), vec![b'\n']].concat();
    lines.iter().flat_map(closed).collect()
}

fn place<T>(list: &[T], random: &mut Random) -> usize {
    random.below(list.len() as u32) as usize
}

fn number(field: &[u8]) -> Option<u32> {
    std::str::from_utf8(field).ok()?.parse().ok()
}

/// One that is often at the edge of a condition: a number of the text, or one beside it.
fn number_near(lines: &Lines, random: &mut Random) -> u32 {
    let limits = [0, 1, 2, 30, 63, 64, 1_024, LONGEST_ESTIMATE, LONGEST_ESTIMATE + 30, LAST_MINUTE, 65_536, 9_999_999];
    let line = if random.percent(50) { &lines[0] } else { &lines[place(lines, random)] };
    let stated = &line[place(line, random)];
    let near = match random.below(4) {
        0 => random.one_of(&limits),
        1 => random.below(100),
        _ => number(stated).unwrap_or(0),
    };
    near.saturating_add(random.below(3)).saturating_sub(1)
}

/// Some field of some line, mostly one that has a number.
fn some_field(lines: &Lines, random: &mut Random) -> (usize, usize) {
    let mut found = (0, 0);
    for _ in 0..3 {
        let line = place(lines, random);
        found = (line, place(&lines[line], random));
        if number(&lines[found.0][found.1]).is_some() {
            break;
        }
    }
    found
}

/// The lines of a desk with one thing changed.
pub fn text(text: &[u8], random: &mut Random) -> Vec<u8> {
    let mut lines = lines_of(text);
    match random.below(8) {
        0 => return by_bytes(text.to_vec(), random),
        1 => by_lines(&mut lines, random),
        2 | 3 => by_fields(&mut lines, random),
        _ => by_numbers(&mut lines, random),
    }
    text_of(&lines)
}

/// A byte is another, or missing, or one more; the end is missing, or there is more.
fn by_bytes(mut bytes: Vec<u8>, random: &mut Random) -> Vec<u8> {
    let (at, byte) = (random.below(bytes.len() as u32 + 1) as usize, random.one_of(BYTES));
    match random.below(6) {
        0 if at < bytes.len() => bytes[at] = byte,
        1 if at < bytes.len() => drop(bytes.remove(at)),
        2 => bytes.insert(at, byte),
        3 => bytes.truncate(at),
        4 => bytes.extend(random.one_of(&[&b"\n"[..], b"\t\n", b" ", b"0", b"\r\n", b"\0", b"desk\n"])),
        _ => drop(bytes.pop()),
    }
    bytes
}

/// Two are swapped, one is missing, or stands twice.
fn by_lines(lines: &mut Lines, random: &mut Random) {
    let (line, another) = (place(lines, random), place(lines, random));
    match random.below(3) {
        0 => lines.swap(line, another),
        1 => drop(lines.remove(line)),
        _ => lines.insert(line, lines[another].clone()),
    }
}

/// One is empty, missing, one more, swapped with another, or has not its form.
fn by_fields(lines: &mut Lines, random: &mut Random) {
    let (line, field) = some_field(lines, random);
    match random.below(10) {
        0 => lines[line][field].clear(),
        1 => drop(lines[line].remove(field)),
        2 => lines[line].insert(field, random.one_of(&["", "0", "1", "A", "w"]).into()),
        3 => lines[line].push(Vec::new()),
        4 => {
            let other = place(&lines[line], random);
            lines[line].swap(field, other);
        }
        5 => lines[line][field].insert(0, random.one_of(b"0+- 1")),
        6 => lines[line].last_mut().unwrap().push(random.one_of(b"\r \0")),
        7 => lines[line][field] = random.one_of(&["10000000", "4294967296", "18446744073709551617"]).into(),
        8 => {
            let words = ["w", "r", "c", "A", "B", "C", "a", "promise", "loose", "desk", "Promise", "wr", "AB"];
            lines[line][field] = random.one_of(&words).into();
        }
        _ => swap_word(lines, line, random),
    }
}

/// A word of a line, by another, mostly one that has its form.
fn swap_word(lines: &mut Lines, line: usize, random: &mut Random) {
    let (field, word) = match line {
        0 => (1, random.one_of(&["promise", "loose"])),
        _ if random.percent(50) => (3, random.one_of(&["w", "r", "c"])),
        _ => (7, random.one_of(&["A", "B", "C", "a", "b"])),
    };
    if let Some(old) = lines[line].get_mut(field) {
        *old = word.into();
    }
}

/// One is another, mostly larger or smaller by one.
fn by_numbers(lines: &mut Lines, random: &mut Random) {
    let (line, field) = some_field(lines, random);
    let Some(n) = number(&lines[line][field]) else {
        return;
    };
    let changed = match random.below(10) {
        0 => n.wrapping_add(1 << 16),
        1..=3 => number_near(lines, random),
        4..=6 => n.saturating_sub(1),
        _ => n.saturating_add(1),
    };
    lines[line][field] = changed.to_string().into();
}

/// Any number in the place of `n`, mostly one near it, or near one that a condition asks about.
fn any_number(n: u32, desk: &Numbers, random: &mut Random) -> u32 {
    let near = [n, n, 0, desk.clock, desk.next, desk.nodes, 64, LAST_MINUTE, 1 << 16, 1 << 31];
    match random.below(8) {
        0 => random.any().max(random.one_of(&[0, u32::MAX])),
        1 => n ^ (1 << random.below(32)),
        2 => random.below(70),
        _ => random.one_of(&near).wrapping_add(random.below(3)).wrapping_sub(1),
    }
}

fn change_desk(desk: &mut Numbers, random: &mut Random) {
    let copy = *desk;
    let fields =
        [&mut desk.kind, &mut desk.nodes, &mut desk.cleanup, &mut desk.quota_a, &mut desk.quota_b, &mut desk.clock, &mut desk.next];
    let field = &mut *fields.into_iter().nth(random.below(7) as usize).unwrap();
    *field = any_number(*field, &copy, random);
}

fn change_record(desk: &mut Numbers, at: usize, random: &mut Random) {
    let (copy, r, field) = (*desk, &mut desk.jobs[at], random.below(12));
    let mut change = |n: u32| any_number(n, &copy, random);
    let short = |n: u32| n as u16;
    match field {
        0 => r.ticket = change(r.ticket),
        1 => r.nodes = short(change(r.nodes.into())),
        2 => r.estimate = short(change(r.estimate.into())),
        3 => r.state = change(r.state),
        4 => r.tenant = short(change(r.tenant.into())),
        5 => r.least = short(change(r.least.into())),
        6 => r.start = change(r.start),
        7 => r.promise = change(r.promise),
        8 => r.end = change(r.end),
        9 => r.submitted = change(r.submitted),
        10 => r.rank = change(r.rank),
        _ => r.forecast = change(r.forecast),
    }
}

/// Whatever bytes.
fn any_record(random: &mut Random) -> Record {
    let mut short = || random.any() as u16;
    let (nodes, estimate, tenant, least) = (short(), short(), short(), short());
    Record {
        ticket: random.any(),
        nodes,
        estimate,
        state: random.any(),
        tenant,
        least,
        start: random.any(),
        promise: random.any(),
        end: random.any(),
        submitted: random.any(),
        rank: random.any(),
        forecast: random.any(),
    }
}

/// A desk in memory with one thing changed.
pub fn numbers(desk: &Numbers, random: &mut Random) -> Numbers {
    let mut desk = *desk;
    let live = desk.jobs.iter().filter(|r| r.state != 0).count() as u32;
    // Mostly a live record, or the first unused one.
    let mut some = || match random.below(8) {
        0 => random.below(64) as usize,
        _ => random.below((live + 1).min(64)) as usize,
    };
    let (at, another) = (some(), some());
    match random.below(20) {
        0 => desk.jobs.swap(at, another),
        1 => desk.jobs[at] = UNUSED,
        2 => desk.jobs[at] = desk.jobs[another],
        // The records after one that is left out move up.
        3 | 4 => {
            desk.jobs.copy_within(at + 1.., at);
            desk.jobs[63] = UNUSED;
        }
        // A record after those that are live, with the last ticket.
        5 => {
            desk.jobs[live.min(63) as usize] = Record { ticket: desk.next.wrapping_sub(1), ..desk.jobs[another] };
        }
        6 => desk.jobs[at] = any_record(random),
        7 => desk.jobs[at].state = random.below(5),
        8 => desk.jobs[at].tenant = random.one_of(&[0, 64, 65, 66, 67, 65 + 256, u16::MAX]),
        9..=11 => change_desk(&mut desk, random),
        _ => change_record(&mut desk, at, random),
    }
    desk
}

/// A desk of whatever bytes.
pub fn any_numbers(random: &mut Random) -> Numbers {
    let mut jobs = [UNUSED; 64];
    for record in &mut jobs {
        *record = any_record(random);
    }
    let [kind, nodes, cleanup, quota_a, quota_b, clock, next] = [(); 7].map(|()| random.any());
    Numbers { kind, nodes, cleanup, quota_a, quota_b, clock, next, jobs }
}
