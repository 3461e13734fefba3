//! A desk that lives in a folder, `rack DIR ..`, run as a program and compared with the model of `common`: killed at random moments, with its
//! journal cut off at every byte, with writing, flushing and renaming made to fail, with four processes at once, with its desk damaged, with
//! the machine's clock set. Each test prints its count. DESK names one test alone. KILLS, CALLS and CLOCKS say how many there are of these;
//! CUTS, BYTES, FAULTS and SCRIPTS that only every so many-th is tried.

mod common;
mod desk {
    pub mod clocks;
    pub mod commands;
    pub mod crowd;
    pub mod cuts;
    pub mod damage;
    pub mod faults;
    pub mod followers;
    pub mod full;
    pub mod generations;
    pub mod kills;
    pub mod measure;
    pub mod modes;
    pub mod orders;
    pub mod played;
    pub mod repairs;
    pub mod words;
}

use desk::{clocks, commands, crowd, cuts, damage, faults, followers, full, generations, kills, measure, modes, orders, repairs, words};
use std::sync::atomic::{AtomicUsize, Ordering};
use std::time::Instant;

type Test = (&'static str, fn() -> String);

/// Most of their time tests wait for the disk.
const AT_ONCE: usize = 3;

const TESTS: &[Test] = &[
    ("kills", kills::at_random_moments),
    ("cuts", cuts::at_every_byte),
    ("commands", commands::statuses_and_printouts),
    ("clocks", clocks::forward_back_and_over),
    ("damage", damage::in_every_byte),
    ("faults", faults::at_every_call),
    ("modes", modes::groups_modes_and_turns),
    ("full", full::of_the_file_system),
    ("crowd", crowd::four_at_once),
    ("follow", followers::follow),
    ("orders", orders::of_writing_and_printing),
    ("words", words::sentences),
    ("generations", generations::begin_and_go),
    ("repairs", repairs::of_damaged_journals),
];

/// How many, unless the environment says.
fn count(name: &str, full: u64) -> u64 {
    std::env::var(name).map_or(full, |n| n.parse().unwrap_or_else(|_| panic!("{name} is not a number")))
}

fn main() {
    let arguments: Vec<String> = std::env::args().collect();
    if let [_, inside, folder] = &arguments[..] {
        if inside == full::INSIDE {
            return full::inside(folder);
        }
    }
    let alone = std::env::var("DESK").ok();
    if alone.as_deref() == Some("measure") {
        return println!("{}", measure::all());
    }
    let asked: Vec<&Test> = TESTS.iter().filter(|(name, _)| alone.as_ref().is_none_or(|alone| alone == name)).collect();
    assert!(!asked.is_empty(), "DESK names no test");
    let next = AtomicUsize::new(0);
    std::thread::scope(|threads| {
        for _ in 0..AT_ONCE {
            threads.spawn(|| {
                while let Some((name, test)) = asked.get(next.fetch_add(1, Ordering::Relaxed)) {
                    let began = Instant::now();
                    let said = test();
                    println!("{name}: {said} ({:.1} s)", began.elapsed().as_secs_f64());
                }
            });
        }
    });
}
