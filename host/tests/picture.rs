//! Pictures and pages of desks, as `rack` prints them: compared with those that are stored, with the desk's record by a second way, and parsed as
//! XML. Each test prints its count. PICTURE names one test alone. PICTURES=write stores what is printed, to be looked at before it is kept.

mod common;
mod picture {
    pub mod commands;
    pub mod desks;
    pub mod elements;
    pub mod pages;
    pub mod places;
    pub mod screens;
    pub mod stored;
}

use picture::{commands, pages, screens, stored};
use std::time::Instant;

type Test = (&'static str, fn() -> String);

const TESTS: &[Test] = &[
    ("stored", stored::as_printed),
    ("places", stored::second_way),
    ("xml", stored::parses),
    ("picture", commands::picture),
    ("pages", pages::rows),
    ("screen", screens::page_to_file),
];

fn main() {
    let alone = std::env::var("PICTURE").ok();
    let asked: Vec<&Test> = TESTS.iter().filter(|(name, _)| alone.as_ref().is_none_or(|alone| alone == name)).collect();
    assert!(!asked.is_empty(), "PICTURE names no test");
    for (name, test) in asked {
        let began = Instant::now();
        let said = test();
        println!("{name}: {said} ({:.1} s)", began.elapsed().as_secs_f64());
    }
}
