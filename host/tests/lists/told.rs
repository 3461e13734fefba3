//! The lists told to another program: TOLD names a file, or a pipe, to which each call is written with what the model answers and the desk that
//! it leaves. `host/python/test` plays them through the Python module. A line is a list in JSON: the call, what it asks, its refusal, what it
//! gives, and the desk's lines, or null if it is still the one that was told last.

use crate::common::{model, text};
use crate::Played;
use hingerota_host::{Kind, Numbers, Record};
use std::fmt::Display;
use std::fs::File;
use std::io::{BufWriter, Write};
use std::sync::{Mutex, OnceLock};

static TOLD: OnceLock<Mutex<BufWriter<File>>> = OnceLock::new();

/// Whether lists are told; then they have to be played one after another.
pub fn begin() -> bool {
    let Some(path) = std::env::var_os("TOLD") else {
        return false;
    };
    let file = File::create(path).expect("the file that TOLD names");
    TOLD.set(Mutex::new(BufWriter::new(file))).is_ok()
}

pub fn end() {
    if let Some(file) = TOLD.get() {
        file.lock().unwrap().flush().expect("what is told can be written");
    }
}

/// In JSON: these are lists of numbers, or lines of plain characters, tabs and line ends.
pub fn json<T: std::fmt::Debug + ?Sized>(value: &T) -> String {
    format!("{value:?}")
}

pub fn string(lines: &[u8]) -> String {
    json(std::str::from_utf8(lines).unwrap())
}

/// Any bytes.
pub fn bytes(bytes: &[u8]) -> String {
    json(&bytes.iter().map(|byte| format!("{byte:02x}")).collect::<String>())
}

/// A desk as it stands in memory.
pub fn numbers(desk: &Numbers) -> String {
    let Numbers { kind, nodes, cleanup, quota_a, quota_b, clock, next, jobs } = desk;
    let mut all: Vec<u8> = [kind, nodes, cleanup, quota_a, quota_b, clock, next].into_iter().flat_map(|n| n.to_le_bytes()).collect();
    for Record { ticket, nodes, estimate, state, tenant, least, start, promise, end, submitted, rank, forecast } in jobs {
        all.extend(ticket.to_le_bytes());
        all.extend([nodes, estimate].into_iter().flat_map(|n| n.to_le_bytes()));
        all.extend(state.to_le_bytes());
        all.extend([tenant, least].into_iter().flat_map(|n| n.to_le_bytes()));
        all.extend([start, promise, end, submitted, rank, forecast].into_iter().flat_map(|n| n.to_le_bytes()));
    }
    bytes(&all)
}

/// What a call gives beside its refusal, and after how many minutes.
pub fn answer(answer: &model::Answer, minutes: u32) -> String {
    let model::Answer { ticket, promise, reads, ended, started, head, .. } = answer;
    let (head, forecast) = head.unwrap_or((0, 0));
    format!("[{ticket}, {promise}, {reads}, {ended:?}, {started:?}, {head}, {forecast}, {minutes}]")
}

impl Played {
    /// A call, with what it asks and gives in JSON, and the model's desk after it.
    pub fn tell(&mut self, call: &str, asks: impl Display, refusal: u32, gives: impl Display) {
        let Some(file) = TOLD.get() else {
            return;
        };
        let lines = text::written(&self.model);
        let desk = if lines == self.told { "null".to_string() } else { string(&lines) };
        self.told = lines;
        writeln!(file.lock().unwrap(), "[{call:?}, {asks}, {refusal}, {gives}, {desk}]").expect("what is told can be written");
    }

    pub fn tell_answer(&mut self, call: &str, asks: &[u32], given: &model::Answer) {
        self.tell(call, json(asks), given.refusal, answer(given, 1));
    }

    pub fn tell_opening(&mut self, kind: Kind, asks: &[u32], refusal: u32) {
        let call = match kind {
            Kind::Promise => "promise",
            Kind::Loose => "loose",
        };
        self.tell(call, json(asks), refusal, "null");
    }
}
