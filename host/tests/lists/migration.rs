//! A Loose Desk that becomes a Promise Desk, on the library and on the model: document 02, No. 12.

use super::book::Book;
use super::{gaps, numbers, told};
use crate::common::model::{held, Model, LAST_MINUTE};
use crate::common::random::Random;
use crate::common::text;
use crate::{same, same_desk, Played};
use hingerota_host::{Desk, Kind, Numbers, Record};

impl Played {
    /// The desk changes its kind, and goes on from there.
    pub fn migrate(&mut self, random: &mut Random) -> Result<(), String> {
        self.done.push("migrate".to_string());
        let changed = self.migrated()?;
        // Also of a desk read back, from the change on.
        self.tight |= self.model.kind == Kind::Loose;
        (self.desk, self.model, self.book) = changed;
        self.tell("migrate", "[]", 0, "null");
        self.no_gaps()?;
        self.index(random)?;
        self.checkpoint(random)?;
        self.why(random)?;
        self.reread()
    }

    /// A copy of the desk does, and the desk stays as it is.
    pub fn migrate_a_copy(&mut self) -> Result<(), String> {
        self.done.push("migrate a copy".to_string());
        let (_, model, book) = self.migrated()?;
        self.tell("migrate_a_copy", "[]", 0, told::string(&text::written(&model)));
        self.book.tried = book.tried;
        self.same_desk()
    }

    /// What a copy of the desk is once it has changed, with the model and the book.
    fn migrated(&mut self) -> Result<(Desk, Model, Book), String> {
        self.count.calls += 1;
        let before = *self.desk.numbers();
        let mut desk = Desk::from_numbers(before).map_err(|refusal| format!("a desk is {refusal}"))?;
        let (mut model, mut book) = (self.model.clone(), self.book.clone());
        desk.migrate();
        let answers = model.migrate();
        same_desk(&desk, &model)?;
        if self.model.kind == Kind::Promise {
            self.count.changes_of_nothing += 1;
            same("a Promise Desk after a change", *desk.numbers(), before)?;
            return Ok((desk, model, book));
        }
        // "no planned hold passes the last minute, so the change always goes through"
        let taken = answers.iter().all(|answer| answer.refusal == 0 && answer.started.is_empty());
        same("every waiting job is planned, and none starts", taken, true)?;
        kept(&before, desk.numbers())?;
        same("check of a desk that has changed", desk.numbers().check(), Ok(()))?;
        self.count.no_gaps += gaps::none(&desk.points(), desk.records(), desk.cleanup())?;
        book.migrate(&numbers::desk(desk.numbers()).ok_or("no desk has these numbers")?)?;
        self.count_change(&before, desk.numbers());
        Ok((desk, model, book))
    }

    fn count_change(&mut self, before: &Numbers, after: &Numbers) {
        let has = |test: &dyn Fn(&Record) -> bool| u64::from(after.jobs.iter().any(test));
        self.count.changes_in_cleanup += has(&|r| r.state == 3);
        self.count.changes_waiting += has(&|r| r.waits());
        self.count.changes_to_the_last_minute += has(&|r| r.waits() && freed(after, r) == LAST_MINUTE);
        self.count.changes_of_lines += u64::from(!self.tight);
        let tenants = |tenant| before.jobs.iter().any(|r| r.waits() && u32::from(r.tenant) == tenant);
        self.count.changes_waiting_of_both += u64::from(tenants(65) && tenants(66));
    }
}

fn freed(desk: &Numbers, record: &Record) -> u32 {
    record.start + held(record.estimate.into()) + desk.cleanup
}

/// "Running and clearing stacks keep starts, now their promises, and ends; [...] Tickets and clock go on." Nobody starts by the change, and
/// nothing else is another, but for what a record of the Promise Desk lacks: that is 0. "No planned hold passes the last minute".
pub fn kept(before: &Numbers, after: &Numbers) -> Result<(), String> {
    let settings = |d: &Numbers| [d.nodes, d.cleanup, d.quota_a, d.quota_b, d.clock, d.next];
    if (after.kind, settings(after)) != (0, settings(before)) {
        return Err(format!("a desk of kind {} with {:?}, and before the change with {:?}", after.kind, settings(after), settings(before)));
    }
    for (was, is) in before.jobs.iter().zip(&after.jobs) {
        let start = if was.waits() { is.start } else { was.start };
        if *is != (Record { start, promise: start, submitted: 0, rank: 0, forecast: 0, ..*was }) {
            return Err(format!("{is:?} after the change, and before it {was:?}"));
        }
        if was.waits() && start <= before.clock {
            return Err(format!("{} is planned for {start} at {}", is.ticket, before.clock));
        }
        if was.waits() && freed(after, is) > LAST_MINUTE {
            return Err(format!("{} holds its nodes until {}", is.ticket, freed(after, is)));
        }
    }
    Ok(())
}
