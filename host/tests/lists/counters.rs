//! What was done, of one list or of all. A counter stands here once: its name, how the numbers of two lists become one, and what it counts, as
//! it is printed.

use crate::common::acceptance::CONDITIONS;
use std::fmt::{Display, Formatter, Result};

/// Structs of counters, in groups, and of parts that are such structs.
macro_rules! counters {
    ($($(#[$about:meta])* $name:ident {
        $($group:literal { $($field:ident $how:ident $words:literal)* })*
        $(parts { $($part:ident $type:ident)* })?
    })*) => {$(
        $(#[$about])*
        #[derive(Default, Clone, Copy)]
        pub struct $name {
            $($(#[doc = $words] pub $field: u64,)*)*
            $($(pub $part: $type,)*)?
        }

        impl $name {
            /// With those of another list.
            pub fn add(&mut self, other: &$name) {
                $($(self.$field = $how(self.$field, other.$field);)*)*
                $($(self.$part.add(&other.$part);)*)?
            }
        }

        impl Display for $name {
            /// A line for each group and for each counter.
            fn fmt(&self, f: &mut Formatter) -> Result {
                $(
                    writeln!(f, "{}:", $group)?;
                    $(line(f, self.$field, $words)?;)*
                )*
                $($(self.$part.fmt(f)?;)*)?
                Ok(())
            }
        }
    )*};
}

fn line(f: &mut Formatter, number: u64, words: &str) -> Result {
    writeln!(f, "{number:>11} {words}")
}

fn sum(a: u64, b: u64) -> u64 {
    a + b
}

fn most(a: u64, b: u64) -> u64 {
    a.max(b)
}

counters! {
    Count {
        "calls" {
            lists sum "lists"
            calls sum "calls"
            most_live most "live jobs at most"
            submissions sum "submissions"
            submissions_reading_some sum "submissions that read some points and not all"
            most_reads most "points read by one at most"
            completions sum "early ends"
            completions_at_start sum "of a job that started in that minute"
            completions_in_cleanup sum "of a job in cleanup, refused"
            completions_just_before_least sum "one minute before the least, refused"
            withdrawals sum "withdrawals"
            ticks sum "ticks"
            waits sum "waits that were only judged"
            passes_repeated sum "early ends, withdrawals and corrections after which a pass moved somebody that was not the first"
            most_passes most "passes after one at most, with the one that moved nothing"
            no_gaps sum "waiting jobs that could not begin earlier"
        }
        "questions" {
            profiles sum "profiles"
            points sum "points"
            most_points most "points of one at most"
            indexes sum "indexes"
            blocks sum "blocks"
            most_blocks most "blocks of one at most"
            earliest_starts sum "earliest starts asked for"
            earliest_starts_later sum "later than now"
            longest_estimates sum "longest estimates asked for"
            longest_estimates_below sum "below 10,080, on a Promise Desk"
            longest_estimates_none sum "none, on a Promise Desk"
            longest_estimates_by_intake sum "by the answers of the model's intake to every estimate"
            pages sum "status pages, into bytes just enough, more and too few"
            pages_in_cleanup sum "with a job in cleanup"
            pages_waiting sum "with a job that waits"
            whys sum "times it was asked why jobs wait, into bytes just enough, more and too few"
            longest_sentences most "bytes at most"
            sentences sum "sentences"
            sentences_of_nobody sum "without a holder"
            sentences_of_gaps sum "with nodes enough left"
            holders_running sum "holders that run"
            holders_in_cleanup sum "that are in cleanup"
            holders_planned sum "that are planned"
        }
        "desks written out, read back and found in memory" {
            texts sum "desks written out, into bytes just enough, more and too few"
            longest_text most "bytes at most"
            damaged_texts sum "damaged texts"
            damaged_texts_accepted sum "accepted"
            damaged_desks sum "desks damaged in memory"
            damaged_desks_accepted sum "accepted"
            desks_gone_on_from sum "desks gone on from"
        }
        "desks that changed their kind" {
            changes_in_cleanup sum "with a job in cleanup"
            changes_waiting sum "with a job that waits"
            changes_waiting_of_both sum "with such jobs of both houses"
            changes_to_the_last_minute sum "with one planned up to the last minute"
            changes_of_lines sum "that no calls need have made"
            changes_of_nothing sum "that stayed as they were, being Promise Desks"
        }
        parts { advances Advances corrections Corrections tried Tried refusals Refusals broken Broken }
    }

    Advances {
        "minutes that passed at once" {
            taken sum "times"
            minutes sum "minutes"
            cut_short sum "with something due before the last minute asked for"
            to_a_release sum "up to a release of nodes and nothing else"
            quiet sum "with nothing due at all"
            to_the_last_minute sum "up to the last minute of all"
            refused sum "refused"
        }
    }

    Corrections {
        "corrected orders" {
            asked sum "corrections asked for"
            of_a sum "taken, of house A"
            of_b sum "of house B"
            of_desks_not_made_by_calls sum "on desks that no calls need have made"
            most_started most "jobs started by one at most"
        }
        "corrected in place" {
            in_place sum "in all"
            nothing_changed sum "with nothing changed"
            longer_estimates sum "with a longer estimate"
            fewer_nodes sum "with fewer nodes"
            shorter_held_times sum "with a shorter wall time"
            heads sum "of a head of a Loose Desk"
            start_by_it sum "that start by it"
            others_start_by_it sum "by which others start"
        }
        "corrected anew" {
            anew sum "in all"
            one_node_more sum "with one node more and the same wall time"
            next_held_times sum "with the next wall time and the same nodes"
            houses_full sum "of a house that had all of its places live"
            not_without_withdrawal sum "that without the withdrawal would have been refused by 6"
            up_to_the_last_minute sum "whose hold, on a Loose Desk from the bound on, ends in the last minute"
            no_ticket_left sum "refused by 5 after the withdrawal"
            past_the_last_minute sum "refused by 6 after it"
            refused_with_starts sum "where that starts others"
        }
    }

    /// How often each claim was tried.
    Tried {
        "guarantees, by calls and answers" {
            promises sum "jobs that started by their promise"
            bounds sum "by their bound"
            forecasts sum "by their forecast"
            withdrawn sum "jobs withdrawn before these minutes"
            heads sum "heads with a forecast"
            sums sum "sums of nodes after a call"
            sums_in_cleanup sum "with nodes of jobs that had ended"
            full_in_cleanup sum "that were all of the machine's, by such"
            houses_full sum "times a house had all of its places live"
            houses_full_in_cleanup sum "by jobs that had ended"
            leasts sum "early ends of jobs with a least"
            ends_at_the_least sum "in the first minute in which it is reached"
            earliest_given sum "earliest starts given"
            earliest_risen sum "larger than before"
            earliest_kept sum "jobs that started and had been given one"
            starts_at_the_earliest sum "in that very minute, given before it came"
            reads sum "submissions that read points"
            indexes sum "indexes that agreed with the profile"
            blocks sum "blocks of these"
            within_longest sum "jobs no longer than the estimate given, promised the minute asked for"
            above_longest sum "longer ones, not promised it"
            refused_alike sum "refused as the question was"
            findings sum "jobs of which it was said why they wait"
        }
        "desks read back, by their lines" {
            rereads sum "desks that went on from their lines"
            jobs_reread sum "jobs in these, as the calls had them"
            promises_of_lines sum "jobs that waited in lines that no calls need have made, and started by their promise"
            bounds_of_lines sum "by their bound"
            forecasts_of_lines sum "by their forecast"
            withdrawn_of_lines sum "were withdrawn before"
        }
        "changes of kind, by the lines" {
            changes sum "desks that changed"
            promised sum "promises that these gave to jobs that waited"
            heads_promised_less sum "to heads, before their forecasts"
            promised_the_bound sum "at the very bounds"
            promises_of_changes sum "jobs that started by such a promise"
            withdrawn_of_changes sum "were withdrawn before"
        }
        "corrections, by calls and answers" {
            corrected_in_place sum "orders corrected in place"
            corrected_anew sum "that grew"
            corrected_of_lines sum "of both, of jobs of lines that no calls need have made"
            corrected_of_changes sum "of both, of jobs that a change of kind promised a minute"
            promises_of_corrected sum "jobs corrected in place that started by their promise"
            bounds_of_corrected sum "by their bound"
            forecasts_of_corrected sum "by their forecast"
            starts_before_the_stale sum "before an earliest start that was given before the correction"
            earliest_afresh sum "earliest starts given after one, smaller than one before it"
        }
    }
}

/// By number, of openings, of calls and of readings.
#[derive(Default, Clone, Copy)]
pub struct Refusals([u64; 24]);

impl Refusals {
    pub fn count(&mut self, number: u32) {
        self.0[number as usize] += 1;
    }

    fn add(&mut self, other: &Refusals) {
        self.0.iter_mut().zip(other.0).for_each(|(n, more)| *n += more);
    }
}

impl Display for Refusals {
    fn fmt(&self, f: &mut Formatter) -> Result {
        writeln!(f, "refusals by number, from 0:\n            {:?}", self.0)
    }
}

/// Of damaged desks, how often each condition was the first that was broken.
#[derive(Default, Clone, Copy)]
pub struct Broken([u64; CONDITIONS.len()]);

impl Broken {
    pub fn count(&mut self, condition: usize) {
        self.0[condition] += 1;
    }

    fn add(&mut self, other: &Broken) {
        self.0.iter_mut().zip(other.0).for_each(|(n, more)| *n += more);
    }
}

impl Display for Broken {
    fn fmt(&self, f: &mut Formatter) -> Result {
        writeln!(f, "conditions of damaged desks that were broken first:")?;
        CONDITIONS.iter().zip(self.0).try_for_each(|((words, _), times)| line(f, times, words))
    }
}
