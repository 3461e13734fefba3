//! A desk that lives in a folder: `rack DIR ..`. The folder is a journal of calls: `desk-N` has a desk's lines and `calls-N` the calls that
//! were taken since, so that nothing is forgotten when a command ends or the power fails.

mod arguments;
mod clock;
mod commands;
mod folder;
mod follow;
mod generations;
mod held;
mod journal;
mod repair;
mod say;
mod screen;
mod system;
mod turn;

pub use clock::Times;
pub use commands::{run, Ended};

/// What the usage says of a folder.
pub const USAGE: &str = "\
A desk in a folder:
  rack DIR ..                             every command goes on with the desk in the folder DIR, and leaves it there. A call
                                          that is taken is on the disk before its answer is printed
  open promise|loose NODES                opens the desk and makes the folder, which must not be there yet; at minute M (0),
                                          with first ticket T (1), CLEANUP C (0), and places A and B (63 and 1)
    --since TIME                          the desk follows the machine's clock: it is at minute M at TIME, which is
                                          '@SECONDS' since 1970, or 'now' or as 2026-11-17T08:00, in UTC or with an offset as
                                          +02:00 after it. Every command first lets the minutes pass that have passed
  WORD FIELD..                            a later line by its fields, as 'rack DIR in 6 20 A'
  (nothing)                               plays the later lines on standard input
  close                                   begins the next generation: desk-N has the desk's lines, calls-N the calls since.
                                          That happens by itself after 10,000 calls
  prune                                   removes all generations but the last two
  audit                                   plays every generation and compares with the next: prints ok CALLS, or says where
                                          they differ
  follow                                  prints over, start and head lines as they come, until it gets SIGTERM or the pipe
                                          is closed
  picture                                 prints a picture of the plan, in SVG: a bar for each live job by the minute or the time
                                          of day, the promises or the forecast, and on a Promise Desk the free nodes. What
                                          came of minutes that have passed is then on standard error
    --until MINUTE                        shows it up to MINUTE; without it, as far as most jobs go
  page                                    prints a page in HTML that needs nothing else: clock, next ticket, queue and picture. A
                                          browser loads it again every minute
    --to FILE                             rewrites FILE with it in each minute, until it gets SIGTERM
  repair --to-line K                      of a damaged calls-N, leaves K lines and goes on; what it held stays beside it
  --words                                 prints plain sentences too, as on a terminal
  --shared                                allows a folder that others may write
Status: 0 taken; 1 refused, or a line of the script was; 2 wrong usage; 3 cannot read or write: a sentence on standard
error says what, and nothing was changed.
";
