//! `comparison HISTORIES SWEEPS SEED`: the proved functions beside the oracle, over so many generated histories.
//!
//! - Refusals: their images and snapshots, valid and hostile, and so many of the accepted ones varied word by word and cut at every length; and the room
//!   that each image needs.
//! - Evaluation: every condition and value of an image, in random and in the histories' snapshots and stores, with the table of what was met.
//! - Stores: the proved check beside a reader of the words, on the histories' stores and with every word of good stores changed, one at
//!   a time, with the table of the rules that are then broken; and the time of a check of a full store beside a sum of its words.
//!
//! Prints the counts, the slowest images, and each difference; its status is 1 if there is one, or if a cell of the table is empty.
//!
//! `comparison calls ..` compares the eight calls (`calls`), `comparison telegrams ..` the list of telegrams (`telegrams`), `comparison crontab ..` lines of a
//! crontab (`crontab`), `comparison bench ..` plays all short lists of sets (`bench`), `comparison rewrite ..` images written anew (`rewrite`), `comparison speed ..` times them, `comparison once ..` makes each check once (`speed`), and `comparison small-stack ..` makes every
//! call of scripts on a small stack (`small_stack`).

mod bench;
mod calls;
mod cells;
mod changes;
mod crontab;
mod evaluation;
mod flat_form;
mod good_stores;
mod kept;
mod proved;
mod refusals;
mod rewrite;
mod room;
mod sleeping;
mod small_stack;
mod speed;
mod store;
mod store_reader;
mod tables;
mod telegrams;
mod worst;

use std::process::ExitCode;

use changes::Changes;
use evaluation::Evaluation;
use refusals::Tally;

fn numbers() -> Option<[u64; 3]> {
    let given: Vec<u64> = std::env::args().skip(1).map_while(|arg| arg.parse().ok()).collect();
    given.try_into().ok()
}

fn main() -> ExitCode {
    let command = calls::command().or_else(telegrams::command).or_else(crontab::command).or_else(bench::command);
    let command = command.or_else(rewrite::command).or_else(speed::command);
    if let Some(status) = command.or_else(small_stack::command).or_else(sleeping::command) {
        return status;
    }
    let Some([histories, sweeps, seed]) = numbers() else {
        eprintln!("usage: comparison HISTORIES SWEEPS SEED");
        return ExitCode::from(2);
    };
    let mut tally = Tally::default();
    tally.worst();
    tally.histories(histories, sweeps, seed);
    let mut evaluated = Evaluation::default();
    evaluated.scenes(histories, seed);
    evaluated.histories(histories, seed);
    let mut changes = Changes::default();
    changes.histories(histories, seed);
    changes.sweep(seed);
    let parts = [tally.report(), evaluated.report(), changes.report()];
    println!("comparison: {} of 3 parts without a difference", parts.iter().filter(|fine| **fine).count());
    ExitCode::from(u8::from(parts != [true; 3]))
}
