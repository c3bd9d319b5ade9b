//! `comparison calls HISTORIES LENGTH VALUES SEED EDGES`: the eight proved calls, the next start and the readback of solar starts beside the Rust.
//!
//! - Edges: every script of the folder EDGES.
//! - Histories: so many generated ones from SEED on, valid and hostile; behind each, its store with random words.
//! - Clocks set back: as many histories around the ticks that document 02's request 5 changes.
//! - Sharing: a sixteenth as many histories, and 2,200 at least, of sets that fit only by sharing (document 02's request 8): they are nearly as large
//!   as a set can be, and their calls take longest.
//! - Next starts: as many histories of sets with wall triggers that ask for the next start (document 02's request 7), and two questions behind each history above.
//! - Solar starts: as many histories of sets with AtSolar triggers (document 02's request 4); behind each of the eight calls of every history the solar starts of
//!   every rule that is loaded, and of one that is not.
//! - What is due: as many histories, and 600 at least, with 20 to 32 continuations due in one tick (document 02's request 3).
//! - Lists: every list of up to LENGTH of the small actions, as a rule.
//! - Levels: action kind 28 on every entry and every middle of the dimming curve and their neighbours, and on values without a level.
//! - Stores: every word of good stores to VALUES other values; a store for each rule that is broken.
//!
//! Of each call: number, values, outcomes, effects, all words of the store, and that a refusal changed nothing and left zeros. Behind each the
//! Rust is asked whether its memory of chains shows, in its counter, a reason or the depth of a continuation (document 02's request 9): that
//! would be a difference too. Of the numbers of activations, which the Rust has not (request 6), the last one is held to its
//! `activations_total`. Of each image that is loaded: the room that it needs, which no tick or run passes, in the Rust as in the proved
//! calls (`room`). Prints each difference, the counts, and what was met; its status is 1 if there is a difference or a cell that can be
//! reached is empty.

pub mod both;
mod due;
pub mod house;
mod levels;
mod lists;
mod readback;
mod sharing;
mod starts;
mod stores;
pub mod tally;

use std::fs;
use std::path::Path;
use std::process::ExitCode;

use oracle::generate;
use oracle::house::Call;
use oracle::script;

use both::{Both, Difference};
pub use lists::small_actions;
use crate::store_reader;
use stores::Stores;
use tally::Tally;

const MOST_SHOWN: u64 = 10;
const MOST_LETTERS: usize = 600;
const LEAST_SHARED: u64 = 2_200;
const SHARED_PART: u64 = 16;
const LEAST_DUE: u64 = 600;

/// The status of the command; None for another command.
pub fn command() -> Option<ExitCode> {
    let args: Vec<String> = std::env::args().skip(1).collect();
    let [first, numbers @ .., edges] = args.as_slice() else {
        return None;
    };
    if first != "calls" {
        return None;
    }
    let numbers: Vec<u64> = numbers.iter().map_while(|word| word.parse().ok()).collect();
    let [histories, length, values, seed] = numbers[..] else {
        eprintln!("usage: comparison calls HISTORIES LENGTH VALUES SEED EDGES");
        return Some(ExitCode::from(2));
    };
    let mut calls = Calls::default();
    calls.edges(Path::new(edges));
    calls.histories(histories, seed);
    calls.set_backs(histories, seed);
    calls.sharing((histories / SHARED_PART).max(LEAST_SHARED), seed);
    calls.starts(histories, seed);
    calls.solar(histories, seed);
    calls.due(histories.max(LEAST_DUE), seed);
    calls.lists(length as u32);
    calls.levels();
    calls.stores(values as usize, seed);
    Some(ExitCode::from(u8::from(!calls.report())))
}

#[derive(Default)]
struct Calls {
    tally: Tally,
    differences: u64,
    empty: bool,
}

impl Calls {
    fn differs(&mut self, name: &str, text: &Difference) {
        self.differences += 1;
        if self.differences <= MOST_SHOWN {
            let shown: String = text.chars().take(MOST_LETTERS).collect();
            println!("{name}: {shown}");
        }
    }

    /// A history up to its end or its first difference, and its store at the end.
    fn play(&mut self, name: &str, seed: u64, history: &[Call]) -> Option<Vec<u32>> {
        let mut both = Both::new(seed, &mut self.tally);
        let found = history.iter().enumerate().find_map(|(at, call)| Some((at, both.line(call).err()?)));
        let (store, shares) = (both.store().to_vec(), both.shares);
        self.tally.sharing.histories += u64::from(shares);
        match found {
            None => Some(store),
            Some((at, text)) => {
                self.differs(&format!("{name}, call {at}"), &text);
                None
            }
        }
    }

    fn part(&self, what: &str, count: usize, before: u64) {
        println!("{what}: {count}, {} calls, {} differences so far", self.tally.calls - before, self.differences);
    }

    fn edges(&mut self, folder: &Path) {
        let before = self.tally.calls;
        let mut count = 0;
        let entries = fs::read_dir(folder).into_iter().flatten().flatten();
        for path in entries.map(|entry| entry.path()).filter(|path| path.extension().is_some_and(|end| end == "script"))
        {
            let text = fs::read_to_string(&path).unwrap_or_default();
            let history: Vec<Call> = text.lines().filter_map(|line| script::parse(line).ok().flatten()).collect();
            self.play(&path.display().to_string(), count as u64, &history);
            count += 1;
        }
        self.empty |= count == 0;
        self.part("edges", count, before);
    }

    fn histories(&mut self, count: u64, seed: u64) {
        let before = self.tally.calls;
        for seed in seed..seed + count {
            let name = format!("history {seed}");
            let mut history = generate::history(seed);
            history.extend(generate::starts::questions(seed));
            let Some(store) = self.play(&name, seed, &history) else {
                continue;
            };
            if let Err(rule) = store_reader::read(&store) {
                self.differs(&name, &format!("its store breaks a rule: {}", rule.text()));
            }
            let hostile = Stores::new(seed, &mut self.tally).hostile(&store);
            if let Err(text) = hostile {
                self.differs(&name, &text);
            }
        }
        self.part("histories", count as usize, before);
    }

    fn set_backs(&mut self, count: u64, seed: u64) {
        let before = self.tally.calls;
        for seed in seed..seed + count {
            self.play(&format!("clocks set back, history {seed}"), seed, &generate::set_back::history(seed));
        }
        self.part("clocks set back", count as usize, before);
    }

    fn sharing(&mut self, count: u64, seed: u64) {
        let before = self.tally.calls;
        for seed in seed..seed + count {
            self.play(&format!("shared bodies, history {seed}"), seed, &generate::sharing::history(seed));
        }
        self.part("shared bodies", count as usize, before);
    }

    fn starts(&mut self, count: u64, seed: u64) {
        let before = self.tally.calls;
        for seed in seed..seed + count {
            self.play(&format!("next starts, history {seed}"), seed, &generate::starts::history(seed));
        }
        self.part("next starts", count as usize, before);
    }

    fn solar(&mut self, count: u64, seed: u64) {
        let before = self.tally.calls;
        for seed in seed..seed + count {
            self.play(&format!("solar starts, history {seed}"), seed, &generate::solar::history(seed));
        }
        self.part("solar starts", count as usize, before);
    }

    fn due(&mut self, count: u64, seed: u64) {
        let before = self.tally.calls;
        for seed in seed..seed + count {
            self.play(&format!("what is due, history {seed}"), seed, &generate::due::history(seed));
        }
        self.part("what is due", count as usize, before);
    }

    fn lists(&mut self, length: u32) {
        let before = self.tally.calls;
        for (at, list) in lists::all(length).enumerate() {
            self.play(&format!("list {list:?}"), at as u64, &lists::history(list));
        }
        self.part("lists of small actions", lists::count(length) as usize, before);
    }

    fn levels(&mut self) {
        let before = self.tally.calls;
        let values = levels::values();
        for (at, history) in levels::histories(&values).enumerate() {
            self.play(&format!("levels, part {at}"), at as u64, &history);
        }
        self.part("values in parts per million", values.len(), before);
    }

    fn stores(&mut self, values: usize, seed: u64) {
        let before = self.tally.calls;
        let mut found = Vec::new();
        let mut stores = Stores::new(seed, &mut self.tally);
        stores.sweep(values, seed, |text| found.push(text));
        stores.every_rule(|text| found.push(text));
        self.empty |= !stores.report();
        found.iter().for_each(|text| self.differs("changed store", text));
        self.part("values for each word", values, before);
    }

    fn report(&self) -> bool {
        let whole = self.tally.report() && !self.empty;
        let calls = format!("calls: {} calls, {} differences", self.tally.calls, self.differences);
        let tally = &self.tally;
        let parts = [tally.wheels(), tally.percents(), tally.sharing(), tally.due(), tally.chains(), tally.numbered(), tally.rooms(), tally.readbacks()];
        println!("{calls}; {}", parts.join("; "));
        whole && self.differences == 0
    }
}
