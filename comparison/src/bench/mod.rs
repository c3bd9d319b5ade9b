//! `comparison bench CALLS SEED SET..`: all short lists of the sets in the files SET, each played as one rule beside the Rust.
//!
//! - Calls: so many random ones of the proved numbering beside the oracle's own code, which makes every list in its order.
//! - Sets: for each number the proved function is asked for its list, up to the first that it refuses. The list is loaded as one rule, run dry, run wet,
//!   and ticked at each deadline until none is left, 20 times at most; all of it is compared as `comparison calls` does. A list with action kind 28,
//!   which the Rust has not, is compared with the oracle's own code for it, and counted apart.
//!
//! A file has a line for each record (`set`). Prints what was met and each difference; its status is 1 if there is one, or if a refusal was not met.

mod random;
mod set;

use std::collections::BTreeSet;
use std::fs;
use std::hint::black_box;
use std::process::ExitCode;
use std::time::Instant;

use cerambiu::words;
use oracle::build::{Device, Group, Hcl, Input, Lamp, World};
use oracle::house::Call;
use oracle::short_lists::{NO_LIST, NO_SET, RULE, UNFIT};

use crate::calls::both::Both;
use crate::calls::house::{filled, zeros_behind};
use crate::calls::tally::Tally;
use set::Set;

const MOST_SHOWN: u64 = 10;
const MOST_TICKS: usize = 20;
const VALUES: usize = 4;
const REFUSALS: [u32; 3] = [NO_SET, UNFIT, NO_LIST];
/// Kinds without lists of their own.
const KINDS: usize = 26;
/// Kinds whose steps leave something that the others find: cycle, timers, variables, rules, wait.
const SHARING: [u32; 9] = [3, 13, 14, 15, 16, 17, 18, 19, 23];

/// The status of the command; None for another command.
pub fn command() -> Option<ExitCode> {
    let args: Vec<String> = std::env::args().skip(1).collect();
    let (first, rest) = args.split_first()?;
    if first != "bench" {
        return None;
    }
    let numbers: Vec<u64> = rest.iter().map_while(|word| word.parse().ok()).collect();
    let [calls, seed] = numbers[..] else {
        eprintln!("usage: comparison bench CALLS SEED SET..");
        return Some(ExitCode::from(2));
    };
    let mut bench = Bench::default();
    bench.random(calls, seed);
    for path in &rest[numbers.len()..] {
        match fs::read_to_string(path).map_err(|why| why.to_string()).and_then(|text| Set::read(&text)) {
            Ok(set) => bench.set(path, &set),
            Err(why) => bench.differs(path, &why),
        }
    }
    timed();
    Some(ExitCode::from(u8::from(!bench.report())))
}

#[derive(Default)]
struct Bench {
    tally: Tally,
    calls: u64,
    accepted: u64,
    refused: [u64; 3],
    lists: u64,
    percents: u64,
    kinds: BTreeSet<u32>,
    /// Two of the sharing kinds that one set has.
    pairs: BTreeSet<[u32; 2]>,
    differences: u64,
}

impl Bench {
    fn differs(&mut self, name: &str, text: &str) {
        self.differences += 1;
        if self.differences <= MOST_SHOWN {
            println!("{name}: {}", text.chars().take(600).collect::<String>());
        }
    }

    fn random(&mut self, calls: u64, seed: u64) {
        for seed in seed..seed + calls {
            let (set, k, lent) = random::call(seed);
            self.ask(&format!("random call {seed}"), &set, k, lent);
        }
        println!("random calls: {}, {} accepted, {} differences", self.calls, self.accepted, self.differences);
    }

    /// One call of both: the number and every lent word. The places of the list, if there is one.
    fn ask(&mut self, name: &str, set: &Set, k: u32, lent: usize) -> Option<Vec<usize>> {
        let mut answer = filled(lent);
        let number = words::short_list(k, &set.actions, &set.values, &set.pool, &mut answer);
        let wanted = set.words().list(k);
        let (wanted_number, values) = match &wanted {
            Ok(places) => (0, [vec![places.len() as u32], places.iter().map(|place| *place as u32).collect()].concat()),
            Err(number) => (*number, Vec::new()),
        };
        self.calls += 1;
        match REFUSALS.iter().position(|refusal| *refusal == wanted_number) {
            Some(refusal) => self.refused[refusal] += 1,
            None => self.accepted += 1,
        }
        if number != wanted_number || answer != zeros_behind(values, lent.max(VALUES))[..lent] {
            self.differs(name, &format!("list {k} of {set:?}: proved {number} {answer:?}, wanted {wanted:?}"));
        }
        wanted.ok()
    }

    fn set(&mut self, path: &str, set: &Set) {
        let (lists, calls, percents, differences) = (self.lists, self.tally.calls, self.percents, self.differences);
        for k in 0.. {
            let name = format!("{path}, list {k}");
            let Some(places) = self.ask(&name, set, k, VALUES) else {
                break;
            };
            self.lists += 1;
            self.percents += u64::from(places.iter().any(|place| set.is_percent(*place)));
            let image = set.words().image(&places);
            if let Err(text) = play(&mut self.tally, u64::from(k), image) {
                self.differs(&name, &text);
            }
        }
        self.see(set);
        if self.lists == lists {
            let refusal = set.words().list(0).err().unwrap_or(0);
            self.differs(path, &format!("the set is refused with {refusal}"));
        }
        let apart = self.percents - percents;
        println!(
            "{path}: {} lists, {apart} of them with kind 28 by the definition only, {} calls, {} differences",
            self.lists - lists,
            self.tally.calls - calls,
            self.differences - differences
        );
    }

    /// What kinds a set has, and which together.
    fn see(&mut self, set: &Set) {
        let kinds: BTreeSet<u32> = set.kinds().collect();
        let sharing = || kinds.iter().copied().filter(|kind| SHARING.contains(kind));
        self.pairs.extend(sharing().flat_map(|a| sharing().filter(move |b| a < *b).map(move |b| [a, b])));
        self.kinds.extend(kinds);
    }

    fn report(&self) -> bool {
        let met = self.refused.iter().all(|count| *count > 0);
        let refused: Vec<String> = REFUSALS.iter().zip(self.refused).map(|(number, count)| format!("{count} with {number}")).collect();
        println!("numbering: {} calls, {} accepted, refused: {}", self.calls, self.accepted, refused.join(", "));
        let pairs = SHARING.len() * (SHARING.len() - 1) / 2;
        println!("sets: {} of {KINDS} kinds, {} of {pairs} pairs of 3, 13 to 19 and 23 in one set", self.kinds.len(), self.pairs.len());
        let rust = self.lists - self.percents;
        println!(
            "bench: {} lists, {rust} beside the Rust and {} with kind 28 beside the definition, {} differences",
            self.lists, self.percents, self.differences
        );
        met && self.differences == 0
    }
}

/// A list as one rule, up to its end or the first difference.
fn play(tally: &mut Tally, seed: u64, image: Vec<u32>) -> Result<(), String> {
    let mut both = Both::new(seed, tally);
    both.line(&Call::Load { time: 0, image })?;
    for dry in [true, false] {
        both.line(&Call::Run { rule: RULE, dry, snapshot: snapshot(0) })?;
    }
    for _ in 0..MOST_TICKS {
        let Some(time) = both.deadline() else {
            break;
        };
        both.line(&Call::Tick { snapshot: snapshot(time) })?;
    }
    Ok(())
}

/// A house with one row of each table, so that a reading finds something.
fn snapshot(now: u64) -> Vec<u32> {
    World {
        wall: Some((1, 600)),
        sun: Some((400, 1_100)),
        lamps: vec![Lamp { id: [1, 4], level: Some(100), on: 1, ..Lamp::default() }],
        groups: vec![Group { id: [1, 2], ..Group::default() }],
        devices: vec![Device { id: [1, 2], online: 1 }],
        inputs: vec![Input { id: [1, 2, 3], light: Some(40), ..Input::default() }],
        hcl: vec![Hcl { target: 1, enabled: 1, overridden: 0 }],
        ..World::at(now)
    }
    .words()
}

/// The least wall time of a call with the smallest and with the largest tables, in microseconds.
fn timed() {
    let actions = [17, 1, 0, 0, 0, 0, 0, 0].repeat(8);
    for records in [1, 505] {
        let values = [2, 18, 1, 0, 0, 1, 0, 0].repeat(records);
        let mut answer = [0; VALUES];
        let mut least = f64::MAX;
        for _ in 0..20 {
            let from = Instant::now();
            words::short_list(black_box(584), &actions, &values, &[], &mut answer);
            least = least.min(from.elapsed().as_secs_f64());
        }
        println!("list 584 of eight actions over {records} values, {} places: {:.1} us", answer[0], least * 1e6);
    }
}
