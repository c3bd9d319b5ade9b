//! Stores with changed words: every call but new refuses with 2 exactly those in which the reader of the words finds a rule broken.

use std::collections::BTreeMap;

use oracle::access::NextStart;
use oracle::build::{Action, Image, Rule, World};
use oracle::generate;
use oracle::house::{Answer, Call};
use oracle::next_start;
use oracle::random::Random;
use oracle::readback as oracle_readback;
use oracle::script::Given;

use super::both::Difference;
use super::house::{expected, made, Lent, Seen};
use super::{readback, starts};
use super::tally::{self, Tally};
use crate::good_stores;
use crate::store::{Store, WORDS};
use crate::store_reader::{self, Broken};
use crate::tables::Tables;

const LENT: Lent = Lent { answer: 16, outcomes: 80, effects: 55 };

/// The calls that look at the store's rules.
const CALLS: usize = 9;

fn all_calls(random: &mut Random) -> [Call; CALLS] {
    let image = Image::of(vec![Rule::new(7, vec![Action::Wait(5)])]).words();
    let snapshot = World { wall: Some((3, 701)), ..World::at(80_000) }.words();
    let nth = random.below(8);
    let rule = random.pick([1, 7, 1_000 - 3 * nth]);
    [
        Call::Load { time: 80_000, image },
        Call::Unload { time: 80_000 },
        Call::Enable { rule, on: random.bit() == 1 },
        Call::Tick { snapshot: snapshot.clone() },
        Call::Run { rule, dry: random.bit() == 1, snapshot: snapshot.clone() },
        Call::Deadline,
        Call::Counters,
        generate::starts::start(snapshot),
        generate::solar::readback(rule, LENT.effects as u32, World { sun: Some((10, 1_000)), ..World::at(80_000) }.words()),
    ]
}

pub struct Stores<'a> {
    random: Random,
    tally: &'a mut Tally,
    /// The first store that was met for each rule broken; and how many of each.
    broken: BTreeMap<Broken, (Vec<u32>, u64)>,
    good: u64,
    /// Image, bits and the Rust's next start of the store that was asked for it last: most changed words leave it as it is.
    asked: Option<(Option<Vec<u32>>, Vec<bool>, NextStart)>,
}

impl<'a> Stores<'a> {
    pub fn new(seed: u64, tally: &'a mut Tally) -> Stores<'a> {
        Stores { random: Random::new(seed), tally, broken: BTreeMap::new(), good: 0, asked: None }
    }

    /// Every word of each good store to so many other values, the greatest first, one at a time; the calls take turns.
    pub fn sweep(&mut self, values: usize, seed: u64, mut differs: impl FnMut(Difference)) {
        for (name, store) in good_stores::all(seed) {
            let mut words = store.words();
            for place in 0..WORDS {
                let was = words[place];
                for turn in 0..values {
                    let others = [0, 1, was.wrapping_add(1), was.wrapping_sub(1)];
                    let choice = if turn % 5 == 0 { u32::MAX } else { others[(place + turn) % 4] };
                    words[place] = if choice == was { was ^ 1 } else { choice };
                    let told = |text| format!("{name}, word {place} to {}: {text}", words[place]);
                    self.one(&words, place + turn).map_err(told).unwrap_or_else(&mut differs);
                }
                words[place] = was;
            }
        }
    }

    /// Some words of a store changed, and one call.
    pub fn hostile(&mut self, store: &[u32]) -> Result<(), Difference> {
        let mut words = store.to_vec();
        for _ in 0..self.random.from_to(1, 3) {
            let place = match self.random.below(4) {
                0 => self.random.below(WORDS as u32),
                1 => self.random.below(200),
                2 => self.random.from_to(4_100, 4_300),
                _ => self.random.from_to(12_421, 13_738),
            } as usize;
            let was = words[place];
            let any = self.random.word();
            words[place] = self.random.pick([0, 1, was.wrapping_add(1), was.wrapping_sub(1), u32::MAX, any]);
        }
        let turn = self.random.below(CALLS as u32) as usize;
        self.one(&words, turn)
    }

    /// For each rule, a store that breaks it: all those calls refuse it, and new takes it.
    pub fn every_rule(&mut self, mut differs: impl FnMut(Difference)) {
        for (rule, (words, _)) in self.broken.clone() {
            let told = |text| format!("{}: {text}", rule.text());
            for turn in 0..CALLS {
                self.one(&words, turn).map_err(told).unwrap_or_else(&mut differs);
            }
            let mut store = words;
            let call = Call::New { time: 9 };
            let seen = made(&mut store, &call, Lent::default());
            self.tally.count(tally::place(&call), seen.number);
            if seen.number != 0 || store_reader::read(&store).is_err() {
                differs(told("new does not make it new".to_owned()));
            }
        }
    }

    fn one(&mut self, words: &[u32], turn: usize) -> Result<(), Difference> {
        let call = &all_calls(&mut self.random)[turn % CALLS];
        let mut store = words.to_vec();
        let seen = made(&mut store, call, LENT);
        self.tally.count(tally::place(call), seen.number);
        match store_reader::read(words) {
            Err(rule) => {
                self.broken.entry(rule).or_insert_with(|| (words.to_vec(), 0)).1 += 1;
                let wanted: Seen = expected(call, &Answer::Refused(2), LENT);
                let fine = seen == wanted && store == words;
                fine.then_some(())
                    .ok_or_else(|| format!("{call:?}: {rule:?}, but answer {} or a word changed", seen.number))
            }
            Ok(held) => {
                self.good += 1;
                if let Some(snapshot) = starts::snapshot(call) {
                    return self.start(&held, call, snapshot, &seen, store == words);
                }
                if let Call::Own { name: "readback", given } = call {
                    return self.readback(&held, call, given, &seen, store == words);
                }
                let fine = seen.number != 2 && store_reader::read(&store).is_ok();
                fine.then_some(())
                    .ok_or_else(|| format!("{call:?}: a good store, but answer {} or no store after it", seen.number))
            }
        }
    }

    /// What starts next in a store that no history may have made.
    fn start(&mut self, held: &Store, call: &Call, snapshot: &[u32], seen: &Seen, stays: bool) -> Result<(), Difference> {
        let start = self.next_start(held, snapshot);
        self.tally.starts.see(&start);
        let fine = *seen == expected(call, &starts::answer(&Ok(start.clone())), LENT) && stays;
        fine.then_some(()).ok_or_else(|| format!("{call:?}: proved {:?}, Rust {start:?}, or a word changed", seen.answer))
    }

    /// The solar starts of a rule in a store that no history may have made.
    fn readback(&mut self, held: &Store, call: &Call, given: &Given, seen: &Seen, stays: bool) -> Result<(), Difference> {
        let rule = given.word(0);
        let starts = oracle_readback::of_set(held.image.as_deref(), rule, &given.list, LENT.effects);
        if let Ok(starts) = &starts {
            let loaded = held.image.as_deref().is_some_and(|image| Tables::of(image).rule_names().contains(&rule));
            self.tally.readbacks.see(loaded, starts);
        }
        let fine = *seen == expected(call, &readback::answer(&starts), LENT) && stays;
        fine.then_some(()).ok_or_else(|| format!("{call:?}: proved {:?}, Rust {starts:?}, or a word changed", seen.effects))
    }

    /// By the published due test. The snapshot is always the same.
    fn next_start(&mut self, held: &Store, snapshot: &[u32]) -> NextStart {
        if let Some((image, bits, start)) = &self.asked {
            if *image == held.image && *bits == held.bits {
                return start.clone();
            }
        }
        let start = next_start::of_set(held.image.as_deref(), &held.bits, snapshot);
        self.asked = Some((held.image.clone(), held.bits.clone(), start.clone()));
        start
    }

    /// Prints the counts; whether every rule was broken by some store.
    pub fn report(&self) -> bool {
        let refused: u64 = self.broken.values().map(|(_, count)| count).sum();
        println!("changed stores: {refused} break a rule, {} are stores still", self.good);
        let missing = Broken::ALL.into_iter().filter(|rule| *rule != Broken::Size && !self.broken.contains_key(rule));
        let mut whole = true;
        for rule in missing {
            println!("no store breaks: {}", rule.text());
            whole = false;
        }
        whole
    }
}
