//! Stores and stores with one word changed: what the proved check says, and the reader of the words beside it.

use std::collections::BTreeMap;
use std::hint::black_box;
use std::time::{Duration, Instant};

use oracle::build::World;
use oracle::generate;

use crate::good_stores;
use crate::kept::Player;
use crate::proved::{self, Given};
use crate::store_reader::{self, Broken};

const MOST_SHOWN: u64 = 10;
/// How often a full store is checked and summed to measure the time.
const TIMES: u32 = 200;

/// Counts of changed stores by the rule that they break; None: still a store.
type Counts = BTreeMap<Option<Broken>, u64>;

#[derive(Default)]
pub struct Changes {
    counts: Vec<(&'static str, Counts)>,
    stores: u64,
    differences: u64,
}

impl Changes {
    /// The stores that the oracle comes to in generated histories: each is a store, and stays one when it is read and written.
    pub fn histories(&mut self, count: u64, seed: u64) {
        for seed in seed..seed + count {
            let mut player = Player::default();
            for call in generate::history(seed) {
                player.call(&call);
                if let Some(store) = player.store() {
                    self.stores += 1;
                    let words = store.words();
                    let read = self.compare(&words);
                    if read.is_some() || store_reader::read(&words) != Ok(store) {
                        self.differs(&format!("history {seed}: not a store, or another: {read:?}"));
                    }
                }
            }
        }
    }

    /// Every word of each good store to 0, 1, its neighbours and the greatest, one at a time; and stores of other lengths.
    pub fn sweep(&mut self, seed: u64) {
        for (name, store) in good_stores::all(seed) {
            let words = store.words();
            let read = self.compare(&words);
            if read.is_some() || (name == "full" && !good_stores::is_full(&store)) {
                self.differs(&format!("{name}: not a good store: {read:?}"));
            }
            let mut counts = Counts::new();
            self.change_words(&words, &mut counts);
            for length in [0, 1, words.len() - 1, words.len() + 1] {
                let mut other = words.clone();
                other.resize(length, 0);
                *counts.entry(self.compare(&other)).or_insert(0) += 1;
            }
            if name == "typical" {
                self.evaluated(&words, store.image.as_deref().unwrap_or(&[]));
            }
            if name == "full" {
                times(&words);
            }
            self.counts.push((name, counts));
        }
    }

    fn change_words(&mut self, words: &[u32], counts: &mut Counts) {
        each_change(words, |varied| {
            *counts.entry(self.compare(varied)).or_insert(0) += 1;
        });
    }

    /// The rule that words break.
    fn compare(&mut self, words: &[u32]) -> Option<Broken> {
        let broken = store_reader::read(words).err();
        if proved::store_check(words) != broken.is_none() {
            self.differs(&format!("check says {}, the reader {broken:?}", broken.is_some()));
        }
        broken
    }

    /// Evaluation refuses a store exactly where its state cannot be read.
    fn evaluated(&mut self, words: &[u32], image: &[u32]) {
        let snapshot = World::at(0).words();
        each_change(words, |store| {
            let taken = Given { snapshot: &snapshot, image, store }.condition(0) != 3;
            if taken != store_reader::readable(store) {
                self.differs("evaluation takes a store that cannot be read, or refuses one that can");
            }
        });
    }

    fn differs(&mut self, text: &str) {
        self.differences += 1;
        if self.differences <= MOST_SHOWN {
            println!("{text}");
        }
    }

    /// The table of rules by store. Each rule is broken by some change.
    pub fn report(&self) -> bool {
        print!("{:52}", "stores with one word changed, by the rule broken");
        self.counts.iter().for_each(|(name, _)| print!(" {name:>9}"));
        println!();
        let mut never = 0;
        for rule in std::iter::once(None).chain(Broken::ALL.map(Some)) {
            print!("{:52}", rule.map_or("still a store", Broken::text));
            let row: Vec<u64> = self.counts.iter().map(|(_, counts)| counts.get(&rule).copied().unwrap_or(0)).collect();
            row.iter().for_each(|count| print!(" {count:>9}"));
            println!();
            never += u64::from(row.iter().all(|count| *count == 0));
        }
        let changed: u64 = self.counts.iter().flat_map(|(_, counts)| counts.values()).sum();
        println!(
            "stores: {} of histories, {changed} changed, {never} rules never broken, {} differences",
            self.stores, self.differences
        );
        self.differences == 0 && never == 0 && self.stores > 0
    }
}

/// The words with each word changed in turn.
fn each_change(words: &[u32], mut each: impl FnMut(&[u32])) {
    let mut varied = words.to_vec();
    for place in 0..words.len() {
        let was = words[place];
        let mut others = vec![0, 1, was.wrapping_add(1), was.wrapping_sub(1), u32::MAX];
        others.sort_unstable();
        others.dedup();
        for word in others.into_iter().filter(|word| *word != was) {
            varied[place] = word;
            each(&varied);
        }
        varied[place] = was;
    }
}

/// The time of a check beside that of a plain sum over the same words.
fn times(words: &[u32]) {
    let check = fastest(|| u64::from(proved::store_check(black_box(words))));
    let sum = fastest(|| black_box(words).iter().map(|word| u64::from(*word)).sum());
    println!("full store: check {check:?}, sum of its words {sum:?}");
}

/// The fastest of many runs.
fn fastest(work: impl Fn() -> u64) -> Duration {
    let run = |_| {
        let start = Instant::now();
        black_box(work());
        start.elapsed()
    };
    (0..TIMES).map(run).min().unwrap_or_default()
}
