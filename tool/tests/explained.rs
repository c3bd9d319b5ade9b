//! `explain` says N exactly when the proved call says N.

mod common;

use std::collections::BTreeMap;

use barn::names::Book;
use barn::schema::Table;
use barn::{explain, image};
use oracle::house::Call;
use oracle::random::Random;

const IMAGES: u64 = 30_000;
const STORES: u64 = 20_000;

#[derive(Default)]
struct Tally {
    numbers: BTreeMap<u32, u64>,
    /// What a finding says before its first word or place.
    rules: std::collections::BTreeSet<String>,
}

impl Tally {
    fn compare(&mut self, what: &str, proved: u32, said: Option<explain::Refusal>, words: &[u32]) {
        let number = said.as_ref().map_or(0, |refusal| refusal.number);
        if number != proved {
            let shown = said.map_or("accepted".to_string(), |refusal| explain::text(&refusal, "explain", &[]));
            panic!("{what}: the proved call says {proved}, explain {number}\n{shown}\n{:?}", &words[..words.len().min(200)]);
        }
        if let Some(refusal) = said {
            self.rules.extend(refusal.findings.iter().map(|finding| finding.what.split(':').next().unwrap_or("").to_string()));
            assert!(explain::text(&refusal, "load", &[13, 14]).lines().count() > 0);
        }
        *self.numbers.entry(number).or_default() += 1;
    }

    fn image(&mut self, image: &[u32]) {
        self.compare("image", common::load_number(image), explain::image::refusal(image, &Book::default()), image);
    }

    fn snapshot(&mut self, snapshot: &[u32]) {
        self.compare("snapshot", common::snapshot_number(snapshot), explain::snapshot::refusal(snapshot), snapshot);
    }

    fn store(&mut self, store: &[u32]) {
        self.compare("store", common::store_number(store), explain::store::refusal(store, &Book::default()), store);
    }

    fn total(&self) -> u64 {
        self.numbers.values().sum()
    }

    fn met(&self, wanted: &[u32]) {
        let missing: Vec<&u32> = wanted.iter().filter(|number| !self.numbers.contains_key(number)).collect();
        assert!(missing.is_empty(), "never met: {missing:?} of {:?}", self.numbers);
    }
}

/// A word that is near the old one, or at the end of a range.
fn other_word(random: &mut Random, was: u32) -> u32 {
    match random.below(5) {
        0 => was.wrapping_add(1),
        1 => was.wrapping_sub(1),
        2 => random.pick([0, 1, 2, 16, 24, 60, 128, 256, 65_536, u32::MAX]),
        3 => random.below(40),
        _ => random.word(),
    }
}

/// The words with one of them changed, and its place.
fn changed(random: &mut Random, words: &[u32]) -> Option<(usize, Vec<u32>)> {
    let mut changed = words.to_vec();
    let place = random.below(words.len() as u32) as usize;
    let word = changed.get_mut(place)?;
    *word = other_word(random, *word);
    Some((place, changed))
}

/// The words that the findings point to.
fn pointed(refusal: &explain::Refusal) -> Vec<usize> {
    let word = |what: &str| what.strip_prefix("word ")?.split(|c: char| !c.is_ascii_digit()).next()?.parse().ok();
    refusal.findings.iter().filter_map(|finding| word(&finding.what)).collect()
}

/// Of an accepted image with one word of a record changed: refusal 13 points into this record, and into no other.
fn points_into_the_record(image: &[u32], place: usize) {
    let Some(refusal) = explain::image::refusal(image, &Book::default()).filter(|refusal| refusal.number == 13) else { return };
    let tables = image::Tables::of(image).expect("tables");
    let records = Table::ALL.into_iter().flat_map(|table| (0..tables.count(table)).map(move |index| (table, index)));
    let span = |(table, index): (Table, usize)| tables.place(table, index)..tables.place(table, index) + table.width();
    let own = records.map(span).find(|span| span.contains(&place)).expect("a record");
    assert!(pointed(&refusal).iter().all(|word| own.contains(word)), "word {place}: {refusal:?}");
}

fn images(tally: &mut Tally, random: &mut Random, image: &[u32]) {
    tally.image(image);
    let is_accepted = common::load_number(image) == 0;
    for (place, varied) in (0..4).filter_map(|_| changed(random, image)).collect::<Vec<_>>() {
        tally.image(&varied);
        if is_accepted && place + image::TRAILER < varied.len() {
            points_into_the_record(&varied, place);
        }
    }
}

/// Of an accepted snapshot with one word changed: refusal 21 points to it, or to the value that its mark says is there.
fn snapshots(tally: &mut Tally, random: &mut Random, snapshot: &[u32]) {
    tally.snapshot(snapshot);
    let Some((place, varied)) = changed(random, snapshot) else { return };
    tally.snapshot(&varied);
    let refusal = explain::snapshot::refusal(&varied).filter(|refusal| refusal.number == 21);
    if let Some(refusal) = refusal.filter(|_| common::snapshot_number(snapshot) == 0) {
        let near = |word: &usize| (place..=place + 2).contains(word);
        assert!(!pointed(&refusal).is_empty() && pointed(&refusal).iter().all(near), "word {place}: {refusal:?}");
    }
}

#[test]
fn images_and_snapshots() {
    let (mut of_images, mut of_snapshots) = (Tally::default(), Tally::default());
    let mut random = Random::new(7);
    let mut calls: Vec<Call> = common::recorded();
    let mut seed = 0;
    while of_images.total() < IMAGES || of_snapshots.total() < IMAGES {
        for call in std::mem::take(&mut calls) {
            match call {
                Call::Load { image, .. } => images(&mut of_images, &mut random, &image),
                Call::Tick { snapshot } | Call::Run { snapshot, .. } => snapshots(&mut of_snapshots, &mut random, &snapshot),
                _ => {}
            }
        }
        calls = common::history(seed);
        seed += 1;
    }
    of_images.met(&[0, 10, 11, 12, 13, 14, 15, 16, 17]);
    of_snapshots.met(&[0, 20, 21, 22]);
    println!("images {:?}\nsnapshots {:?}", of_images.numbers, of_snapshots.numbers);
}

/// What is said of an example with a word changed: the place, the range and the rule.
#[test]
fn a_refusal_in_words() {
    let path = common::example("layer-house.rules");
    let rules = barn::files::read_rules(&path).expect("rules");
    let words = image::write(&rules.file.set);
    let tables = image::Tables::of(&words).expect("tables");
    let end = words.len() - image::TRAILER;
    let (hour, wait) = (tables.place(Table::Triggers, 0) + 1, tables.place(Table::Actions, 1));
    let table = [
        (end, 0, format!("refused 11 by load: word {end}, trailer word 0 (budget limit): 0, allowed 1 to 256\n")),
        (end + 6, 33, "refused 12 by load: table rules has the words 0 to 33: 33 words are no whole number of records of 16\n".to_string()),
        (hour, 25, format!("refused 13 by load: word {hour}, table triggers, record 0, field 1 (hour): 25, allowed 0 to 23\n  at  AtTime hour=25 minute=0 days=127\n  of  rule morning (")),
        (wait, 29, format!("refused 13 by load: word {wait}, table actions, record 1: unknown kind 29, allowed 0 to 28\n")),
        (8, 7, "refused 14 by load: word 8, table rules, record 0, field 8 (first action): 7, with 3 records, ends at 10: table actions has 7\n".to_string()),
        (16, words[0], "refused 15 by load: records 0 and 1 of table rules (words 0 and 16) have one name: rule morning (".to_string()),
    ];
    for (place, word, wanted) in table {
        let mut changed = words.clone();
        changed[place] = word;
        let refusal = explain::image::refusal(&changed, &rules.file.book).expect("a refusal");
        let said = explain::text(&refusal, "load", &explain::image::NUMBERS);
        assert!(said.starts_with(&wanted), "{said}");
    }
    let snapshot = [0, 0, 1, 7, 1_440, 2, 0, 0, 1, 0, 0, 0, 0, 0];
    let said = explain::text(&explain::snapshot::refusal(&snapshot).expect("a refusal"), "tick", &explain::snapshot::NUMBERS);
    let wanted = "refused 21 by tick: word 3 (weekday): 7, allowed 0 to 6\nalso 21: word 4 (minute): 1440, allowed 0 to 1439\nalso 21: word 5 (sun present): 2, allowed 0 or 1\n22 was not reached\n";
    assert_eq!(said, wanted);
}

/// The stores that the proved calls come to, each with words changed.
#[test]
fn stores() {
    let mut tally = Tally::default();
    let mut random = Random::new(11);
    let (mut outcomes, mut effects) = (vec![0; 8 * 1_184], vec![0; 5 * 65_536]);
    let mut seed = 0;
    let mut changed_and_good = 0;
    while tally.total() < STORES {
        let mut store = common::new_store();
        for call in common::history(seed) {
            let _ = match call {
                Call::New { time } => cerambiu::new(&mut store, time),
                Call::Load { time, image } => cerambiu::load(&mut store, time, &image),
                Call::Unload { time } => cerambiu::unload(&mut store, time),
                Call::Enable { rule, on } => cerambiu::enable(&mut store, rule, on).map(|_| ()),
                Call::Tick { snapshot } => cerambiu::tick(&mut store, &snapshot, &mut outcomes, &mut effects).map(|_| ()),
                Call::Run { rule, dry, snapshot } => {
                    cerambiu::run(&mut store, rule, dry, &snapshot, &mut outcomes, &mut effects).map(|_| ())
                }
                _ => continue,
            };
        }
        tally.store(&store);
        for _ in 0..12 {
            let place = store_place(&mut random, &store);
            let was = store[place];
            store[place] = other_word(&mut random, was);
            tally.store(&store);
            changed_and_good += u32::from(store[place] != was && common::store_number(&store) == 0);
            store[place] = was;
        }
        tally.store(&store[1..]);
        seed += 1;
    }
    tally.met(&[0, 1, 2]);
    assert!(changed_and_good > 100, "{changed_and_good}");
    // Nearly every rule of a store is broken by some change.
    assert!(tally.rules.len() >= 22, "{} {:#?}", tally.rules.len(), tally.rules);
    println!("stores {:?}", tally.numbers);
}

/// A place to change: mostly where something stands.
fn store_place(random: &mut Random, store: &[u32]) -> usize {
    use barn::store::{ACTIVATIONS, BITS, IMAGE, LISTS, PENDING, PENDING_WORDS, SLOTS, STEPS, TIMERS, VARIABLES};
    let counted = |place: usize, width: usize| (place, 1 + store[place] as usize * width + 1);
    let (from, length) = match random.below(10) {
        0 => (0, 4),
        1 => counted(IMAGE, 1),
        2 => (LISTS, 20),
        3 => counted(STEPS, 4),
        4 => (BITS, ACTIVATIONS - BITS),
        5 => counted(VARIABLES, 4),
        6 => counted(TIMERS, 3),
        7 => counted(SLOTS, 5),
        8 => counted(PENDING, PENDING_WORDS),
        _ => (ACTIVATIONS, store.len() - ACTIVATIONS),
    };
    (from + random.below(length as u32) as usize).min(store.len() - 1)
}
