//! Every condition and value of an image, in a snapshot and a store: the proved answers beside the oracle's.

use oracle::access::Evaluator;
use oracle::decode;
use oracle::generate::{self, evaluation};
use oracle::house::Call;
use oracle::model::{Condition, ValueExpr};
use oracle::random::Random;

use crate::cells::{Cells, CONDITIONS, READINGS, VALUES};
use crate::kept::{self, Player};
use crate::proved::Given;
use crate::store::{pair, Store, Timer, Value, Variable};
use crate::store_reader;
use crate::tables::{Tables, CONDITION_RECORDS, VALUE_RECORDS};

const MOST_SHOWN: u64 = 10;
const REFUSED: u32 = 3;

#[derive(Default)]
pub struct Evaluation {
    pub cells: Cells,
    pub answers: u64,
    pub refused: u64,
    pub differences: u64,
}

impl Evaluation {
    /// Random images that hold each kind, in random states and snapshots.
    pub fn scenes(&mut self, count: u64, seed: u64) {
        let mut random = Random::new(seed);
        for _ in 0..count {
            let image = evaluation::image(&mut random).words();
            for _ in 0..4 {
                let world = evaluation::snapshot(&mut random);
                let store = random_store(&mut random, &image, world.now);
                self.compare(&world.words(), &store.words());
            }
        }
    }

    /// The loaded image at each tick and run of generated histories, in the store that the oracle has then.
    pub fn histories(&mut self, count: u64, seed: u64) {
        for seed in seed..seed + count {
            let mut player = Player::default();
            for call in generate::history(seed) {
                if let Call::Tick { snapshot } | Call::Run { snapshot, .. } = &call {
                    if let Some(store) = player.store() {
                        self.compare(snapshot, &store.words());
                    }
                }
                player.call(&call);
            }
        }
    }

    fn compare(&mut self, snapshot: &[u32], words: &[u32]) {
        let store = match store_reader::read(words) {
            Ok(store) => store,
            Err(rule) => return self.differs(&format!("the reader refuses a store: {}", rule.text())),
        };
        let Some(image) = store.image.clone() else {
            return;
        };
        let given = Given { snapshot, image: &image, store: words };
        if oracle::check::snapshot_refusal(snapshot).is_some() {
            self.refusal(given);
            return;
        }
        let world = decode::world(snapshot);
        let evaluator = Evaluator::new(decode::rule_set(&image).0, kept::evaluated(&store));
        let (conditions, values) = decode::conditions_and_values(&image);
        for (index, condition) in conditions.iter().enumerate() {
            self.condition(given, index, evaluator.condition(&world, condition), condition);
        }
        for (index, value) in values.iter().enumerate() {
            self.value(given, index, evaluator.value(&world, value), value);
        }
    }

    fn condition(&mut self, given: Given<'_>, index: usize, wanted: Option<bool>, condition: &Condition) {
        let code = wanted.map_or(2, u32::from);
        let found = given.condition(index as u32);
        let record = Tables::of(given.image).record(CONDITION_RECORDS, index as u32);
        let row = if record[0] == 15 { 15 + record[3] } else { record[0] };
        self.cells.count(CONDITIONS, row as usize, code as usize);
        self.answers += 1;
        if found != code {
            self.differs(&format!("condition: proved {found}, oracle {code}: {condition:?}"));
        }
    }

    fn value(&mut self, given: Given<'_>, index: usize, wanted: Option<i64>, value: &ValueExpr) {
        let words = wanted.map_or([2, 0, 0], |number| {
            let [low, high] = pair(number as u64);
            [1, low, high]
        });
        let found = given.value(index as u32);
        let record = Tables::of(given.image).record(VALUE_RECORDS, index as u32);
        let column = usize::from(wanted.is_none());
        self.cells.count(VALUES, record[0] as usize, column);
        if record[0] > 0 {
            self.cells.count(READINGS, record[1] as usize, column);
        }
        self.answers += 1;
        if found != words {
            self.differs(&format!("value: proved {found:?}, oracle {words:?}: {value:?}"));
        }
    }

    /// A refused snapshot, and with an accepted one a refused image and a store of another shape.
    fn refusal(&mut self, given: Given<'_>) {
        let fine = oracle::build::World::at(0).words();
        let short = &given.image[1..];
        let torn = &given.store[1..];
        let accepted = Given { snapshot: &fine, ..given };
        for refused in [given, Given { image: short, ..accepted }, Given { store: torn, ..accepted }] {
            self.refused += 1;
            if refused.condition(0) != REFUSED || refused.value(0) != [REFUSED, 0, 0] {
                self.differs("an argument that should be refused is not");
            }
        }
    }

    fn differs(&mut self, text: &str) {
        self.differences += 1;
        if self.differences <= MOST_SHOWN {
            println!("{text}");
        }
    }

    pub fn report(&self) -> bool {
        print!("{}", self.cells.text());
        let wrong = self.cells.wrong();
        wrong.iter().for_each(|cell| println!("empty, or reached though listed as unreachable: {cell}"));
        println!(
            "evaluation: {} conditions and values, {} refused arguments, {} wrong cells, {} differences",
            self.answers,
            self.refused,
            wrong.len(),
            self.differences
        );
        wrong.is_empty() && self.differences == 0 && self.refused > 0
    }
}

/// Rule bits, last activations, variables and timers at random; last activations about as old as conditions ask.
fn random_store(random: &mut Random, image: &[u32], now: u64) -> Store {
    let rules = Tables::of(image).rule_names();
    let activation = |random: &mut Random| match random.below(4) {
        0 => None,
        1 => Some(random.next() >> random.below(64)),
        _ => Some(now.saturating_sub(evaluation::age(random))),
    };
    let names: Vec<u32> = (0..evaluation::NAMES).collect();
    let some = |random: &mut Random| -> Vec<u32> { names.iter().copied().filter(|_| random.bit() == 1).collect() };
    Store {
        last: random.next(),
        bits: rules.iter().map(|_| random.bit() == 1).collect(),
        activations: rules.iter().map(|_| activation(random)).collect(),
        positions: rules.iter().map(|_| random.maybe(|random| random.below(16))).collect(),
        variables: some(random).into_iter().map(|name| Variable { name, value: variable(random) }).collect(),
        timers: some(random).into_iter().map(|name| Timer { name, due: random.next() }).collect(),
        image: Some(image.to_vec()),
        next: random.next(),
        counters: std::array::from_fn(|_| random.word()),
        ..Store::default()
    }
}

fn variable(random: &mut Random) -> Value {
    evaluation::integer(random).map_or_else(|| Value::Text(random.below(3)), Value::Integer)
}
