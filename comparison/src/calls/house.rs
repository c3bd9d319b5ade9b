//! A store in words, and the proved calls on it: what a C caller lends and sees.

use cerambiu::words;
use oracle::house::{Answer, Call};

use super::{readback, starts};
use crate::store::{pair, WORDS};

/// What stands in lent words before a call.
const FILLED: u32 = 0xdead_beef;

/// So many words to lend, with other words in them than a call leaves: also for a call that answers into a store of its own.
pub fn filled(words: usize) -> Vec<u32> {
    vec![FILLED; words]
}

/// What must stand in so many lent words after a call: its answer, and zeros behind it; after a refusal zeros.
pub fn zeros_behind(mut answer: Vec<u32>, words: usize) -> Vec<u32> {
    answer.resize(words, 0);
    answer
}

/// Words lent for a call's values, outcomes and effects; those for effects also serve the solar starts of a rule.
#[derive(Clone, Copy, Debug, Default)]
pub struct Lent {
    pub answer: usize,
    pub outcomes: usize,
    pub effects: usize,
}

/// What a call returned and wrote, but for the store.
#[derive(Clone, Debug, PartialEq)]
pub struct Seen {
    pub number: u32,
    pub answer: Vec<u32>,
    pub outcomes: Vec<u32>,
    pub effects: Vec<u32>,
}

impl Seen {
    /// The Rust numbers no activations: outcomes are compared without their last two words.
    pub fn without_numbers(&self) -> Seen {
        let mut shown = self.clone();
        for outcome in shown.outcomes.chunks_exact_mut(cerambiu::OUTCOME_WORDS) {
            outcome[6..].fill(0);
        }
        shown
    }
}

pub struct House {
    pub store: Vec<u32>,
    /// Words of the store that calls are given.
    pub size: usize,
}

impl Default for House {
    /// A store made new at time 0.
    fn default() -> House {
        let mut house = House { store: filled(WORDS), size: WORDS };
        house.call(&Call::New { time: 0 }, Lent::default());
        house
    }
}

impl House {
    /// One of the eight calls, the next start or a readback. A store of another size has the same words in front, and others behind.
    pub fn call(&mut self, call: &Call, lent: Lent) -> Seen {
        if self.size == WORDS {
            return made(&mut self.store, call, lent);
        }
        let mut other = self.store.clone();
        other.resize(self.size, FILLED);
        let before = other.clone();
        let seen = made(&mut other, call, lent);
        if other != before {
            self.store[..self.size.min(WORDS)].copy_from_slice(&other[..self.size.min(WORDS)]);
        }
        seen
    }
}

/// One of the eight calls, the next start or a readback on these words, with lent words that are filled before.
pub fn made(store: &mut [u32], call: &Call, lent: Lent) -> Seen {
    let handles = usize::from(matches!(call, Call::Tick { .. } | Call::Run { .. }));
    let has_answer = usize::from(!matches!(call, Call::New { .. } | Call::Load { .. } | Call::Unload { .. }));
    let mut answer = filled(lent.answer * has_answer);
    let mut outcomes = filled(lent.outcomes * handles);
    let mut effects = filled(if handles == 1 || reads_back(call) { lent.effects } else { 0 });
    let number = number(store, call, &mut answer, &mut outcomes, &mut effects);
    Seen { number, answer, outcomes, effects }
}

fn reads_back(call: &Call) -> bool {
    matches!(call, Call::Own { name: "readback", .. })
}

/// The number that a call returns.
pub fn number(store: &mut [u32], call: &Call, answer: &mut [u32], outcomes: &mut [u32], effects: &mut [u32]) -> u32 {
    match call {
        Call::New { time } => words::new(store, *time),
        Call::Load { time, image } => words::load(store, *time, image),
        Call::Unload { time } => words::unload(store, *time),
        Call::Enable { rule, on } => words::enable(store, *rule, *on, answer),
        Call::Tick { snapshot } => words::tick(store, snapshot, outcomes, effects, answer),
        Call::Run { rule, dry, snapshot } => words::run(store, *rule, *dry, snapshot, outcomes, effects, answer),
        Call::Deadline => words::next_deadline(store, answer),
        Call::Counters => words::counters(store, answer),
        Call::Own { name: "start", given } => words::next_start(store, &given.list, answer),
        Call::Own { name: "readback", given } => words::readback(store, given.word(0), &given.list, effects, answer),
        Call::Lend { .. } | Call::Size { .. } | Call::Poke { .. } | Call::Peek { .. } | Call::Own { .. } => 0,
    }
}

/// What the answer of a call must look like: document 01's number, its values, and zeros behind them. Outcomes have 0 for their activation
/// number, which the Rust does not have.
pub fn expected(call: &Call, answer: &Answer, lent: Lent) -> Seen {
    let number = match answer {
        Answer::Refused(number) => *number,
        _ => 0,
    };
    let (mut outcomes, mut effects) = (Vec::new(), Vec::new());
    if let Answer::Outcomes { list, .. } = answer {
        for outcome in list {
            let first = effects.len() / cerambiu::EFFECT_WORDS;
            outcomes.extend([outcome.rule, outcome.dry, outcome.trigger, outcome.reason]);
            outcomes.extend([first as u32, outcome.effects.len() as u32, 0, 0]);
            effects.extend(outcome.effects.iter().flatten());
        }
    }
    let mut values = values(answer, effects.len() / cerambiu::EFFECT_WORDS);
    if let (true, Answer::Own(lines)) = (reads_back(call), answer) {
        (values, effects) = readback::words(lines);
    }
    if !matches!(call, Call::New { .. } | Call::Load { .. } | Call::Unload { .. }) {
        values = zeros_behind(values, lent.answer);
    }
    let handles = matches!(call, Call::Tick { .. } | Call::Run { .. });
    if handles {
        outcomes = zeros_behind(outcomes, lent.outcomes);
    }
    if handles || reads_back(call) {
        effects = zeros_behind(effects, lent.effects);
    }
    Seen { number, answer: values, outcomes, effects }
}

fn values(answer: &Answer, effects: usize) -> Vec<u32> {
    match answer {
        Answer::Outcomes { list, .. } => vec![list.len() as u32, effects as u32],
        Answer::Enabled(known) => vec![u32::from(*known)],
        Answer::Deadline(None) => vec![0; 3],
        Answer::Deadline(Some(time)) => [[1].as_slice(), &pair(*time)].concat(),
        Answer::Counters(counters) => counters.to_vec(),
        Answer::Own(line) => starts::values(line),
        Answer::Silent | Answer::Refused(_) | Answer::Word(_) | Answer::Unsupported(_) => Vec::new(),
    }
}
