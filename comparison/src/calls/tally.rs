//! What a comparison has met: answers by call, outcomes, effects, and full tables.

use std::collections::BTreeMap;

use oracle::house::{Answer, Call};

use super::due::{self, Due};
use super::readback::{self, Readbacks};
use super::sharing::{self, Sharing};
use super::starts::{self, Starts};
use crate::room;
use crate::store::{Store, MOST_PENDING, MOST_SLOTS, MOST_TIMERS, MOST_VARIABLES, RULES};

/// The eight calls, the next start and the readback.
const CALLS: [&str; 10] = ["new", "load", "unload", "enable", "tick", "run", "deadline", "counters", "start", "readback"];
const EFFECTS: [&str; 13] = [
    "Light",
    "SceneRecall",
    "SceneApply",
    "HclResume",
    "HclHold",
    "HclSchedule",
    "InputFeedback",
    "PanelSelect",
    "CancelHold",
    "CatchMovement",
    "MqttPublish",
    "Log",
    "Level",
];
const TRIGGERS: [&str; 5] = ["HttpTrigger", "TimerFires", "Every", "AtTime", "AtSolar"];
const SAID: [&str; 4] = ["enable yes", "enable no", "deadline at a time", "deadline none"];
/// What the calls of a history are compared with: document 02's request 5 changes ticks whose clock was set back.
const WHEELS: [&str; 2] = ["the Rust, up to the first clock set back", "its variant for the definition, from there on"];
/// Tables of a store, and how many each can hold.
const TABLES: [&str; 5] = ["rules", "pending", "timers", "variables", "Every slots"];
const FULL: [usize; 5] = [RULES, MOST_PENDING, MOST_TIMERS, MOST_VARIABLES, MOST_SLOTS];
const REASONS: [&str; 3] = ["none", "ConditionUnevaluable", "EffectBudget"];

/// The refusals that each call can have.
fn refusals(call: usize) -> Vec<u32> {
    let more: &[u32] = match CALLS[call] {
        "new" => return vec![0, 1],
        "load" => &[10, 11, 12, 13, 14, 15, 16, 17],
        "tick" | "run" => &[20, 21, 22, 30, 31, 32],
        "start" => &[20, 21, 22],
        "readback" => &[20, 21, 22, 30],
        _ => &[],
    };
    [&[0, 1, 2], more].concat()
}

/// Which of the calls.
pub fn place(call: &Call) -> usize {
    match call {
        Call::New { .. } => 0,
        Call::Load { .. } => 1,
        Call::Unload { .. } => 2,
        Call::Enable { .. } => 3,
        Call::Tick { .. } => 4,
        Call::Run { .. } => 5,
        Call::Deadline => 6,
        Call::Own { name: "readback", .. } => 9,
        Call::Own { .. } => 8,
        _ => 7,
    }
}

#[derive(Default)]
pub struct Tally {
    pub calls: u64,
    /// Of the calls of histories: those up to a tick whose clock was set back, and those from it on.
    wheels: [u64; 2],
    /// Beside them, ticks and runs on sets with action kind 28: the Rust has no such kind, so they are compared with the definition only.
    pub percents: u64,
    /// How often the Rust was asked whether it shows a chain of rules (document 02, request 9).
    pub chains: u64,
    /// How often the last activation number was compared with the Rust's `activations_total` (document 02, request 6).
    pub numbered: u64,
    /// Sets that fit only by sharing.
    pub sharing: Sharing,
    pub starts: Starts,
    pub readbacks: Readbacks,
    /// Ticks with many continuations due.
    pub due: Due,
    /// What sets were told to need, and what their ticks and runs gave.
    pub rooms: [u64; room::CELLS.len()],
    answers: BTreeMap<(usize, u32), u64>,
    /// Of what a call said yes, no, a time or none.
    said: BTreeMap<&'static str, u64>,
    effects: [u64; 13],
    triggers: [u64; 5],
    reasons: [u64; 3],
    outcomes: u64,
    dry: u64,
    most: [usize; 5],
}

impl Tally {
    pub fn add(&mut self, call: &Call, answer: &Answer) {
        let number = match answer {
            Answer::Refused(number) => *number,
            _ => 0,
        };
        self.count(place(call), number);
        match answer {
            Answer::Outcomes { list, .. } => {
                self.outcomes += list.len() as u64;
                for outcome in list {
                    self.dry += u64::from(outcome.dry);
                    self.triggers[outcome.trigger as usize] += 1;
                    self.reasons[outcome.reason as usize] += 1;
                    outcome.effects.iter().for_each(|effect| self.effects[effect[0] as usize] += 1);
                }
            }
            Answer::Enabled(yes) => self.say(SAID[usize::from(!*yes)]),
            Answer::Deadline(time) => self.say(SAID[2 + usize::from(time.is_none())]),
            _ => {}
        }
    }

    /// Which wheel the Rust had: its own, or the variant for clocks that were set back.
    pub fn wheel(&mut self, set_back: bool) {
        self.wheels[usize::from(set_back)] += 1;
    }

    /// Both counts.
    pub fn wheels(&self) -> String {
        let [published, variant] = self.wheels;
        format!("{published} compared with the Rust, {variant} behind a clock set back with its variant for the definition")
    }

    pub fn percents(&self) -> String {
        format!("{} ticks and runs with action kind 28 with the definition only", self.percents)
    }

    /// Where the Rust shows a chain there is a difference.
    pub fn chains(&self) -> String {
        format!("the Rust asked {} times for a chain of rules", self.chains)
    }

    pub fn numbered(&self) -> String {
        format!("{} last numbers are the Rust's activations_total", self.numbered)
    }

    pub fn sharing(&self) -> String {
        format!("{} histories load a set that fits only by sharing", self.sharing.histories)
    }

    pub fn due(&self) -> String {
        let [many, all, ..] = self.due.counts;
        format!("{many} ticks with 20 to 31 continuations due, {all} with 32")
    }

    pub fn readbacks(&self) -> String {
        let [rules, starts] = self.readbacks.sums();
        format!("{rules} rules read back with {starts} solar starts")
    }

    pub fn rooms(&self) -> String {
        format!("{} ticks and runs within the room that their set is told, {} of them lent it exactly", self.rooms[room::WITHIN], self.rooms[room::LENT])
    }

    /// An answer with no values: a refusal.
    pub fn count(&mut self, call: usize, number: u32) {
        self.calls += 1;
        *self.answers.entry((call, number)).or_insert(0) += 1;
    }

    fn say(&mut self, what: &'static str) {
        *self.said.entry(what).or_insert(0) += 1;
    }

    /// How full the tables of a store were.
    pub fn keep(&mut self, store: &Store) {
        let counts =
            [store.bits.len(), store.pending.len(), store.timers.len(), store.variables.len(), store.slots.len()];
        for (most, count) in self.most.iter_mut().zip(counts) {
            *most = count.max(*most);
        }
    }

    /// Prints the table; whether every cell that can be reached was.
    pub fn report(&self) -> bool {
        let mut empty = 0;
        for (at, name) in CALLS.into_iter().enumerate() {
            let count = |number: u32| self.answers.get(&(at, number)).copied().unwrap_or(0);
            empty += row(name, refusals(at).into_iter().map(|number| (number.to_string(), count(number))));
        }
        empty += named_row("effects", &EFFECTS, &self.effects);
        empty += named_row("triggers", &TRIGGERS, &self.triggers);
        empty += named_row("reasons", &REASONS, &self.reasons);
        let said = |what: &&str| (what.to_string(), self.said.get(what).copied().unwrap_or(0));
        empty += row("said", SAID.iter().map(said));
        empty += row("outcomes", [("all".to_owned(), self.outcomes), ("dry".to_owned(), self.dry)].into_iter());
        empty += named_row("wheel", &WHEELS, &self.wheels);
        empty += usize::from(self.percents == 0) + usize::from(self.chains == 0) + usize::from(self.numbered == 0);
        empty += named_row("sharing", &sharing::CELLS, &self.sharing.counts);
        empty += named_row("starts", &starts::CELLS, &self.starts.counts);
        empty += named_row("readbacks", &readback::CELLS, &self.readbacks.counts);
        empty += usize::from(self.sharing.histories <= sharing::LEAST);
        empty += named_row("due", &due::CELLS, &self.due.counts);
        empty += named_row("room", &room::CELLS, &self.rooms);
        let most: Vec<u64> = self.most.iter().map(|count| *count as u64).collect();
        named_row("most", &TABLES, &most);
        empty += self.most.iter().zip(FULL).filter(|(most, full)| *most != full).count();
        if empty > 0 {
            println!("{empty} cells that can be reached are empty, or tables never full");
        }
        empty == 0
    }
}

/// Prints the cells; how many are empty.
fn row(name: &str, cells: impl Iterator<Item = (String, u64)>) -> usize {
    print!("{name:10}");
    let mut empty = 0;
    for (name, count) in cells {
        empty += usize::from(count == 0);
        print!(" {name}: {count} ");
    }
    println!();
    empty
}

fn named_row(name: &str, names: &[&str], counts: &[u64]) -> usize {
    row(name, names.iter().map(|name| name.to_string()).zip(counts.iter().copied()))
}
