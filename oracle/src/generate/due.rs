//! Histories with 20 to 32 continuations due in one tick (request 3 of document 02): due times that rise, fall, are equal or saturate, rules
//! that are disabled and enabled by what resumes, waits that fill the records again, clocks that go back. They stand beside the histories of
//! `super::history`, whose seeds they do not change.

use crate::build::{Action, Image, Rule, World};
use crate::house::Call;
use crate::random::Random;

const ROUNDS: u32 = 4;
/// How many continuations a store holds.
const MOST: u32 = 32;
/// The rule whose continuations wait, and the one that its continuations disable and enable.
const WAITING: u32 = 1;
const OTHER: u32 = 2;
const STEP: u32 = 1_000;
/// Long enough that every due time of a history is over, and short of 2^32.
const LONG: u64 = 100_000;
/// Where the clock begins: near 2^64 due times saturate.
const STARTS: [u64; 6] = [0, 0, 1_000_000, u64::MAX - 2_000_000, u64::MAX - 20_000, u64::MAX - 5_000];

/// The same seed gives the same history.
#[must_use]
pub fn history(seed: u64) -> Vec<Call> {
    let mut random = Random::new(seed.rotate_left(48));
    let now = random.pick(STARTS);
    let image = image(&mut random).words();
    let calls = vec![Call::Load { time: now, image }];
    let mut author = Author { random, now, calls };
    for _ in 0..ROUNDS {
        author.round();
    }
    author.calls.push(Call::Counters);
    author.calls
}

/// Two rules with 20 to 32 afters between them; a third that waits beside them.
fn image(random: &mut Random) -> Image {
    let all = random.pick([20, 24, 28, 31, 32, 32, 32, 32, 36]);
    let first = random.from_to(all / 2, all);
    let order = random.below(5);
    let waiting = Rule::new(WAITING, afters(random, order, first));
    let other = Rule::new(OTHER, afters(random, order, all - first));
    let beside = Rule::new(3, vec![Action::Wait(random.pick([0, STEP, 5 * STEP])), Action::Log(3)]);
    Image::of(vec![waiting, other, beside])
}

fn afters(random: &mut Random, order: u32, count: u32) -> Vec<Action> {
    let delay = |random: &mut Random, at: u32| match order {
        0 => at * STEP,
        1 => (MOST - at.min(MOST)) * STEP,
        2 => STEP,
        3 => random.below(4) * STEP,
        _ => random.below(MOST) * STEP,
    };
    (0..count).map(|at| Action::After(delay(random, at), body(random, at))).collect()
}

fn body(random: &mut Random, at: u32) -> Vec<Action> {
    let log = Action::Log(10 + at);
    match random.below(8) {
        0 => vec![log, Action::RuleDisable(OTHER)],
        1 => vec![Action::RuleEnable(OTHER), log],
        2 | 3 => vec![Action::Wait(random.pick([0, 1, STEP, 4 * STEP])), log],
        4 => vec![Action::After(random.pick([0, STEP]), vec![log])],
        _ => vec![log],
    }
}

struct Author {
    random: Random,
    now: u64,
    calls: Vec<Call>,
}

impl Author {
    fn snapshot(&self) -> Vec<u32> {
        World::at(self.now).words()
    }

    fn tick(&mut self) {
        let snapshot = self.snapshot();
        self.calls.push(Call::Tick { snapshot });
    }

    /// The records fill, some ticks go by, and then all that waits is due.
    fn round(&mut self) {
        for rule in [OTHER, WAITING] {
            let on = !self.random.once_in(8);
            self.calls.push(Call::Enable { rule, on });
        }
        for rule in [WAITING, OTHER] {
            let snapshot = self.snapshot();
            self.calls.push(Call::Run { rule, dry: false, snapshot });
        }
        for _ in 0..self.random.below(3) {
            self.between();
        }
        self.now = self.now.saturating_add(LONG);
        self.tick();
        self.tick();
    }

    fn between(&mut self) {
        match self.random.below(6) {
            // A clock that goes back.
            0 => self.now = self.now.saturating_sub(u64::from(self.random.from_to(1, 9)) * u64::from(STEP)),
            1 => self.calls.push(Call::Enable { rule: OTHER, on: self.random.bit() == 1 }),
            2 => {
                let snapshot = self.snapshot();
                self.calls.push(Call::Run { rule: 3, dry: false, snapshot });
            }
            _ => self.now = self.now.saturating_add(u64::from(self.random.below(MOST) * STEP)),
        }
        self.tick();
    }
}

#[cfg(test)]
mod tests {
    use super::history;
    use crate::house::{Answer, House};

    #[test]
    fn no_call_is_refused_and_many_ticks_have_20_or_more_outcomes() {
        let mut many = 0;
        for seed in 0..200 {
            let mut house = House::new();
            for call in history(seed) {
                let answer = house.call(&call);
                assert!(!matches!(answer, Answer::Refused(_)));
                many += u32::from(matches!(answer, Answer::Outcomes { list, .. } if list.len() >= 20));
            }
        }
        assert!(many > 200);
    }
}
