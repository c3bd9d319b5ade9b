//! Histories of clocks that are set back, near the 1 to 120 minutes in which a tick starts no wall rule (request 5 of document 02).
//! They stand beside the histories of `super::history`, whose seeds they do not change.

use crate::build::{Action, Image, Rule, Trigger, World};
use crate::house::Call;
use crate::random::Random;

const DAY: u32 = 1_440;
const WEEK: u32 = 10_080;
const DAYS: u32 = 127;
const TICKS: u32 = 14;
/// How far a clock is set back: about the ends of what starts nothing, and about the hour.
const STEPS: [u32; 13] = [0, 0, 1, 1, 2, 59, 60, 61, 119, 120, 120, 121, 121];

/// The same seed gives the same history.
#[must_use]
pub fn history(seed: u64) -> Vec<Call> {
    let mut random = Random::new(seed.rotate_left(32));
    let start = random.pick([30, 100, 300, 1_400, 5_000, WEEK - 130, WEEK - 1]);
    let image = image(&mut random, start).words();
    let mut author = Author { random, minute: start, now: 0, calls: Vec::new() };
    author.calls.push(Call::Load { time: 0, image });
    for _ in 0..TICKS {
        author.step();
    }
    author.calls.push(Call::Counters);
    author.calls
}

/// A rule for the minutes around the start: by the clock, some by the sun, and one that waits; and one every second.
fn image(random: &mut Random, start: u32) -> Image {
    let mut rules: Vec<Rule> = (1..=random.from_to(2, 8)).map(|name| rule(random, name, start)).collect();
    let mut every = Rule::new(9, vec![Action::Log(9)]);
    every.triggers = vec![Trigger::Every(1_000)];
    rules.push(every);
    Image::of(rules)
}

fn rule(random: &mut Random, name: u32, start: u32) -> Rule {
    let minute = (start + WEEK + random.below(140) - random.below(200)) % DAY;
    let actions = match random.below(4) {
        0 => vec![Action::Wait(1_000), Action::Log(name)],
        1 => vec![Action::TimerStart(1, 1_000), Action::Log(name)],
        _ => vec![Action::Log(name)],
    };
    let trigger = match random.below(5) {
        0 => Trigger::AtSolar(random.bit(), random.pick([0, 60_000, -3_600_000])),
        1 => Trigger::TimerFires(1),
        _ => Trigger::AtTime(minute / 60, minute % 60, DAYS),
    };
    let mut rule = Rule::new(name, actions);
    rule.enabled = u32::from(!random.once_in(8));
    rule.triggers = vec![trigger];
    rule
}

struct Author {
    random: Random,
    minute: u32,
    now: u64,
    calls: Vec<Call>,
}

impl Author {
    fn step(&mut self) {
        let by = match self.random.below(8) {
            0 | 1 => 1,
            2 => self.random.below(130),
            3 => self.random.pick([59, 60, 61]),
            _ => WEEK - self.random.pick(STEPS),
        };
        self.minute = (self.minute + by) % WEEK;
        self.now += u64::from(self.random.below(4)) * 500;
        let wall = (!self.random.once_in(12)).then_some((self.minute / DAY, self.minute % DAY));
        let near = self.minute % DAY;
        let sun = (!self.random.once_in(4)).then_some((near, (near + 60) % DAY));
        let snapshot = World { wall, sun, ..World::at(self.now) }.words();
        self.calls.push(match self.random.below(12) {
            0 => Call::Run { rule: self.random.below(9), dry: self.random.bit() == 1, snapshot },
            _ => Call::Tick { snapshot },
        });
    }
}

#[cfg(test)]
mod tests {
    use super::history;
    use crate::house::{Answer, House};

    #[test]
    fn no_call_is_refused_and_most_histories_set_a_clock_back() {
        let mut set_back = 0;
        for seed in 0..400 {
            let mut house = House::new();
            for call in history(seed) {
                assert!(!matches!(house.call(&call), Answer::Refused(_)));
            }
            set_back += u32::from(house.is_set_back());
        }
        assert!(set_back > 300);
    }
}
