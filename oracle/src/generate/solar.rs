//! Histories of sets with AtSolar triggers, and what is asked of any store (request 4 of document 02): the solar starts of a rule, in a world with or without a
//! sun. They stand beside the histories of `super::history`, whose seeds they do not change.

use crate::build::{Action, Image, Lamp, Rule, Trigger, World};
use crate::house::Call;
use crate::random::Random;
use crate::script::Given;

const DAY: u32 = 1_440;
const STORE_WORDS: u32 = 16_384;

/// The call: rule, words lent for the starts, snapshot.
#[must_use]
pub fn readback(rule: u32, room: u32, snapshot: Vec<u32>) -> Call {
    let numbers = vec![u64::from(rule), u64::from(room)];
    Call::Own { name: "readback", given: Given { numbers, list: snapshot, ..Given::default() } }
}

/// The words of a snapshot, of which some are refused.
#[must_use]
pub fn snapshot(random: &mut Random) -> Vec<u32> {
    let sun = (!random.once_in(4)).then(|| (random.below(DAY), random.pick([0, 10, 719, DAY - 1])));
    let wall = random.maybe(|random| (random.below(7), random.below(DAY)));
    let mut world = World { sun, wall, ..World::at(5_000) };
    match random.below(60) {
        0 => world.words()[..random.below(14) as usize].to_vec(),
        1 => World { sun: Some((DAY, 0)), ..world }.words(),
        2 => {
            world.lamps = vec![Lamp::default(); 2];
            world.words()
        }
        _ => world.words(),
    }
}

/// The same seed gives the same history.
#[must_use]
pub fn history(seed: u64) -> Vec<Call> {
    let mut random = Random::new(seed.rotate_left(24));
    let count = random.from_to(1, 6);
    let rules: Vec<Rule> = (0..count).map(|name| rule(&mut random, name * 7 % 11)).collect();
    let names: Vec<u32> = rules.iter().map(|rule| rule.name).collect();
    let mut calls = vec![Call::Load { time: 0, image: Image::of(rules).words() }];
    for _ in 0..random.from_to(1, 4) {
        let rule = names[random.below(count) as usize];
        let asked = readback(random.pick([rule, rule, 99]), random.below(40), snapshot(&mut random));
        calls.push(match random.below(4) {
            0 => Call::Enable { rule, on: random.bit() == 1 },
            1 => Call::Tick { snapshot: snapshot(&mut random) },
            _ => asked,
        });
    }
    if random.once_in(8) {
        let words = random.pick([0, STORE_WORDS - 1, STORE_WORDS + 1]);
        let asked = readback(names[0], 40, snapshot(&mut random));
        calls.extend([Call::Size { words }, asked, Call::Size { words: STORE_WORDS }]);
    }
    if random.once_in(4) {
        calls.push(Call::Unload { time: 9 });
    }
    calls
}

fn rule(random: &mut Random, name: u32) -> Rule {
    let mut rule = Rule::new(name, vec![Action::Log(name)]);
    rule.enabled = u32::from(!random.once_in(4));
    rule.triggers = (0..random.below(9)).map(|_| trigger(random)).collect();
    rule
}

fn trigger(random: &mut Random) -> Trigger {
    match random.below(8) {
        0 => Trigger::AtTime(random.below(24), random.below(60), random.below(128)),
        1 => Trigger::Every(1_000),
        2 => random.pick([Trigger::TimerFires(1), Trigger::Other]),
        _ => Trigger::AtSolar(random.bit(), offset(random)),
    }
}

/// Beside whole minutes, at the ends of the range, and anywhere.
fn offset(random: &mut Random) -> i32 {
    let minutes = random.below(3_000) as i32 - 1_500;
    let beside = random.pick([-1, 0, 1, 59_999, -59_999]);
    let any = random.word().cast_signed();
    random.pick([minutes * 60_000 + beside, beside, any, any, i32::MIN, i32::MAX])
}

#[cfg(test)]
mod tests {
    use super::history;
    use crate::house::{Answer, House};

    #[test]
    fn answers_and_refusals_are_met() {
        let mut met = std::collections::BTreeSet::new();
        for seed in 0..600 {
            let mut house = House::new();
            for call in history(seed) {
                match house.call(&call) {
                    Answer::Own(lines) => met.extend(lines.lines().map(kind)),
                    Answer::Refused(number) => _ = met.insert(format!("refused {number}")),
                    _ => {}
                }
            }
        }
        let wanted = ["readback 0", "readback 1", "readback 8", "start 1", "whole", "before", "after", "refused 1", "refused 20", "refused 21", "refused 22", "refused 30"];
        for wanted in wanted {
            assert!(met.contains(wanted), "{wanted}");
        }
    }

    /// What a line tells: how many starts, none of them with a sun, or what is left.
    fn kind(line: &str) -> String {
        let words: Vec<&str> = line.split(' ').collect();
        match words[..] {
            ["start", "0", _, "0"] => "whole".to_owned(),
            ["start", "0", _, left] if left.starts_with('-') => "before".to_owned(),
            ["start", "0", ..] => "after".to_owned(),
            _ => words[..2].join(" "),
        }
    }
}
