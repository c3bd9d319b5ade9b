//! Histories that ask what starts next by the wall clock (request 7 of document 02): sets of wall triggers, bits that are switched, clocks near a trigger's minute.
//! They stand beside the histories of `super::history`, whose seeds they do not change.

use crate::build::{Action, Image, Lamp, Rule, Trigger, World};
use crate::house::Call;
use crate::random::Random;
use crate::script::Given;

const DAY: u32 = 1_440;
const WEEK: u32 = 10_080;
const DAYS: u32 = 127;
const STORE_WORDS: u32 = 16_384;

/// The call.
#[must_use]
pub fn start(snapshot: Vec<u32>) -> Call {
    Call::Own { name: "start", given: Given { list: snapshot, ..Given::default() } }
}

/// A few questions to any store.
#[must_use]
pub fn questions(seed: u64) -> Vec<Call> {
    let mut random = Random::new(seed.rotate_left(16));
    (0..2).map(|_| start(world(&mut random, &[]).words())).collect()
}

/// The same seed gives the same history.
#[must_use]
pub fn history(seed: u64) -> Vec<Call> {
    let mut random = Random::new(seed.rotate_left(48));
    let rules = rules(&mut random);
    let names: Vec<u32> = rules.iter().map(|rule| rule.name).collect();
    let minutes: Vec<u32> = rules.iter().flat_map(|rule| rule.triggers.iter().filter_map(minute)).collect();
    let mut calls = vec![Call::Load { time: 0, image: Image::of(rules).words() }];
    for _ in 0..random.from_to(3, 6) {
        match random.below(6) {
            0 => calls.push(Call::Enable { rule: names[random.below(names.len() as u32) as usize], on: random.bit() == 1 }),
            1 => calls.push(Call::Tick { snapshot: world(&mut random, &minutes).words() }),
            _ => {}
        }
        calls.push(start(snapshot(&mut random, &minutes)));
    }
    if random.once_in(8) {
        let words = random.pick([0, STORE_WORDS - 1, STORE_WORDS + 1]);
        let asked = start(snapshot(&mut random, &minutes));
        calls.extend([Call::Size { words }, asked, Call::Size { words: STORE_WORDS }]);
    }
    if random.once_in(4) {
        calls.extend([Call::Unload { time: 9 }, start(snapshot(&mut random, &minutes))]);
    }
    calls
}

/// Names in no order, so that the lowest is often not the first.
fn rules(random: &mut Random) -> Vec<Rule> {
    let common = random.below(DAY);
    let first = random.below(20);
    let step = random.pick([1, 7, 11]);
    let count = random.from_to(1, 8);
    (0..count).map(|at| rule(random, first + (at * step + 3) % 23, common)).collect()
}

fn rule(random: &mut Random, name: u32, common: u32) -> Rule {
    let mut rule = Rule::new(name, vec![Action::Log(name)]);
    rule.enabled = u32::from(!random.once_in(4));
    rule.triggers = (0..random.below(4)).map(|_| trigger(random, common)).collect();
    rule
}

/// Many at one minute or beside it; on few days, so that a week may pass.
fn trigger(random: &mut Random, common: u32) -> Trigger {
    let any = random.below(DAY);
    let minute = random.pick([common, common, (common + 1) % DAY, any]);
    let days = random.below(128);
    match random.below(8) {
        0 => Trigger::Every(1_000),
        1 => Trigger::TimerFires(1),
        2 => Trigger::Other,
        3 => Trigger::AtSolar(random.bit(), random.pick([0, 59_999, -60_000, 90_000, -1_800_000, i32::MAX, i32::MIN])),
        _ => Trigger::AtTime(minute / 60, minute % 60, random.pick([1, 64, DAYS, 0, days])),
    }
}

/// The first minute of the week at which a trigger by the clock stands.
fn minute(trigger: &Trigger) -> Option<u32> {
    match trigger {
        Trigger::AtTime(hour, minute, days) if *days > 0 => Some(days.trailing_zeros() * DAY + hour * 60 + minute),
        _ => None,
    }
}

/// A clock near the minute of a trigger, or anywhere; now and then none.
fn world(random: &mut Random, minutes: &[u32]) -> World {
    let near = match minutes {
        [] => random.below(WEEK),
        _ => minutes[random.below(minutes.len() as u32) as usize],
    };
    let any = random.below(WEEK);
    let at = random.pick([near, near, (near + WEEK - 1) % WEEK, (near + 1) % WEEK, any, WEEK - 1]);
    let wall = (!random.once_in(10)).then_some((at / DAY, at % DAY));
    let sun = (!random.once_in(3)).then_some(((at + 1) % DAY, random.below(DAY)));
    World { wall, sun, ..World::at(5_000) }
}

/// The same in words, of which some are no snapshot.
fn snapshot(random: &mut Random, minutes: &[u32]) -> Vec<u32> {
    let mut world = world(random, minutes);
    match random.below(20) {
        0 => world.words()[..random.below(14) as usize].to_vec(),
        1 => World { wall: Some((7, 0)), ..world }.words(),
        2 => {
            world.lamps = vec![Lamp::default(); 2];
            world.words()
        }
        _ => world.words(),
    }
}

#[cfg(test)]
mod tests {
    use super::history;
    use crate::house::{Answer, House};

    #[test]
    fn answers_and_refusals_are_met() {
        let mut met = std::collections::BTreeSet::new();
        for seed in 0..300 {
            let mut house = House::new();
            for call in history(seed) {
                match house.call(&call) {
                    Answer::Own(line) => met.insert(line.split(' ').nth(1).unwrap_or_default().trim_end().to_owned()),
                    Answer::Refused(number) => met.insert(format!("refused {number}")),
                    _ => true,
                };
            }
        }
        for wanted in ["none", "unknown", "1", "10080", "1440", "refused 1", "refused 20", "refused 21", "refused 22"] {
            assert!(met.contains(wanted), "{wanted}");
        }
    }
}
