//! Histories of sets that fit only by sharing: Repeats round Afters, as milking parlours write them (request 8 of document 02). They stand
//! beside the histories of `super::history`, whose seeds they do not change.

use super::{parts, Profile};
use crate::build::{Action, Block, Condition, Image, Limits, Rule, Trigger, World};
use crate::check;
use crate::house::Call;
use crate::random::Random;

const CALLS: u32 = 14;
/// The rule that milks, one that runs beside it, and the block that has a Repeat.
const MILKING: u32 = 1;
const BESIDE: u32 = 2;
const BLOCK: u32 = 1;
const PROFILE: Profile = Profile { rules: 2, blocks: 1, timers: 2, variables: 2, list: 3, depth: 0, calls: 0 };

/// The same seed gives the same history.
#[must_use]
pub fn history(seed: u64) -> Vec<Call> {
    let random = Random::new(seed.rotate_left(16));
    let mut author = Author { random, now: 0, calls: Vec::new() };
    author.load();
    for _ in 0..CALLS {
        author.step();
    }
    author.calls.push(Call::Counters);
    author.calls
}

/// A set that load accepts for its shared bodies only.
fn image(random: &mut Random) -> Vec<u32> {
    loop {
        let words = draw(random).words();
        let fits = check::flat_size(&words).is_some_and(|size| size.fits_by_sharing());
        if fits && check::image_refusal(&words).is_none() {
            return words;
        }
    }
}

fn draw(random: &mut Random) -> Image {
    let repeat = repeat(random);
    let mut actions = random.some(2, |random| plain(random));
    // A block that is called twice is flattened twice, and each time its copies share.
    let blocks = match random.below(4) {
        0 => {
            actions.extend([Action::Call(BLOCK), Action::Call(BLOCK)]);
            vec![Block { name: BLOCK, actions: vec![repeat] }]
        }
        _ => {
            actions.push(repeat);
            Vec::new()
        }
    };
    actions.extend(random.some(2, |random| plain(random)));
    let mut milking = Rule::new(MILKING, actions);
    milking.triggers = random.some(1, |random| Trigger::Every(random.pick([500, 1_000, 60_000])));
    let beside = match random.below(3) {
        0 => Action::RuleDisable(MILKING),
        1 => Action::RuleEnable(MILKING),
        _ => Action::Wait(500),
    };
    let rules = vec![milking, Rule::new(BESIDE, vec![beside, Action::Log(9)])];
    let budget = random.pick([256, 256, 64, 40, 33, 8]);
    Image { limits: Limits { budget, ..Limits::default() }, rules, blocks }
}

/// Copies of one or two afters, alone, in a region, behind a wait or beside other steps.
fn repeat(random: &mut Random) -> Action {
    let mut copy: Vec<Action> = (0..random.from_to(1, 2)).map(|_| after(random)).collect();
    match random.below(5) {
        0 => copy.push(plain(random)),
        1 => copy.push(Action::Wait(random.pick([0, 500, 1_000]))),
        2 => {
            let condition = parts::condition(random, &PROFILE);
            copy = vec![Action::Conditional(condition, copy, vec![plain(random)])];
        }
        3 => copy = vec![Action::Conditional(Condition::ControllerActive, vec![plain(random)], copy)],
        _ => {}
    }
    Action::Repeat(random.from_to(16, 120), copy)
}

fn after(random: &mut Random) -> Action {
    let size = random.from_to(20, 90) as usize;
    let mut body = vec![Action::Log(7); size];
    for _ in 0..random.below(4) {
        body[random.below(8) as usize] = plain(random);
    }
    if random.bit() == 1 {
        body[random.below(6) as usize] = Action::Wait(random.pick([0, 1, 500, 1_000]));
    }
    Action::After(random.pick([0, 1, 500, 1_000]), body)
}

/// An action without a nested list, of the kinds that the published engine has.
fn plain(random: &mut Random) -> Action {
    let kind = random.below(23);
    parts::action_of(random, &PROFILE, kind, 0)
}

struct Author {
    random: Random,
    now: u64,
    calls: Vec<Call>,
}

impl Author {
    fn load(&mut self) {
        let image = image(&mut self.random);
        self.calls.push(Call::Load { time: self.now, image });
    }

    fn step(&mut self) {
        self.now += self.random.pick([0, 0, 1, 500, 500, 1_000]);
        let snapshot = World::at(self.now).words();
        let call = match self.random.weighted(&[40, 16, 12, 4, 9, 4, 3, 1]) {
            0 => Call::Tick { snapshot },
            1 => Call::Run { rule: MILKING, dry: false, snapshot },
            2 => Call::Run { rule: MILKING, dry: true, snapshot },
            3 => Call::Run { rule: BESIDE, dry: false, snapshot },
            4 => Call::Enable { rule: MILKING, on: false },
            5 => Call::Enable { rule: MILKING, on: true },
            6 => return self.load(),
            _ => Call::Unload { time: self.now },
        };
        self.calls.push(call);
    }
}

#[cfg(test)]
mod tests {
    use super::history;
    use crate::check;
    use crate::house::{Answer, Call, House};

    #[test]
    fn no_call_is_refused_and_every_set_fits_only_by_sharing() {
        for seed in 0..200 {
            let mut house = House::new();
            for call in history(seed) {
                if let Call::Load { image, .. } = &call {
                    let size = check::flat_size(image).unwrap_or_default();
                    assert!(size.stored <= 2_048 && size.every_copy > 2_048);
                }
                assert!(!matches!(house.call(&call), Answer::Refused(_)));
            }
        }
    }
}
