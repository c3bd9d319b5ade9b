//! Seeded histories of calls: valid and hostile images and snapshots, clocks
//! that jump, loads while continuations wait, lent stores near what is needed.

pub mod due;
pub mod evaluation;
mod hostile;
mod parts;
pub mod probe;
pub mod set_back;
pub mod sharing;
pub mod solar;
pub mod starts;
mod world;

use crate::build::{Action, Block, Image, Limits, Rule, Trigger};
use crate::house::Call;
use crate::random::Random;
use world::Clock;

/// Words of a whole store, and the sizes that a fresh house lends.
const STORE_WORDS: u32 = 16_384;
const OUTCOME_WORDS: u32 = 8 * 3_072;
const EFFECT_WORDS: u32 = 5 * 65_536;
/// Places of the next sequence number and of the last activation number in the store (docs/STORE.md).
const NEXT: [u32; 2] = [13_723, 13_724];
const LAST: [u32; 2] = [13_725, 13_726];

/// How many names of each sort a history uses, and how long its lists are.
#[derive(Clone, Debug)]
struct Profile {
    rules: u32,
    blocks: u32,
    timers: u32,
    variables: u32,
    list: u32,
    depth: u32,
    calls: u32,
}

impl Profile {
    fn draw(random: &mut Random) -> Profile {
        match random.below(8) {
            // Short histories of one or two rules.
            0..=2 => Profile { rules: 2, blocks: 1, timers: 2, variables: 2, list: 3, depth: 2, calls: 8 },
            // More names than 16 timers and 16 variables have room for.
            3 => Profile { rules: 4, blocks: 2, timers: 20, variables: 20, list: 12, depth: 2, calls: 30 },
            4 => Profile { rules: 8, blocks: 4, timers: 3, variables: 3, list: 6, depth: 4, calls: 40 },
            _ => Profile { rules: 4, blocks: 3, timers: 3, variables: 3, list: 4, depth: 3, calls: 25 },
        }
    }
}

/// A history of calls; the same seed gives the same history.
pub fn history(seed: u64) -> Vec<Call> {
    let mut random = Random::new(seed);
    match random.below(24) {
        0..=5 => return probe::draw(&mut random).calls,
        6 if random.once_in(4) => return probe::short_store(&mut random),
        _ => {}
    }
    let profile = Profile::draw(&mut random);
    let clock = Clock::new(&mut random);
    let image = valid_image(&mut random, &profile);
    let (lent, resized, poked, calls) = (0, false, false, Vec::new());
    let mut author = Author { random, profile, clock, image, lent, resized, poked, calls };
    author.write();
    author.calls
}

struct Author {
    random: Random,
    profile: Profile,
    clock: Clock,
    image: Image,
    /// Calls until the lent stores and the store's size are set back; 0: they are.
    lent: u32,
    /// Whether the store has another size than 16,384 words.
    resized: bool,
    poked: bool,
    calls: Vec<Call>,
}

impl Author {
    fn write(&mut self) {
        if self.random.bit() == 1 {
            self.calls.push(Call::New { time: self.clock.now });
        }
        if !self.random.once_in(10) {
            let image = self.image.words();
            self.calls.push(Call::Load { time: self.clock.now, image });
        }
        let length = self.random.from_to(self.profile.calls / 2, self.profile.calls) as usize;
        while self.calls.len() < length {
            self.step();
        }
        self.calls.extend([Call::Deadline, Call::Counters]);
    }

    fn step(&mut self) {
        if self.lent > 0 {
            self.lent -= 1;
            if self.lent == 0 {
                self.resized = false;
                self.calls.push(Call::Size { words: STORE_WORDS });
                self.calls.push(Call::Lend { outcomes: OUTCOME_WORDS, effects: EFFECT_WORDS });
            }
        }
        match self.random.weighted(&[50, 25, 6, 6, 5, 5, 4, 3, 3, 2, 2]) {
            0 => self.tick(),
            1 => self.run(),
            2 => self.enable(),
            3 => self.calls.push(Call::Deadline),
            4 => self.calls.push(Call::Counters),
            5 => self.load(),
            6 => self.hostile_load(),
            7 => self.lend(),
            8 => self.poke(),
            9 => self.size(),
            _ => self.restart(),
        }
    }

    fn snapshot(&mut self) -> Vec<u32> {
        self.clock.advance(&mut self.random);
        let valid = world::world(&mut self.random, &self.clock);
        if self.random.once_in(20) {
            hostile::snapshot(&mut self.random, &valid)
        } else {
            valid.words()
        }
    }

    fn tick(&mut self) {
        let snapshot = self.snapshot();
        self.calls.push(Call::Tick { snapshot });
    }

    fn run(&mut self) {
        let snapshot = self.snapshot();
        let rule = self.random.below(self.profile.rules + 1);
        let dry = self.random.once_in(3);
        self.calls.push(Call::Run { rule, dry, snapshot });
    }

    fn enable(&mut self) {
        let rule = self.random.below(self.profile.rules + 1);
        let on = !self.random.once_in(3);
        self.calls.push(Call::Enable { rule, on });
    }

    /// The same set again, a changed one, or another.
    fn load(&mut self) {
        match self.random.below(3) {
            0 => {}
            1 => self.image.rules.truncate(self.random.below(4) as usize),
            _ => self.image = valid_image(&mut self.random, &self.profile),
        }
        self.clock.advance(&mut self.random);
        self.calls.push(Call::Load { time: self.clock.now, image: self.image.words() });
    }

    fn hostile_load(&mut self) {
        let image = hostile::image(&mut self.random, &self.profile, &self.image);
        self.calls.push(Call::Load { time: self.clock.now, image });
    }

    /// Stores about as large as the next calls need.
    fn lend(&mut self) {
        let outcomes = self.random.below(5) * 8 + self.random.below(8);
        let effects = self.random.below(9) * 5 + self.random.below(5);
        self.calls.push(Call::Lend { outcomes, effects });
        self.lent = self.random.from_to(2, 5);
    }

    /// A next sequence number, or a last activation number, shortly before 2^64 - 1. Once for each new store, for a
    /// number below that of a pending record would break a store rule; and only in a
    /// store of full size, for a smaller one may lack the words.
    fn poke(&mut self) {
        if self.resized {
            return;
        }
        let [low, high] = self.random.pick([NEXT, LAST]);
        self.calls.push(Call::Peek { place: low });
        if !self.poked {
            self.poked = true;
            let word = u32::MAX - self.random.below(6);
            self.calls.push(Call::Poke { place: low, word });
            self.calls.push(Call::Poke { place: high, word: u32::MAX });
        }
        self.calls.push(Call::Peek { place: high });
    }

    fn size(&mut self) {
        let words = self.random.pick([0, 1, STORE_WORDS - 1, STORE_WORDS + 1]);
        self.calls.push(Call::Size { words });
        self.resized = true;
        self.lent = self.random.from_to(2, 4);
    }

    fn restart(&mut self) {
        if self.random.bit() == 0 {
            self.calls.push(Call::Unload { time: self.clock.now });
        } else if self.lent == 0 {
            self.poked = false;
            self.calls.push(Call::New { time: self.clock.now });
        }
    }
}

fn limits(random: &mut Random) -> Limits {
    Limits {
        budget: random.pick([256, 256, 64, 16, 8, 4, 3, 2, 1]),
        depth: random.pick([8, 3, 2, 1, 0]),
        repeat: random.pick([255, 255, 64, 5, 2, 1]),
        text: random.pick([255, 4, 0]),
        group: random.pick([255, 3, 0]),
    }
}

fn rule(random: &mut Random, profile: &Profile, name: u32) -> Rule {
    let list = if random.once_in(40) { 300 } else { profile.list };
    let longer = Profile { list, ..profile.clone() };
    let depth = if list > 100 { 0 } else { profile.depth };
    Rule {
        name,
        enabled: u32::from(!random.once_in(6)),
        hold: random.bit(),
        cooldown: random.pick([0, 0, 0, 1, 1_000, 5_000, u32::MAX]),
        triggers: triggers(random, profile),
        conditions: if random.once_in(3) {
            random.some(2, |random| parts::condition(random, profile))
        } else {
            Vec::new()
        },
        actions: rule_actions(random, &longer, depth),
    }
}

/// Up to three triggers, mostly one.
fn triggers(random: &mut Random, profile: &Profile) -> Vec<Trigger> {
    let count = random.pick([0, 1, 1, 1, 2, 3]);
    (0..count).map(|_| parts::trigger(random, profile)).collect()
}

/// A list that now and then starts timers first, schedules about 32 afters, or fills
/// the variables or the timers.
fn rule_actions(random: &mut Random, profile: &Profile, depth: u32) -> Vec<Action> {
    let mut actions = parts::actions(random, profile, depth);
    match random.below(32) {
        0..=7 => {
            let ms = random.pick([0, 1, 1_000]);
            for _ in 0..random.from_to(1, 3) {
                actions.insert(0, Action::TimerStart(random.below(profile.timers), ms));
            }
        }
        8 | 9 => {
            let body = parts::actions(random, &Profile { list: 2, ..profile.clone() }, 1);
            let after = Action::After(random.pick([0, 500, 1_000, u32::MAX]), body);
            actions.insert(0, Action::Repeat(random.from_to(15, 34), vec![after]));
        }
        10 => {
            let names = 0..random.from_to(15, 18);
            actions.splice(0..0, names.map(|name| Action::VarSet(name, 1)));
        }
        11 => {
            let names = 0..random.from_to(15, 18);
            actions.splice(0..0, names.map(|name| Action::TimerStart(name, 1_000)));
        }
        _ => {}
    }
    actions
}

/// An image in range; now and then over a limit of 16 or over 4,096 words.
fn valid_image(random: &mut Random, profile: &Profile) -> Image {
    let mut names: Vec<u32> = (0..profile.rules).collect();
    for place in (1..names.len()).rev() {
        names.swap(place, random.below(place as u32 + 1) as usize);
    }
    names.truncate(random.from_to(1, profile.rules) as usize);
    if random.once_in(30) {
        names.clear();
    }
    Image {
        limits: limits(random),
        rules: names.into_iter().map(|name| rule(random, profile, name)).collect(),
        blocks: random.some(profile.blocks + 1, |random| Block {
            name: random.below(profile.blocks),
            actions: parts::actions(random, profile, 2),
        }),
    }
}

#[cfg(test)]
mod tests {
    use super::history;
    use crate::check::image_refusal;
    use crate::house::Call;

    #[test]
    fn a_seed_gives_one_history() {
        for history in [history, super::due::history, super::set_back::history, super::sharing::history] {
            assert_eq!(history(7), history(7));
            assert_ne!(history(7), history(8));
        }
    }

    #[test]
    fn most_loads_are_accepted_and_some_are_not() {
        let loads = |seed| history(seed).into_iter().filter_map(|call| match call {
            Call::Load { image, .. } => Some(image_refusal(&image)),
            _ => None,
        });
        let answers: Vec<Option<u32>> = (0..400).flat_map(loads).collect();
        let accepted = answers.iter().filter(|answer| answer.is_none()).count();
        assert!(accepted * 2 > answers.len());
        assert!(accepted < answers.len());
    }

    #[test]
    fn pokes_and_peeks_find_a_store_of_full_size() {
        for seed in 0..2_000 {
            let mut size = super::STORE_WORDS;
            for call in history(seed) {
                match call {
                    Call::Size { words } => size = words,
                    Call::Poke { .. } | Call::Peek { .. } => assert_eq!(size, super::STORE_WORDS),
                    _ => {}
                }
            }
        }
    }
}
