//! Images that hold each condition and each reading, and snapshots to evaluate them in.

use super::parts;
use super::world::{world, Clock};
use super::Profile;
use crate::build::{Action, Image, Rule, Value, World};
use crate::random::Random;

/// Rules, timers and variables of a scene have the names below this; conditions ask for rules up to it.
pub const NAMES: u32 = 3;

const PROFILE: Profile =
    Profile { rules: NAMES, blocks: 0, timers: NAMES, variables: NAMES, list: 0, depth: 0, calls: 0 };

/// Each condition (a comparison with a text as the 17th), each reading as a value and with an
/// offset, and a literal.
pub fn image(random: &mut Random) -> Image {
    let kinds = 0..parts::CONDITION_KINDS;
    let mut first = Rule::new(0, Vec::new());
    first.conditions = kinds.map(|kind| parts::condition_of(random, &PROFILE, kind)).collect();
    first.actions.push(Action::VarAdd(0, Value::Literal(parts::literal(random))));
    for code in 0..parts::READING_KINDS {
        let reading = Value::Reading(code, parts::reference(random, &PROFILE, code));
        let delta = match random.below(3) {
            0 => random.pick([i32::MIN, i32::MAX, -1, 1]),
            _ => random.below(9) as i32 - 4,
        };
        let offset = Value::Offset(code, parts::reference(random, &PROFILE, code), delta);
        first.actions.extend([Action::VarAdd(0, reading), Action::VarAdd(0, offset)]);
    }
    let mut rules: Vec<Rule> = (1..NAMES).map(|name| Rule::new(name, Vec::new())).collect();
    rules.insert(random.below(NAMES) as usize, first);
    Image::of(rules)
}

/// A snapshot at a random time.
pub fn snapshot(random: &mut Random) -> World {
    let clock = Clock::new(random);
    world(random, &clock)
}

/// What a variable may hold, None for a text.
pub fn integer(random: &mut Random) -> Option<i64> {
    random.maybe(parts::literal)
}

/// A duration that the conditions ask for, or nearly so.
pub fn age(random: &mut Random) -> u64 {
    u64::from(parts::milliseconds(random)) + u64::from(random.below(3))
}
