//! Action kind 28 on every entry of the dimming curve and every middle of two, each with its neighbours, and on values that have no level:
//! the proved run beside the stand-in, which finds its own table from the request's inequality.

use oracle::build::{Action, Image, Rule, Value, World};
use oracle::house::Call;
use oracle::model::percent;

const RULE: u32 = 5;
/// The hold that takes the rule's.
const ABSENT: u32 = 2;
/// A list of 200 steps is within the budget, and its image within 4,096 words.
const STEPS: usize = 200;
const OUTSIDE: [i64; 12] =
    [0, 1, -1, -1_000, 1_000_001, 2_000_000, 1 << 32, (1 << 32) + 1_000, -(1 << 32) + 1_000, 1 << 63, i64::MAX, i64::MAX - 1];

/// All values, each once.
pub fn values() -> Vec<i64> {
    let table = percent::table().map(i64::from);
    let middles = table.windows(2).map(|pair| (pair[0] + pair[1]) / 2);
    let around = table.iter().copied().chain(middles).flat_map(|value| [value - 1, value, value + 1]);
    let mut values: Vec<i64> = around.chain(OUTSIDE).collect();
    values.sort_unstable();
    values.dedup();
    values
}

/// For each part of the values a set with one step for each, run wet and dry. A step's target is its place.
pub fn histories(values: &[i64]) -> impl Iterator<Item = Vec<Call>> + '_ {
    values.chunks(STEPS).enumerate().map(|(part, values)| {
        let steps = values.iter().enumerate();
        let actions = steps.map(|(at, value)| Action::Percent(at as u32, ABSENT, Value::Literal(*value))).collect();
        let mut rule = Rule::new(RULE, actions);
        rule.hold = part as u32 % 2;
        let run = |dry| Call::Run { rule: RULE, dry, snapshot: World::at(0).words() };
        vec![Call::Load { time: 0, image: Image::of(vec![rule]).words() }, run(false), run(true)]
    })
}

#[cfg(test)]
mod tests {
    use super::{histories, values};
    use oracle::house::{Answer, House};

    #[test]
    fn ties_and_neighbours_are_there() {
        let values = values();
        for wanted in [999, 1_000, 1_013, 1_014, 1_015, 986_533, 986_534, 1_000_000, 1_000_001] {
            assert!(values.contains(&wanted));
        }
    }

    #[test]
    fn every_list_runs_to_its_end() {
        for history in histories(&values()) {
            let mut house = House::new();
            assert_eq!(house.call(&history[0]), Answer::Silent);
            for call in &history[1..] {
                let Answer::Outcomes { list, .. } = house.call(call) else { panic!("refused") };
                assert!(list[0].reason < 2 && !list[0].effects.is_empty());
            }
        }
    }
}
