//! Every list of up to so many small actions, as one rule: run dry and wet, waited for, fired by a timer and by Every.

use oracle::build::{Action, Block, Condition, Image, Lamp, Rule, Trigger, Value, World};
use oracle::house::Call;

const RULE: u32 = 5;
const OTHER: u32 = 6;
const BLOCK: u32 = 1;
const TIMER: u32 = 1;
const VARIABLE: u32 = 1;
const INPUT: [u32; 3] = [1, 2, 3];
const LAMP: [u32; 2] = [1, 4];
/// Readings of a variable and of a lamp's level.
const READ_VARIABLE: u32 = 18;
const READ_LEVEL: u32 = 0;

/// One or more for each of the 29 kinds; those that depend on each other share a timer, a variable, a rule.
pub fn small_actions() -> Vec<Action> {
    let known = Condition::RuleEnabled(RULE);
    let unknown = Condition::LampIs([9, 9], 1);
    let log = |text| vec![Action::Log(text)];
    vec![
        Action::Light(1, 2, 0, 7),
        Action::Light(1, 0, 1, 0),
        Action::Light(1, 1, 2, 0),
        Action::Recall(Some(3), Some(8)),
        Action::Recall(None, None),
        Action::Apply(Some(255)),
        Action::Cycle(vec![4, 5, 6]),
        Action::HclResume(1),
        Action::HclHold(2),
        Action::HclEnable(3),
        Action::HclDisable(3),
        Action::FeedbackOn(INPUT),
        Action::FeedbackOff(INPUT),
        Action::PanelSelect(1, 2, Value::Reading(READ_LEVEL, [LAMP[0], LAMP[1], 0])),
        Action::Percent(1, 2, Value::Literal(500_000)),
        Action::Percent(2, 0, Value::Reading(READ_VARIABLE, [VARIABLE, 0, 0])),
        Action::CancelHold(INPUT),
        Action::CatchMovement(INPUT),
        Action::TimerStart(TIMER, 1_000),
        Action::TimerRestart(TIMER, 500),
        Action::TimerCancel(TIMER),
        Action::VarSet(VARIABLE, i64::MAX - 1),
        Action::VarText(VARIABLE, 3, 4),
        Action::VarAdd(VARIABLE, Value::Offset(READ_VARIABLE, [VARIABLE, 0, 0], 1)),
        Action::RuleEnable(OTHER),
        Action::RuleDisable(RULE),
        Action::MqttPublish(1, 2, 1),
        Action::Log(9),
        Action::StatCount(1),
        Action::Wait(0),
        Action::Wait(1_000),
        Action::After(1_000, log(11)),
        Action::Call(BLOCK),
        Action::Call(99),
        Action::Repeat(2, log(12)),
        Action::Conditional(known, log(13), log(14)),
        Action::Conditional(unknown, log(15), vec![]),
        Action::Conditional(Condition::TimerRunning(TIMER), vec![Action::Wait(500), Action::Log(16)], log(17)),
    ]
}

/// How many lists of up to `length` actions there are.
pub fn count(length: u32) -> u64 {
    let actions = small_actions().len() as u64;
    (0..=length).map(|length| actions.pow(length)).sum()
}

/// The lists of up to `length` actions, shorter first.
pub fn all(length: u32) -> impl Iterator<Item = Vec<Action>> {
    let actions = small_actions();
    (0..=length).flat_map(move |length| {
        let actions = actions.clone();
        let lists = (actions.len() as u64).pow(length);
        (0..lists).map(move |number| nth(&actions, length, number))
    })
}

/// List `number` of a length, the first place weighing most.
fn nth(actions: &[Action], length: u32, number: u64) -> Vec<Action> {
    let base = actions.len() as u64;
    (0..length).rev().map(|place| actions[(number / base.pow(place) % base) as usize].clone()).collect()
}

fn image(list: Vec<Action>) -> Image {
    let mut rule = Rule::new(RULE, list);
    rule.hold = 1;
    rule.cooldown = 400;
    rule.triggers = vec![Trigger::TimerFires(TIMER), Trigger::Every(1_500)];
    let mut other = Rule::new(OTHER, vec![Action::Log(1)]);
    other.enabled = 0;
    other.triggers = vec![Trigger::TimerFires(TIMER)];
    let block = Block { name: BLOCK, actions: vec![Action::Log(18), Action::Wait(200)] };
    Image { blocks: vec![block], ..Image::of(vec![rule, other]) }.with_budget(7)
}

fn snapshot(now: u64) -> Vec<u32> {
    let lamp = Lamp { id: LAMP, level: Some(100), on: 1, ..Lamp::default() };
    World { wall: Some((1, 600)), lamps: vec![lamp], ..World::at(now) }.words()
}

/// The calls that try a list.
pub fn history(list: Vec<Action>) -> Vec<Call> {
    let tick = |now| Call::Tick { snapshot: snapshot(now) };
    let run = |now, dry| Call::Run { rule: RULE, dry, snapshot: snapshot(now) };
    vec![
        Call::Load { time: 0, image: image(list).words() },
        run(100, true),
        run(100, false),
        tick(100),
        tick(600),
        tick(1_100),
        tick(1_600),
        run(1_600, false),
        Call::Enable { rule: RULE, on: false },
        tick(9_000),
        Call::Unload { time: 9_000 },
    ]
}

#[cfg(test)]
mod tests {
    use super::{all, count, small_actions};

    #[test]
    fn every_list_once() {
        let lists: Vec<_> = all(2).collect();
        assert_eq!(lists.len() as u64, count(2));
        let actions = small_actions();
        assert_eq!(lists[0], []);
        assert_eq!(lists[1], actions[..1]);
        assert_eq!(lists.last(), Some(&vec![actions[actions.len() - 1].clone(); 2]));
        for (at, list) in lists.iter().enumerate() {
            assert!(!lists[..at].contains(list));
        }
    }
}
