//! Parts of images: values, bounds, conditions, triggers and actions of every
//! kind. Names come from small sets, so that rules, timers and variables meet.

use super::Profile;
use crate::build::{Action, Bound, Condition, InputRef, LampRef, Trigger, Value};
use crate::random::Random;

pub(super) const READING_KINDS: u32 = 23;
pub(super) const CONDITION_KINDS: u32 = 17;
/// The 29 kinds, and a VarSet with a text.
pub(super) const ACTION_KINDS: u32 = 30;
pub(super) const VAR_TEXT: u32 = 29;

pub(super) fn lamp_ref(random: &mut Random) -> LampRef {
    [random.below(2), random.below(3)]
}

pub(super) fn input_ref(random: &mut Random) -> InputRef {
    [random.below(2), random.below(2), random.below(2)]
}

pub(super) fn milliseconds(random: &mut Random) -> u32 {
    match random.below(12) {
        0..=2 => 0,
        3 => 1,
        4..=6 => random.pick([999, 1_000, 1_001]),
        7..=9 => random.from_to(0, 5) * 1_000,
        10 => random.pick([59_999, 60_000, 86_400_000]),
        _ => random.pick([u32::MAX, u32::MAX - 1, 1 << 31]),
    }
}

fn offset(random: &mut Random) -> i32 {
    match random.below(6) {
        0 => 0,
        1 => random.pick([-90_000, -900_000, 59_999, -59_999, 60_000, -60_000]),
        2 => random.pick([i32::MIN, i32::MAX, -86_400_000, 86_400_000]),
        _ => (random.below(241) as i32 - 120) * 30_000,
    }
}

pub(super) fn literal(random: &mut Random) -> i64 {
    match random.below(10) {
        0..=3 => i64::from(random.below(5)),
        4 => i64::from(random.below(300)),
        5 => random.pick([255, 256, 1_022, 1_023, 1_439, 65_535]),
        6 => -i64::from(random.below(300)),
        7 => random.pick([i64::MIN, i64::MAX, i64::MIN + 1, i64::MAX - 1]),
        8 => random.pick([1 << 32, -(1 << 32), (1 << 31) - 1, -(1 << 31)]),
        _ => random.next() as i64,
    }
}

/// The reference words that a reading code asks for.
pub(super) fn reference(random: &mut Random, profile: &Profile, code: u32) -> [u32; 3] {
    match code {
        0..=6 => {
            let [adapter, id] = lamp_ref(random);
            [adapter, id, 0]
        }
        7..=10 => input_ref(random),
        18 => [random.below(profile.variables), 0, 0],
        _ => [0, 0, 0],
    }
}

pub(super) fn value(random: &mut Random, profile: &Profile) -> Value {
    let code = random.below(READING_KINDS);
    let words = reference(random, profile, code);
    match random.below(4) {
        0 | 1 => Value::Literal(literal(random)),
        2 => Value::Reading(code, words),
        _ => {
            let delta = match random.below(3) {
                0 => random.pick([i32::MIN, i32::MAX, -1, 1]),
                _ => random.below(9) as i32 - 4,
            };
            Value::Offset(code, words, delta)
        }
    }
}

pub(super) fn bound(random: &mut Random) -> Bound {
    match random.below(3) {
        0 => Bound::Solar(random.bit(), offset(random)),
        1 => Bound::Clock(random.below(24), random.pick([0, 0, 1, 30, 59])),
        _ => Bound::Clock(random.pick([0, 0, 1, 23, 12]), random.pick([0, 0, 1, 30, 59])),
    }
}

/// A condition of this kind: 0 to 15 as in document 01, 16 a comparison with a text.
pub(super) fn condition_of(random: &mut Random, profile: &Profile, kind: u32) -> Condition {
    let lamp = lamp_ref(random);
    let input = input_ref(random);
    let (bit, cmp) = (random.bit(), random.below(6));
    let value = value(random, profile);
    match kind {
        0 => Condition::TimeInRange(bound(random), bound(random)),
        1 => Condition::DayIn(random.below(128)),
        2 => Condition::SunIs(bit),
        3 => Condition::LampIs(lamp, bit),
        4 => Condition::LampLevel(lamp, cmp, value),
        5 => Condition::LampCct(lamp, cmp, value),
        6 => Condition::GroupState(lamp, bit),
        7 => Condition::InputOccupancy(input, bit),
        8 => Condition::InputLight(input, bit, value),
        9 => Condition::HclState(random.below(3), bit),
        10 => Condition::DeviceOnline([lamp[0], bit]),
        11 => Condition::RuleEnabled(random.below(profile.rules + 1)),
        12 => Condition::LastFiredOlderThan(random.below(profile.rules + 1), milliseconds(random)),
        13 => Condition::TimerRunning(random.below(profile.timers)),
        14 => Condition::ControllerActive,
        15 => Condition::VarValue(random.below(profile.variables), cmp, value),
        _ => Condition::VarText(random.below(profile.variables), cmp, random.below(3)),
    }
}

/// Weights of the 16 condition kinds, and of a comparison with a text as the 17th.
const CONDITION_WEIGHTS: [u32; CONDITION_KINDS as usize] =
    [3, 1, 2, 1, 1, 1, 1, 1, 1, 1, 1, 2, 3, 2, 1, 3, 2];

pub(super) fn condition(random: &mut Random, profile: &Profile) -> Condition {
    let kind = random.weighted(&CONDITION_WEIGHTS) as u32;
    condition_of(random, profile, kind)
}

pub(super) fn trigger(random: &mut Random, profile: &Profile) -> Trigger {
    match random.weighted(&[4, 4, 4, 3, 1]) {
        0 => Trigger::TimerFires(random.below(profile.timers)),
        1 => Trigger::Every(milliseconds(random)),
        2 => {
            let days = random.pick([127, 127, 127, 1, 64, 65, 0, 62]);
            Trigger::AtTime(random.pick([0, 0, 1, 23, 12]), random.pick([0, 0, 1, 30, 59]), days)
        }
        3 => Trigger::AtSolar(random.bit(), offset(random)),
        _ => Trigger::Other,
    }
}

/// Weights of the 29 action kinds, and of VarSet with a text as the 30th.
const WEIGHTS: [u32; ACTION_KINDS as usize] = [
    3, 2, 2, 4, 1, 1, 1, 1, 1, 1, 3, 1, 1, 5, 4, 2, 3, 4, 3, 4, 1, 8, 1, 12, 10, 6, 8, 10, 3, 4,
];

/// A list of up to `profile.list` actions, nested at most `depth` times.
pub(super) fn actions(random: &mut Random, profile: &Profile, depth: u32) -> Vec<Action> {
    random.some(profile.list, |random| {
        let kind = random.weighted(&WEIGHTS) as u32;
        action_of(random, profile, kind, depth)
    })
}

/// An action of this kind; a nested kind has empty lists at depth 0.
pub(super) fn action_of(random: &mut Random, profile: &Profile, kind: u32, depth: u32) -> Action {
    match kind {
        23 => Action::Wait(milliseconds(random)),
        24 => Action::After(milliseconds(random), nested(random, profile, depth)),
        25 => Action::Call(random.below(profile.blocks + 1)),
        26 => Action::Repeat(repeat_count(random), nested(random, profile, depth)),
        27 => {
            let condition = condition(random, profile);
            let then = nested(random, profile, depth);
            Action::Conditional(condition, then, nested(random, profile, depth))
        }
        28 => Action::Percent(random.below(4), random.below(3), parts_per_million(random, profile)),
        0..=12 => effect_action(random, profile, kind),
        _ => state_action(random, profile, kind),
    }
}

fn nested(random: &mut Random, profile: &Profile, depth: u32) -> Vec<Action> {
    match depth.checked_sub(1) {
        Some(less) => actions(random, profile, less),
        None => Vec::new(),
    }
}

fn repeat_count(random: &mut Random) -> u32 {
    match random.below(8) {
        0 => random.pick([0, 255, 254, 40]),
        1 => random.from_to(8, 64),
        _ => random.from_to(1, 5),
    }
}

fn effect_action(random: &mut Random, profile: &Profile, kind: u32) -> Action {
    let input = input_ref(random);
    let number = random.below(4);
    match kind {
        0 => {
            let answer = random.pick([0, 0, 1, 2]);
            let verb = if answer == 0 { random.word() } else { 0 };
            Action::Light(number, random.below(3), answer, verb)
        }
        1 => Action::Recall(scene(random), random.maybe(|random| random.below(3))),
        2 => Action::Apply(scene(random)),
        3 => {
            let most = random.pick([0, 1, 2, 3, 5, 16]);
            Action::Cycle((0..most).map(|_| random.below(256)).collect())
        }
        4 => Action::HclResume(number),
        5 => Action::HclHold(number),
        6 => Action::HclEnable(number),
        7 => Action::HclDisable(number),
        8 => Action::FeedbackOn(input),
        9 => Action::FeedbackOff(input),
        10 => Action::PanelSelect(input[0], number, value(random, profile)),
        11 => Action::CancelHold(input),
        _ => Action::CatchMovement(input),
    }
}

/// Values with and without a level, the ends of both and of the first and the last middle; now and then any value.
fn parts_per_million(random: &mut Random, profile: &Profile) -> Value {
    Value::Literal(match random.below(8) {
        0..=3 => i64::from(random.from_to(1_000, 1_000_000)),
        4 => random.pick([0, 1_000, 1_014, 1_015, 500_000, 986_533, 986_534, 1_000_000]),
        5 => random.pick([1, 999, 1_000_001, (1 << 32) + 1_000, -1, -1_000, i64::MIN, i64::MAX]),
        _ => return value(random, profile),
    })
}

/// A scene number, or None for one that cannot be evaluated.
fn scene(random: &mut Random) -> Option<u32> {
    if random.once_in(4) {
        None
    } else {
        Some(random.below(256))
    }
}

fn state_action(random: &mut Random, profile: &Profile, kind: u32) -> Action {
    let timer = random.below(profile.timers);
    let variable = random.below(profile.variables);
    let rule = random.below(profile.rules + 1);
    match kind {
        13 => Action::TimerStart(timer, milliseconds(random)),
        14 => Action::TimerRestart(timer, milliseconds(random)),
        15 => Action::TimerCancel(timer),
        16 => Action::VarSet(variable, literal(random)),
        17 => Action::VarAdd(variable, value(random, profile)),
        18 => Action::RuleEnable(rule),
        19 => Action::RuleDisable(rule),
        20 => Action::MqttPublish(random.below(4), random.word(), random.bit()),
        21 => Action::Log(random.below(10)),
        22 => Action::StatCount(random.below(3)),
        _ => {
            let length = random.pick([0, 0, 3, 4, 5, 255, 256, u32::MAX]);
            Action::VarText(variable, random.below(3), length)
        }
    }
}
