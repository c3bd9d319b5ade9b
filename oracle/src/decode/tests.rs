//! One record of each kind, as words and as the engine's type.

use dali2rust_rules_model::limits::Limits;
use dali2rust_rules_model::*;

use super::{name, number, rule_set, world};
use crate::check;

const LAMP: LampRef = LampRef { adapter_id: 1, id: 300 };
const GROUP: GroupRef = GroupRef { adapter_id: 2, id: 400 };
const INPUT: InputRef = InputRef {
    adapter_id: 3,
    device_short_address: 4,
    instance_number: 5,
};

fn target(number: u32) -> LightTarget {
    LightTarget::numbered(number)
}

/// Records filled up with zeros to their width.
fn table(width: usize, records: &[&[u32]]) -> Vec<u32> {
    let mut words = Vec::new();
    for record in records {
        words.extend_from_slice(record);
        words.resize(words.len() + width - record.len(), 0);
    }
    words
}

/// Tables in image order, then a trailer with the limits 9, 8, 7, 6, 5.
fn image(tables: [Vec<u32>; 8]) -> Vec<u32> {
    let mut words = Vec::new();
    let mut trailer = vec![9, 8, 7, 6, 5];
    for part in tables {
        trailer.push(words.len() as u32);
        words.extend(part);
    }
    words.extend(trailer);
    words
}

const VALUES: [&[u32]; 25] = [
    &[0, 5, u32::MAX],
    &[2, 18, 77, 0, 0, u32::MAX],
    &[1, 0, 1, 300],
    &[1, 1, 1, 300],
    &[1, 2, 1, 300],
    &[1, 3, 1, 300],
    &[1, 4, 2, 400],
    &[1, 5, 2, 400],
    &[1, 6, 2, 400],
    &[1, 7, 3, 4, 5],
    &[1, 8, 3, 4, 5],
    &[1, 9, 3, 4, 5],
    &[1, 10, 3, 4, 5],
    &[1, 11],
    &[1, 12],
    &[1, 13],
    &[1, 14],
    &[1, 15],
    &[1, 16],
    &[1, 17],
    &[1, 18, u32::MAX],
    &[1, 19],
    &[1, 20],
    &[1, 21],
    &[1, 22],
];

const BOUNDS: [&[u32]; 3] = [&[0, 23, 59], &[1, 0, 5], &[1, 1, u32::MAX - 1]];

fn values() -> Vec<ValueExpr> {
    let readings = [
        Reading::LampLevel { lamp: LAMP },
        Reading::LampCct { lamp: LAMP },
        Reading::LampIsOn { lamp: LAMP },
        Reading::LampLastLevel { lamp: LAMP },
        Reading::GroupAnyOn { group: GROUP },
        Reading::GroupAllOff { group: GROUP },
        Reading::GroupMemberCount { group: GROUP },
        Reading::InputOccupied { input: INPUT },
        Reading::InputLight { input: INPUT },
        Reading::InputPosition { input: INPUT },
        Reading::InputLastEventAge { input: INPUT },
        Reading::TimeNow,
        Reading::TimeHour,
        Reading::TimeMinute,
        Reading::TimeWeekday,
        Reading::SunRise,
        Reading::SunSet,
        Reading::SunIsUp,
        Reading::Var { name: name(u32::MAX) },
        Reading::EventValue,
        Reading::EventDevice,
        Reading::EventInstance,
        Reading::EventOption,
    ];
    let offset = ValueExpr::Offset { reading: Reading::Var { name: name(77) }, delta: -1 };
    let mut values = vec![ValueExpr::Literal(5 - (1 << 32)), offset];
    values.extend(readings.into_iter().map(ValueExpr::Reading));
    values
}

/// An image whose one rule has these conditions and actions.
fn with(conditions: &[&[u32]], actions: &[&[u32]], triggers: &[&[u32]]) -> Vec<u32> {
    let (c, a, t) = (conditions.len() as u32, actions.len() as u32, triggers.len() as u32);
    image([
        table(16, &[&[50, 1, 0, 12, 0, t, 0, c, 0, a]]),
        table(8, &[&[60, a.min(1), 0]]),
        table(8, triggers),
        table(8, conditions),
        table(8, actions),
        table(8, &VALUES),
        table(8, &BOUNDS),
        table(1, &[&[10], &[11], &[255]]),
    ])
}

/// The one rule, decoded, of an image that the checker accepts.
fn rule(words: &[u32]) -> Rule {
    assert_eq!(check::image_refusal(words), None);
    rule_set(words).0.rules[0].clone()
}

#[test]
fn numbers_keep_their_order_as_names() {
    assert_eq!(name(7), "0000000007");
    assert!(name(9) < name(10) && name(10) < name(u32::MAX));
    assert_eq!(number(&name(u32::MAX)), u32::MAX);
}

#[test]
fn rules_blocks_and_limits() {
    let words = with(&[], &[&[21, 3]], &[]);
    assert_eq!(check::image_refusal(&words), None);
    let (set, limits) = rule_set(&words);
    let expected = Limits { budget: 9, call_depth: 8, repeat: 7, text_bytes: 6, group: 5 };
    assert_eq!(limits, expected);
    let rule = &set.rules[0];
    assert_eq!((rule.name.as_str(), rule.cooldown_ms), ("0000000050", 12));
    assert!(rule.enabled && !rule.hold_hcl);
    assert_eq!(set.blocks[0], DefBlock { name: name(60), actions: List::default() });
}

#[test]
fn triggers() {
    let decoded = rule(&with(
        &[],
        &[],
        &[&[0, 8], &[1, 500], &[2, 23, 59, 127], &[3, 0, u32::MAX], &[3, 1, 60_000], &[4]],
    ));
    let time = ClockTime { hour: 23, minute: 59 };
    let expected = vec![
        Trigger::TimerFires { timer: name(8) },
        Trigger::Every { period_ms: DurationMs(500) },
        Trigger::AtTime { time, days: DaySet(127) },
        Trigger::AtSolar { event: SolarEvent::Sunrise, offset_ms: -1 },
        Trigger::AtSolar { event: SolarEvent::Sunset, offset_ms: 60_000 },
        Trigger::ControllerStarts,
    ];
    assert_eq!(decoded.triggers, List::from(expected));
}

#[test]
fn values_and_readings() {
    let records: Vec<[u32; 4]> = (0..25).map(|at| [17, 1, at, 0]).collect();
    let records: Vec<&[u32]> = records.iter().map(|record| &record[..3]).collect();
    let expected: Vec<Action> = values()
        .into_iter()
        .map(|delta| Action::State(StateAction::VarAdd { name: name(1), delta }))
        .collect();
    assert_eq!(rule(&with(&[], &records, &[])).actions, List::from(expected));
}

#[test]
fn comparisons() {
    let records: Vec<[u32; 5]> = (0..6).map(|cmp| [15, 1, cmp, 1, 9]).collect();
    let records: Vec<&[u32]> = records.iter().map(|record| &record[..]).collect();
    let value = VarOperand::Text(Text { number: 9, bytes: 0 });
    let expected: Vec<Condition> = [Cmp::Eq, Cmp::Ne, Cmp::Ge, Cmp::Le, Cmp::Gt, Cmp::Lt]
        .into_iter()
        .map(|cmp| Condition::VarCompare { name: name(1), cmp, value: value.clone() })
        .collect();
    assert_eq!(rule(&with(&records, &[], &[])).conditions, List::from(expected));
}

#[test]
fn conditions_of_lamps_groups_and_time() {
    let decoded = rule(&with(
        &[
            &[0, 0, 2],
            &[0, 1, 0],
            &[1, 65],
            &[2, 1],
            &[3, 1, 300, 1],
            &[4, 1, 300, 5, 1],
            &[5, 1, 300, 1, 0],
            &[6, 2, 400, 0],
            &[6, 2, 400, 1],
        ],
        &[],
        &[],
    ));
    let clock = TimeBound::Clock(ClockTime { hour: 23, minute: 59 });
    let rise = TimeBound::Solar { event: SolarEvent::Sunrise, offset_ms: 5 };
    let set = TimeBound::Solar { event: SolarEvent::Sunset, offset_ms: -2 };
    let expected = vec![
        Condition::TimeInRange { start: clock, end: set },
        Condition::TimeInRange { start: rise, end: clock },
        Condition::DayIn { days: DaySet(65) },
        Condition::SunIs { up: true },
        Condition::LampIs { lamp: LAMP, on: true },
        Condition::LampLevel { lamp: LAMP, cmp: Cmp::Lt, value: values()[1].clone() },
        Condition::LampCct { lamp: LAMP, cmp: Cmp::Ne, value: values()[0].clone() },
        Condition::GroupState { group: GROUP, state: GroupAggregate::AnyOn },
        Condition::GroupState { group: GROUP, state: GroupAggregate::AllOff },
    ];
    assert_eq!(decoded.conditions, List::from(expected));
}

#[test]
fn conditions_of_inputs_and_state() {
    let decoded = rule(&with(
        &[
            &[7, 3, 4, 5, 1],
            &[8, 3, 4, 5, 1, 2],
            &[9, 70_000, 0],
            &[9, 70_000, 1],
            &[10, 3, 4],
            &[11, 50],
            &[12, 50, 1000],
            &[13, 8],
            &[14],
            &[15, 1, 2, 0, 3],
        ],
        &[],
        &[],
    ));
    let device = DeviceRef { adapter_id: 3, short_address: 4 };
    let value = VarOperand::Value(values()[3].clone());
    let expected = vec![
        Condition::InputOccupancy { input: INPUT, occupied: true },
        Condition::InputLight { input: INPUT, above: true, threshold: values()[2].clone() },
        Condition::HclState { target: target(70_000), state: HclState::Enabled },
        Condition::HclState { target: target(70_000), state: HclState::Overridden },
        Condition::DeviceOnline { device },
        Condition::RuleEnabled { rule: name(50) },
        Condition::LastFiredOlderThan { rule: name(50), than_ms: DurationMs(1000) },
        Condition::TimerRunning { timer: name(8) },
        Condition::ControllerActive,
        Condition::VarCompare { name: name(1), cmp: Cmp::Ge, value },
    ];
    assert_eq!(decoded.conditions, List::from(expected));
}

#[test]
fn actions_on_lights_and_scenes() {
    let decoded = rule(&with(
        &[],
        &[
            &[0, u32::MAX, 0, 0, 99],
            &[0, 7, 1, 1, 0],
            &[0, 7, 2, 2, 0],
            &[1, 0, 12, 1, u32::MAX],
            &[1, 1, 0, 0, 0],
            &[2, 0, 255],
            &[3, 1, 2],
        ],
        &[],
    ));
    let light = |number, hold_hcl, op| {
        Action::Light(LightAction { target: target(number), op, hold_hcl })
    };
    let expected = vec![
        light(u32::MAX, Some(false), LightOp::Verb(99)),
        light(7, Some(true), LightOp::Nothing),
        light(7, None, LightOp::Unevaluable),
        Action::Scene(SceneAction::Recall {
            scene: SceneAnswer::Number(12),
            target: Some(target(u32::MAX)),
        }),
        Action::Scene(SceneAction::Recall { scene: SceneAnswer::Unevaluable, target: None }),
        Action::Scene(SceneAction::Apply { scene: SceneAnswer::Number(255) }),
        Action::Scene(SceneAction::Cycle { scenes: List::from(vec![11, 255]) }),
    ];
    assert_eq!(decoded.actions, List::from(expected));
}

#[test]
fn actions_on_schedules_and_inputs() {
    let decoded = rule(&with(
        &[],
        &[
            &[4, 70_000],
            &[5, 70_001],
            &[6, 1],
            &[7, 2],
            &[8, 3, 4, 5],
            &[9, 3, 4, 5],
            &[10, 6, 7, 0],
            &[11, 3, 4, 5],
            &[12, 3, 4, 5],
            &[28, 70_002, 0, 1],
            &[28, 70_003, 1, 0],
            &[28, 70_004, 2, 0],
        ],
        &[],
    ));
    let selected = values()[0].clone();
    let percent = |number, value: usize, hold_hcl| {
        Action::Light(LightAction { target: target(number), op: LightOp::Percent(values()[value].clone()), hold_hcl })
    };
    let expected = vec![
        Action::Hcl(HclAction::Resume { target: target(70_000) }),
        Action::Hcl(HclAction::Hold { target: target(70_001) }),
        Action::Hcl(HclAction::Enable { schedule: name(1) }),
        Action::Hcl(HclAction::Disable { schedule: name(2) }),
        Action::Input(InputAction::FeedbackOn { input: INPUT }),
        Action::Input(InputAction::FeedbackOff { input: INPUT }),
        Action::Input(InputAction::PanelSelect { adapter_id: 6, group: 7, selected }),
        Action::Input(InputAction::CancelHold { input: INPUT }),
        Action::Input(InputAction::CatchMovement { input: INPUT }),
        percent(70_002, 1, Some(false)),
        percent(70_003, 0, Some(true)),
        percent(70_004, 0, None),
    ];
    assert_eq!(decoded.actions, List::from(expected));
}

#[path = "tests_flow.rs"]
mod flow;
