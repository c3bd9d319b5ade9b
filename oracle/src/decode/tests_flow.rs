//! Actions on timers and state, the five flow actions, and snapshots.

use dali2rust_rules_runtime::runtime::engine::{
    DeviceState, GroupState, HclTargetState, InputState, LampState, SunTimes, WallTime,
};

use super::*;

#[test]
fn actions_on_timers_and_state() {
    let decoded = rule(&with(
        &[],
        &[
            &[13, 8, 100],
            &[14, 8, u32::MAX],
            &[15, 8],
            &[16, 1, 0, 2, u32::MAX],
            &[16, 1, 1, 9, 200],
            &[17, 1, 0],
            &[18, 50],
            &[19, 50],
            &[20, 1, 2, 1],
            &[21, 7],
            &[22, 7],
        ],
        &[],
    ));
    let timer = || name(8);
    let text = VarValue::Text(Text { number: 9, bytes: 200 });
    let delta = values()[0].clone();
    let expected = vec![
        Action::Flow(FlowAction::TimerStart { timer: timer(), duration_ms: DurationMs(100) }),
        Action::Flow(FlowAction::TimerRestart {
            timer: timer(),
            duration_ms: DurationMs(u32::MAX),
        }),
        Action::Flow(FlowAction::TimerCancel { timer: timer() }),
        Action::State(StateAction::VarSet { name: name(1), value: VarValue::Int(2 - (1 << 32)) }),
        Action::State(StateAction::VarSet { name: name(1), value: text }),
        Action::State(StateAction::VarAdd { name: name(1), delta }),
        Action::State(StateAction::RuleEnable { rule: name(50) }),
        Action::State(StateAction::RuleDisable { rule: name(50) }),
        Action::State(StateAction::MqttPublish { topic: name(1), payload: name(2), retain: true }),
        Action::State(StateAction::Log { text: name(7) }),
        Action::State(StateAction::StatCount { name: name(7) }),
    ];
    assert_eq!(decoded.actions, List::from(expected));
}

/// Texts are equal by number, so the byte length is looked at by itself.
#[test]
fn a_text_keeps_its_byte_length() {
    let decoded = rule(&with(&[], &[&[16, 1, 1, 9, 200]], &[]));
    let Action::State(StateAction::VarSet { value: VarValue::Text(text), .. }) =
        &decoded.actions[0]
    else {
        panic!("no text");
    };
    assert_eq!((text.number, text.len()), (9, 200));
}

#[test]
fn flow_actions_and_their_lists() {
    let decoded = rule(&with(
        &[&[14]],
        &[
            &[24, 5, 3, 2],
            &[26, 255, 4, 1],
            &[27, 0, 3, 1, 4, 1],
            &[23, 1000],
            &[25, 60],
        ],
        &[],
    ));
    let wait = Action::Flow(FlowAction::Wait { duration_ms: DurationMs(1000) });
    let call = Action::Flow(FlowAction::Call { block: name(60) });
    let list = |actions: &[&Action]| -> List<Action> {
        List::from(actions.iter().map(|action| (*action).clone()).collect::<Vec<_>>())
    };
    let expected = vec![
        Action::Flow(FlowAction::After { delay_ms: DurationMs(5), actions: list(&[&wait, &call]) }),
        Action::Flow(FlowAction::Repeat { count: 255, actions: list(&[&call]) }),
        Action::Flow(FlowAction::Conditional {
            condition: Condition::ControllerActive,
            then_actions: list(&[&wait]),
            else_actions: list(&[&call]),
        }),
        wait,
        call,
    ];
    assert_eq!(decoded.actions, List::from(expected));
}

/// 400 Afters, each holding all that follow: a tree with its own lists would have 2^400 nodes.
#[test]
fn overlapping_lists_are_shared() {
    let records: Vec<[u32; 4]> = (0..400).map(|at| [24, 1, at + 1, 399 - at]).collect();
    let records: Vec<&[u32]> = records.iter().map(|record| &record[..]).collect();
    let mut words = with(&[], &records, &[]);
    // The rule's list is the first After alone; all 400 would be over 2,048 flat steps.
    words[9] = 1;
    let decoded = rule(&words);
    let [Action::Flow(FlowAction::After { actions, .. })] = &decoded.actions[..] else {
        panic!("no after");
    };
    assert_eq!(actions.len(), 399);
}

#[test]
fn words_that_no_checker_accepts_are_read_without_a_panic() {
    for words in [vec![], vec![u32::MAX; 5], vec![u32::MAX; 40], vec![3; 200], vec![24; 300]] {
        let _ = rule_set(&words);
        let _ = world(&words);
    }
}

#[test]
fn snapshot_head() {
    let words = [1, 2, 1, 6, 1439, 1, 10, 20, 1, 0, 0, 0, 0, 0];
    assert_eq!(check::snapshot_refusal(&words), None);
    let seen = world(&words);
    assert_eq!(seen.now_ms, (2 << 32) + 1);
    assert_eq!(seen.wall, Some(WallTime { minutes_of_day: 1439, weekday: 6 }));
    assert_eq!(seen.sun, Some(SunTimes { sunrise_min: 10, sunset_min: 20 }));
    assert!(seen.controller_active);
    let bare = world(&[0; 14]);
    assert_eq!((bare.wall, bare.sun, bare.controller_active), (None, None, false));
}

#[test]
fn snapshot_rows() {
    let mut words = vec![0, 0, 0, 0, 0, 0, 0, 0, 0, 2, 1, 1, 2, 1];
    words.extend([1, 300, 1, 254, 1, 65_535, 1, 1, 7]);
    words.extend([1, 301, 0, 0, 0, 0, 0, 0, 0]);
    words.extend([2, 400, 1, 0, 9]);
    words.extend([3, 4, 1]);
    words.extend([3, 4, 5, 1, 1, 1, 1023, 1, 0, 1, u32::MAX]);
    words.extend([3, 4, 6, 0, 0, 0, 0, 0, 0, 0, 0]);
    words.extend([70_000, 1, 0]);
    assert_eq!(check::snapshot_refusal(&words), None);
    let seen = world(&words);
    let lamp = LampState {
        adapter_id: 1,
        id: 300,
        is_on: true,
        level: Some(254),
        cct_kelvin: Some(65_535),
        last_level: Some(7),
        bound: true,
    };
    let dark = LampState {
        id: 301,
        is_on: false,
        level: None,
        cct_kelvin: None,
        last_level: None,
        ..lamp
    };
    assert_eq!(seen.lamps, [lamp, dark]);
    assert_eq!(seen.groups, [group()]);
    let device = DeviceState { adapter_id: 3, short_address: 4, online: true };
    assert_eq!(seen.devices, [device]);
    assert_eq!(seen.inputs, inputs());
    let row = HclTargetState { target: target(70_000), enabled: true, overridden: false };
    assert_eq!(seen.hcl, [row]);
}

fn group() -> GroupState {
    GroupState {
        adapter_id: 2,
        id: 400,
        any_on: true,
        all_off: false,
        member_count: 9,
    }
}

fn inputs() -> [InputState; 2] {
    let full = InputState {
        adapter_id: 3,
        short_address: 4,
        instance_number: 5,
        instance_type: None,
        occupied: Some(true),
        light: Some(1023),
        position: Some(0),
        last_event_age_ms: Some(u32::MAX),
    };
    let empty = InputState {
        instance_number: 6,
        occupied: None,
        light: None,
        position: None,
        last_event_age_ms: None,
        ..full
    };
    [full, empty]
}
