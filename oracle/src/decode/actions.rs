use dali2rust_rules_model::{
    Action, DurationMs, FlowAction, HclAction, InputAction, LightAction, LightOp, LightTarget,
    SceneAction, SceneAnswer, StateAction, Text, VarValue,
};

use super::conditions::input;
use super::image::{part, Parts};
use super::{bit, byte, name, pair};

/// All actions of the table. A non-empty nested list starts after its holder, so from the last
/// record to the first every list is at hand when its holder is read.
pub(super) fn all(records: &[[u32; 16]], parts: &Parts) -> Vec<Action> {
    let mut actions = vec![unread(); records.len()];
    for (at, record) in records.iter().enumerate().rev() {
        let decoded = action(record, parts, &actions);
        if let Some(place) = actions.get_mut(at) {
            *place = decoded;
        }
    }
    actions
}

/// Holds the place of a record that is not read yet; no accepted list reaches one.
fn unread() -> Action {
    Action::Light(LightAction {
        target: LightTarget::numbered(0),
        op: LightOp::Nothing,
        hold_hcl: None,
    })
}

fn action(record: &[u32; 16], parts: &Parts, later: &[Action]) -> Action {
    match record[0] {
        0 => light(record),
        1..=3 => scene(record, parts),
        4..=7 => hcl(record),
        8..=12 => input_action(record, parts),
        13..=15 => timer(record),
        16..=22 => state(record, parts),
        28 => percent(record, parts),
        _ => flow(record, parts, later),
    }
}

fn light(record: &[u32; 16]) -> Action {
    let [_, target, hold, answer, verb, ..] = *record;
    Action::Light(LightAction {
        target: LightTarget::numbered(target),
        op: match answer {
            0 => LightOp::Verb(verb),
            1 => LightOp::Nothing,
            _ => LightOp::Unevaluable,
        },
        hold_hcl: own_hold(hold),
    })
}

fn own_hold(hold: u32) -> Option<bool> {
    match hold {
        0 => Some(false),
        1 => Some(true),
        _ => None,
    }
}

/// Request 1 of document 02: the published engine has no such action.
fn percent(record: &[u32; 16], parts: &Parts) -> Action {
    let [_, target, hold, value, ..] = *record;
    Action::Light(LightAction {
        target: LightTarget::numbered(target),
        op: LightOp::Percent(parts.value(value)),
        hold_hcl: own_hold(hold),
    })
}

fn scene(record: &[u32; 16], parts: &Parts) -> Action {
    let [kind, a, b, c, d, ..] = *record;
    let scene = match a {
        0 => SceneAnswer::Number(byte(b)),
        _ => SceneAnswer::Unevaluable,
    };
    Action::Scene(match kind {
        1 => SceneAction::Recall {
            scene,
            target: bit(c).then(|| LightTarget::numbered(d)),
        },
        2 => SceneAction::Apply { scene },
        _ => SceneAction::Cycle {
            scenes: part(&parts.pool, a, b),
        },
    })
}

fn hcl(record: &[u32; 16]) -> Action {
    let [kind, a, ..] = *record;
    let target = LightTarget::numbered(a);
    Action::Hcl(match kind {
        4 => HclAction::Resume { target },
        5 => HclAction::Hold { target },
        6 => HclAction::Enable { schedule: name(a) },
        _ => HclAction::Disable { schedule: name(a) },
    })
}

fn input_action(record: &[u32; 16], parts: &Parts) -> Action {
    let [kind, a, b, c, ..] = *record;
    let input = input(a, b, c);
    Action::Input(match kind {
        8 => InputAction::FeedbackOn { input },
        9 => InputAction::FeedbackOff { input },
        10 => InputAction::PanelSelect {
            adapter_id: byte(a),
            group: byte(b),
            selected: parts.value(c),
        },
        11 => InputAction::CancelHold { input },
        _ => InputAction::CatchMovement { input },
    })
}

fn timer(record: &[u32; 16]) -> Action {
    let [kind, a, b, ..] = *record;
    let timer = name(a);
    let duration_ms = DurationMs(b);
    Action::Flow(match kind {
        13 => FlowAction::TimerStart { timer, duration_ms },
        14 => FlowAction::TimerRestart { timer, duration_ms },
        _ => FlowAction::TimerCancel { timer },
    })
}

fn state(record: &[u32; 16], parts: &Parts) -> Action {
    let [kind, a, b, c, d, ..] = *record;
    Action::State(match kind {
        16 => StateAction::VarSet {
            name: name(a),
            value: match b {
                0 => VarValue::Int(pair(c, d) as i64),
                _ => VarValue::Text(Text { number: c, bytes: d }),
            },
        },
        17 => StateAction::VarAdd {
            name: name(a),
            delta: parts.value(b),
        },
        18 => StateAction::RuleEnable { rule: name(a) },
        19 => StateAction::RuleDisable { rule: name(a) },
        20 => StateAction::MqttPublish {
            topic: name(a),
            payload: name(b),
            retain: bit(c),
        },
        21 => StateAction::Log { text: name(a) },
        _ => StateAction::StatCount { name: name(a) },
    })
}

fn flow(record: &[u32; 16], parts: &Parts, later: &[Action]) -> Action {
    let [kind, a, b, c, d, e, ..] = *record;
    Action::Flow(match kind {
        23 => FlowAction::Wait {
            duration_ms: DurationMs(a),
        },
        24 => FlowAction::After {
            delay_ms: DurationMs(a),
            actions: part(later, b, c),
        },
        25 => FlowAction::Call { block: name(a) },
        26 => FlowAction::Repeat {
            count: byte(a),
            actions: part(later, b, c),
        },
        _ => FlowAction::Conditional {
            condition: parts.condition(a),
            then_actions: part(later, b, c),
            else_actions: part(later, d, e),
        },
    })
}
