use dali2rust_rules_model::{
    ClockTime, Cmp, Condition, DaySet, DeviceRef, DurationMs, GroupAggregate, GroupRef, HclState,
    InputRef, LampRef, LightTarget, Reading, SolarEvent, Text, TimeBound, ValueExpr, VarOperand,
};

use super::image::Parts;
use super::{bit, byte, half, name, pair, signed};

pub(super) fn lamp(adapter: u32, id: u32) -> LampRef {
    LampRef {
        adapter_id: byte(adapter),
        id: half(id),
    }
}

pub(super) fn group(adapter: u32, id: u32) -> GroupRef {
    GroupRef {
        adapter_id: byte(adapter),
        id: half(id),
    }
}

pub(super) fn input(adapter: u32, address: u32, instance: u32) -> InputRef {
    InputRef {
        adapter_id: byte(adapter),
        device_short_address: byte(address),
        instance_number: byte(instance),
    }
}

pub(super) fn clock_time(hour: u32, minute: u32) -> ClockTime {
    ClockTime {
        hour: byte(hour),
        minute: byte(minute),
    }
}

pub(super) fn solar_event(word: u32) -> SolarEvent {
    if word == 0 {
        SolarEvent::Sunrise
    } else {
        SolarEvent::Sunset
    }
}

/// "Cmp is 0 to 5 as in `compare_i64`".
fn cmp(word: u32) -> Cmp {
    match word {
        0 => Cmp::Eq,
        1 => Cmp::Ne,
        2 => Cmp::Ge,
        3 => Cmp::Le,
        4 => Cmp::Gt,
        _ => Cmp::Lt,
    }
}

pub(super) fn time_bound(record: &[u32; 16]) -> TimeBound {
    let [kind, a, b, ..] = *record;
    if kind == 0 {
        TimeBound::Clock(clock_time(a, b))
    } else {
        TimeBound::Solar {
            event: solar_event(a),
            offset_ms: signed(b),
        }
    }
}

pub(super) fn value(record: &[u32; 16]) -> ValueExpr {
    let [kind, a, b, c, d, e, ..] = *record;
    match kind {
        0 => ValueExpr::Literal(pair(a, b) as i64),
        1 => ValueExpr::Reading(reading(a, [b, c, d])),
        _ => ValueExpr::Offset {
            reading: reading(a, [b, c, d]),
            delta: signed(e),
        },
    }
}

fn reading(code: u32, words: [u32; 3]) -> Reading {
    let [a, b, c] = words;
    match code {
        0 => Reading::LampLevel { lamp: lamp(a, b) },
        1 => Reading::LampCct { lamp: lamp(a, b) },
        2 => Reading::LampIsOn { lamp: lamp(a, b) },
        3 => Reading::LampLastLevel { lamp: lamp(a, b) },
        4 => Reading::GroupAnyOn { group: group(a, b) },
        5 => Reading::GroupAllOff { group: group(a, b) },
        6 => Reading::GroupMemberCount { group: group(a, b) },
        7 => Reading::InputOccupied { input: input(a, b, c) },
        8 => Reading::InputLight { input: input(a, b, c) },
        9 => Reading::InputPosition { input: input(a, b, c) },
        10 => Reading::InputLastEventAge { input: input(a, b, c) },
        11 => Reading::TimeNow,
        12 => Reading::TimeHour,
        13 => Reading::TimeMinute,
        14 => Reading::TimeWeekday,
        15 => Reading::SunRise,
        16 => Reading::SunSet,
        17 => Reading::SunIsUp,
        18 => Reading::Var { name: name(a) },
        19 => Reading::EventValue,
        20 => Reading::EventDevice,
        21 => Reading::EventInstance,
        _ => Reading::EventOption,
    }
}

pub(super) fn condition(record: &[u32; 16], parts: &Parts) -> Condition {
    let [kind, a, b, c, d, e, ..] = *record;
    match kind {
        0 => Condition::TimeInRange { start: parts.bound(a), end: parts.bound(b) },
        1 => Condition::DayIn { days: DaySet(byte(a)) },
        2 => Condition::SunIs { up: bit(a) },
        3 => Condition::LampIs { lamp: lamp(a, b), on: bit(c) },
        4 => Condition::LampLevel { lamp: lamp(a, b), cmp: cmp(c), value: parts.value(d) },
        5 => Condition::LampCct { lamp: lamp(a, b), cmp: cmp(c), value: parts.value(d) },
        6 => Condition::GroupState { group: group(a, b), state: aggregate(c) },
        7 => Condition::InputOccupancy { input: input(a, b, c), occupied: bit(d) },
        8 => Condition::InputLight {
            input: input(a, b, c),
            above: bit(d),
            threshold: parts.value(e),
        },
        9 => Condition::HclState { target: LightTarget::numbered(a), state: hcl_state(b) },
        10 => Condition::DeviceOnline { device: device(a, b) },
        11 => Condition::RuleEnabled { rule: name(a) },
        12 => Condition::LastFiredOlderThan { rule: name(a), than_ms: DurationMs(b) },
        13 => Condition::TimerRunning { timer: name(a) },
        14 => Condition::ControllerActive,
        _ => Condition::VarCompare { name: name(a), cmp: cmp(b), value: operand(c, d, parts) },
    }
}

fn device(adapter: u32, address: u32) -> DeviceRef {
    DeviceRef {
        adapter_id: byte(adapter),
        short_address: byte(address),
    }
}

/// "any on 0, all off 1".
fn aggregate(word: u32) -> GroupAggregate {
    if word == 0 {
        GroupAggregate::AnyOn
    } else {
        GroupAggregate::AllOff
    }
}

/// "Enabled is 0, overridden 1".
fn hcl_state(word: u32) -> HclState {
    if word == 0 {
        HclState::Enabled
    } else {
        HclState::Overridden
    }
}

/// A condition's text has no byte length; comparisons look at the number only.
fn operand(tag: u32, word: u32, parts: &Parts) -> VarOperand {
    if tag == 0 {
        VarOperand::Value(parts.value(word))
    } else {
        VarOperand::Text(Text { number: word, bytes: 0 })
    }
}
