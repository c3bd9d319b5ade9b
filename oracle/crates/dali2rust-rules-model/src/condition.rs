use crate::reference::{
    DaySet, DeviceRef, DurationMs, GroupRef, InputRef, LampRef, LightTarget, Text,
};
use crate::trigger::GroupAggregate;

#[derive(Debug, Clone, Copy, PartialEq, Eq)]
pub enum Cmp {
    Eq,
    Ne,
    Ge,
    Le,
    Gt,
    Lt,
}

#[derive(Debug, Clone, Copy, PartialEq, Eq)]
pub enum SolarEvent {
    Sunrise,
    Sunset,
}

#[derive(Debug, Clone, Copy, PartialEq, Eq)]
pub enum HclState {
    Enabled,
    Overridden,
}

#[derive(Debug, Clone, Copy, PartialEq, Eq)]
pub struct ClockTime {
    pub hour: u8,
    pub minute: u8,
}

#[derive(Debug, Clone, Copy, PartialEq, Eq)]
pub enum TimeBound {
    Clock(ClockTime),
    Solar { event: SolarEvent, offset_ms: i32 },
}

#[derive(Debug, Clone, PartialEq)]
pub enum Reading {
    LampLevel { lamp: LampRef },
    LampCct { lamp: LampRef },
    LampIsOn { lamp: LampRef },
    LampLastLevel { lamp: LampRef },
    GroupAnyOn { group: GroupRef },
    GroupAllOff { group: GroupRef },
    GroupMemberCount { group: GroupRef },
    InputOccupied { input: InputRef },
    InputLight { input: InputRef },
    InputPosition { input: InputRef },
    InputLastEventAge { input: InputRef },
    TimeNow,
    TimeHour,
    TimeMinute,
    TimeWeekday,
    SunRise,
    SunSet,
    SunIsUp,
    Var { name: String },
    EventValue,
    EventDevice,
    EventInstance,
    EventOption,
}

#[derive(Debug, Clone, PartialEq)]
pub enum ValueExpr {
    Literal(i64),
    Reading(Reading),
    Offset { reading: Reading, delta: i32 },
}

#[derive(Debug, Clone, PartialEq)]
pub enum VarValue {
    Int(i64),
    Text(Text),
}

#[derive(Debug, Clone, PartialEq)]
pub enum VarOperand {
    Value(ValueExpr),
    Text(Text),
}

#[derive(Debug, Clone, PartialEq)]
pub enum Condition {
    TimeInRange { start: TimeBound, end: TimeBound },
    DayIn { days: DaySet },
    SunIs { up: bool },
    LampIs { lamp: LampRef, on: bool },
    LampLevel { lamp: LampRef, cmp: Cmp, value: ValueExpr },
    LampCct { lamp: LampRef, cmp: Cmp, value: ValueExpr },
    GroupState { group: GroupRef, state: GroupAggregate },
    InputOccupancy { input: InputRef, occupied: bool },
    InputLight { input: InputRef, above: bool, threshold: ValueExpr },
    HclState { target: LightTarget, state: HclState },
    DeviceOnline { device: DeviceRef },
    RuleEnabled { rule: String },
    LastFiredOlderThan { rule: String, than_ms: DurationMs },
    TimerRunning { timer: String },
    ControllerActive,
    VarCompare { name: String, cmp: Cmp, value: VarOperand },
}
