use crate::condition::{ClockTime, SolarEvent};
use crate::reference::{
    DaySet, DeviceRef, DurationMs, GroupRef, InputDeviceRef, InputRef, InputSelector, LampRef,
    LightTarget,
};

#[derive(Debug, Clone, Copy, PartialEq, Eq)]
pub enum CrossDirection {
    Above,
    Below,
}

#[derive(Debug, Clone, Copy, PartialEq, Eq)]
pub enum GroupAggregate {
    AnyOn,
    AllOff,
}

#[derive(Debug, Clone, Copy, PartialEq, Eq)]
pub enum OccupancyState {
    Occupied,
    Vacant,
}

#[derive(Debug, Clone, Copy, PartialEq, Eq)]
pub enum OnlineTransition {
    ComesOnline,
    GoesOffline,
}

#[derive(Debug, Clone, Copy, PartialEq, Eq)]
pub enum OverrideTransition {
    Starts,
    Ends,
}

#[derive(Debug, Clone, Copy, PartialEq, Eq)]
pub enum PowerTransition {
    On,
    Off,
}

#[derive(Debug, Clone, Copy, PartialEq, Eq)]
pub enum InputEventMatch {
    Press,
    Release,
    ShortPress,
    DoublePress,
    LongPressStart,
    LongPressRepeat,
    LongPressStop,
    ButtonFree,
    ButtonStuck,
    Movement,
    NoMovement,
    AnyEvent,
    Raw { data: u16 },
}

#[derive(Debug, Clone, PartialEq)]
pub enum Trigger {
    InputEvent { source: InputSelector, event: InputEventMatch },
    InputOccupancy { source: InputRef, becomes: OccupancyState },
    InputLightCross { source: InputRef, direction: CrossDirection, threshold: u16 },
    InputPositionChange { source: InputRef },
    InputDevicePowerCycled { device: InputDeviceRef },
    InputDeviceManualConfigChanged { device: InputDeviceRef },
    LampTurns { lamp: LampRef, to: PowerTransition },
    LampLevelCross { lamp: LampRef, direction: CrossDirection, threshold: u8 },
    GroupBecomes { group: GroupRef, becomes: GroupAggregate },
    SceneRecalled { adapter_id: u8, scene: u8 },
    DeviceOnlineTransition { device: DeviceRef, transition: OnlineTransition },
    HclOverride { target: LightTarget, transition: OverrideTransition },
    ControllerBecomesActive,
    ControllerStarts,
    RuleFails { rule: String },
    MqttMessage { topic: String, payload: Option<String> },
    TimerFires { timer: String },
    Every { period_ms: DurationMs },
    AtTime { time: ClockTime, days: DaySet },
    AtSolar { event: SolarEvent, offset_ms: i32 },
}

/// The kinds that reach an outcome here, and `External` for all that only other inputs can meet.
#[derive(Debug, Clone, Copy, PartialEq, Eq)]
pub enum TriggerKind {
    HttpTrigger,
    TimerFires,
    Every,
    AtTime,
    AtSolar,
    External,
}

impl TriggerKind {
    #[must_use]
    pub fn name(self) -> &'static str {
        match self {
            TriggerKind::HttpTrigger => "HttpTrigger",
            TriggerKind::TimerFires => "TimerFires",
            TriggerKind::Every => "Every",
            TriggerKind::AtTime => "AtTime",
            TriggerKind::AtSolar => "AtSolar",
            TriggerKind::External => "External",
        }
    }
}

impl Trigger {
    #[must_use]
    pub fn kind(&self) -> TriggerKind {
        match self {
            Trigger::TimerFires { .. } => TriggerKind::TimerFires,
            Trigger::Every { .. } => TriggerKind::Every,
            Trigger::AtTime { .. } => TriggerKind::AtTime,
            Trigger::AtSolar { .. } => TriggerKind::AtSolar,
            _ => TriggerKind::External,
        }
    }
}
