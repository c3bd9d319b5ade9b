//! Stand-in for `dali2rust_rules_model`, written from its uses in the eleven engine files.
//! Names are `String`s that spell the caller's numbers. A light target and a text are one number
//! each, and the answers of `light_verb` and `scene_number` are stored in the actions.

mod action;
mod condition;
pub mod limits;
mod list;
pub mod percent;
mod reference;
mod trigger;

pub use action::{
    Action, CctSpec, DimDirection, FlowAction, HclAction, InputAction, LevelSpec, LightAction,
    LightOp, SceneAction, SceneAnswer, StateAction,
};
pub use condition::{
    ClockTime, Cmp, Condition, HclState, Reading, SolarEvent, TimeBound, ValueExpr, VarOperand,
    VarValue,
};
pub use list::List;
pub use reference::{
    DaySet, DeviceRef, DurationMs, GroupRef, GroupSelector, InputDeviceRef, InputRef,
    InputSelector, LampRef, LightTarget, TargetNumber, Text, Weekday,
};
pub use trigger::{
    CrossDirection, GroupAggregate, InputEventMatch, OccupancyState, OnlineTransition,
    OverrideTransition, PowerTransition, Trigger, TriggerKind,
};

#[derive(Debug, Clone, PartialEq)]
pub struct Rule {
    pub name: String,
    pub enabled: bool,
    pub hold_hcl: bool,
    pub cooldown_ms: u32,
    pub triggers: List<Trigger>,
    pub conditions: List<Condition>,
    pub actions: List<Action>,
}

#[derive(Debug, Clone, PartialEq)]
pub struct DefBlock {
    pub name: String,
    pub actions: List<Action>,
}

#[derive(Debug, Clone, PartialEq)]
pub struct RuleSet {
    pub rules: List<Rule>,
    pub blocks: List<DefBlock>,
}

impl RuleSet {
    /// The number is the published set's revision, which the engine files never read.
    #[must_use]
    pub fn empty(_revision: u32) -> RuleSet {
        RuleSet {
            rules: List::default(),
            blocks: List::default(),
        }
    }

    #[must_use]
    pub fn rule(&self, name: &str) -> Option<&Rule> {
        self.rules.iter().find(|rule| rule.name == name)
    }
}

/// Document 01 leaves statistics out ("StatCount spends its step and gives nothing"), so no name
/// is counted.
#[must_use]
pub fn stat_names(_set: &RuleSet) -> Vec<&str> {
    Vec::new()
}
