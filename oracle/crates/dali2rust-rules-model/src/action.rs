use crate::condition::{Condition, ValueExpr, VarValue};
use crate::list::List;
use crate::reference::{DurationMs, InputRef, LightTarget};

#[derive(Debug, Clone, PartialEq)]
pub enum Action {
    Light(LightAction),
    Scene(SceneAction),
    Hcl(HclAction),
    Input(InputAction),
    Flow(FlowAction),
    State(StateAction),
}

#[derive(Debug, Clone, PartialEq)]
pub struct LightAction {
    pub target: LightTarget,
    pub op: LightOp,
    pub hold_hcl: Option<bool>,
}

/// The stored answer of `light_verb`, in place of the published operations.
#[derive(Debug, Clone, PartialEq)]
pub enum LightOp {
    Verb(u32),
    Nothing,
    Unevaluable,
    /// Request 1 of document 02, which the published engine does not have: a value in parts per million of full light.
    Percent(ValueExpr),
}

/// The next three are only named by functions that stood behind `light_verb`.
#[derive(Debug, Clone, Copy, PartialEq, Eq)]
pub enum DimDirection {
    Up,
    Down,
}

#[derive(Debug, Clone, PartialEq)]
pub enum LevelSpec {
    Absolute(ValueExpr),
    Relative { delta: i16 },
}

#[derive(Debug, Clone, PartialEq)]
pub enum CctSpec {
    Absolute(ValueExpr),
    Relative { delta_k: i32 },
}

/// The stored answer of `scene_number`, in place of the published value.
#[derive(Debug, Clone, Copy, PartialEq, Eq)]
pub enum SceneAnswer {
    Number(u8),
    Unevaluable,
}

#[derive(Debug, Clone, PartialEq)]
pub enum SceneAction {
    Recall { scene: SceneAnswer, target: Option<LightTarget> },
    Apply { scene: SceneAnswer },
    Cycle { scenes: List<u8> },
}

#[derive(Debug, Clone, PartialEq)]
pub enum HclAction {
    Resume { target: LightTarget },
    Hold { target: LightTarget },
    Enable { schedule: String },
    Disable { schedule: String },
}

#[derive(Debug, Clone, PartialEq)]
pub enum InputAction {
    FeedbackOn { input: InputRef },
    FeedbackOff { input: InputRef },
    PanelSelect { adapter_id: u8, group: u8, selected: ValueExpr },
    CancelHold { input: InputRef },
    CatchMovement { input: InputRef },
}

#[derive(Debug, Clone, PartialEq)]
pub enum FlowAction {
    TimerStart { timer: String, duration_ms: DurationMs },
    TimerRestart { timer: String, duration_ms: DurationMs },
    TimerCancel { timer: String },
    Wait { duration_ms: DurationMs },
    After { delay_ms: DurationMs, actions: List<Action> },
    Call { block: String },
    Repeat { count: u8, actions: List<Action> },
    Conditional {
        condition: Condition,
        then_actions: List<Action>,
        else_actions: List<Action>,
    },
}

#[derive(Debug, Clone, PartialEq)]
pub enum StateAction {
    VarSet { name: String, value: VarValue },
    VarAdd { name: String, delta: ValueExpr },
    RuleEnable { rule: String },
    RuleDisable { rule: String },
    MqttPublish { topic: String, payload: String, retain: bool },
    Log { text: String },
    StatCount { name: String },
}
