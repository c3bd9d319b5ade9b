//! Makes the words of rule images and snapshots from readable values. What it
//! writes is laid out as document 01 says; it tests no range, so that values out
//! of range give the image that has them.

mod layout;
mod world;

pub use world::{Device, Group, Hcl, Input, Lamp, World};

/// Adapter, address, instance of an input.
pub type InputRef = [u32; 3];
/// Adapter and id of a lamp or a group.
pub type LampRef = [u32; 2];

/// The five limits of the trailer.
#[derive(Clone, Copy, Debug, PartialEq, Eq)]
pub struct Limits {
    pub budget: u32,
    pub depth: u32,
    pub repeat: u32,
    pub text: u32,
    pub group: u32,
}

impl Default for Limits {
    fn default() -> Limits {
        Limits { budget: 256, depth: 8, repeat: 255, text: 255, group: 255 }
    }
}

#[derive(Clone, Copy, Debug, PartialEq, Eq)]
pub enum Value {
    Literal(i64),
    /// Reading code and reference words.
    Reading(u32, [u32; 3]),
    /// The same with a delta.
    Offset(u32, [u32; 3], i32),
}

#[derive(Clone, Copy, Debug, PartialEq, Eq)]
pub enum Bound {
    Clock(u32, u32),
    /// Event (sunrise 0, sunset 1) and offset in milliseconds.
    Solar(u32, i32),
}

#[derive(Clone, Copy, Debug, PartialEq, Eq)]
pub enum Trigger {
    TimerFires(u32),
    Every(u32),
    AtTime(u32, u32, u32),
    AtSolar(u32, i32),
    Other,
}

/// Comparisons are 0 to 5: Eq, Ne, Ge, Le, Gt, Lt.
#[derive(Clone, Copy, Debug, PartialEq, Eq)]
pub enum Condition {
    TimeInRange(Bound, Bound),
    DayIn(u32),
    SunIs(u32),
    LampIs(LampRef, u32),
    LampLevel(LampRef, u32, Value),
    LampCct(LampRef, u32, Value),
    GroupState(LampRef, u32),
    InputOccupancy(InputRef, u32),
    InputLight(InputRef, u32, Value),
    HclState(u32, u32),
    DeviceOnline([u32; 2]),
    RuleEnabled(u32),
    LastFiredOlderThan(u32, u32),
    TimerRunning(u32),
    ControllerActive,
    VarValue(u32, u32, Value),
    VarText(u32, u32, u32),
}

#[derive(Clone, Debug, PartialEq, Eq)]
pub enum Action {
    /// Target, hold (0, 1, 2 absent), answer (0 verb, 1 nothing, 2 unevaluable), verb.
    Light(u32, u32, u32, u32),
    /// Scene (None: unevaluable) and target.
    Recall(Option<u32>, Option<u32>),
    Apply(Option<u32>),
    Cycle(Vec<u32>),
    HclResume(u32),
    HclHold(u32),
    HclEnable(u32),
    HclDisable(u32),
    FeedbackOn(InputRef),
    FeedbackOff(InputRef),
    /// Adapter, group, selected.
    PanelSelect(u32, u32, Value),
    /// Target, hold (0, 1, 2 absent), parts per million.
    Percent(u32, u32, Value),
    CancelHold(InputRef),
    CatchMovement(InputRef),
    TimerStart(u32, u32),
    TimerRestart(u32, u32),
    TimerCancel(u32),
    VarSet(u32, i64),
    /// Name, number of the text, its length in bytes.
    VarText(u32, u32, u32),
    VarAdd(u32, Value),
    RuleEnable(u32),
    RuleDisable(u32),
    /// Topic, payload, retain.
    MqttPublish(u32, u32, u32),
    Log(u32),
    StatCount(u32),
    Wait(u32),
    After(u32, Vec<Action>),
    Call(u32),
    Repeat(u32, Vec<Action>),
    Conditional(Condition, Vec<Action>, Vec<Action>),
}

#[derive(Clone, Debug, PartialEq, Eq)]
pub struct Rule {
    pub name: u32,
    pub enabled: u32,
    pub hold: u32,
    pub cooldown: u32,
    pub triggers: Vec<Trigger>,
    pub conditions: Vec<Condition>,
    pub actions: Vec<Action>,
}

impl Rule {
    /// An enabled rule without cooldown, trigger or condition.
    pub fn new(name: u32, actions: Vec<Action>) -> Rule {
        Rule {
            name,
            enabled: 1,
            hold: 0,
            cooldown: 0,
            triggers: Vec::new(),
            conditions: Vec::new(),
            actions,
        }
    }
}

#[derive(Clone, Debug, PartialEq, Eq)]
pub struct Block {
    pub name: u32,
    pub actions: Vec<Action>,
}

/// A rule set as the panel would write it.
#[derive(Clone, Debug, Default, PartialEq, Eq)]
pub struct Image {
    pub limits: Limits,
    pub rules: Vec<Rule>,
    pub blocks: Vec<Block>,
}

impl Image {
    pub fn of(rules: Vec<Rule>) -> Image {
        Image { rules, ..Image::default() }
    }

    pub fn with_budget(mut self, budget: u32) -> Image {
        self.limits.budget = budget;
        self
    }

    /// The words of the image: eight tables and the trailer.
    pub fn words(&self) -> Vec<u32> {
        layout::image_words(self)
    }
}

/// A 64-bit value as two words, low first.
pub fn pair(value: u64) -> [u32; 2] {
    [value as u32, (value >> 32) as u32]
}

#[cfg(test)]
mod tests {
    use super::*;
    use crate::check::{image_refusal, snapshot_refusal};

    /// One rule that holds one record of everything, nested as far as allowed.
    fn everything() -> Image {
        let value = Value::Offset(18, [3, 0, 0], -1);
        let nested = Action::After(
            7,
            vec![Action::Repeat(2, vec![Action::Conditional(
                Condition::VarValue(3, 1, value),
                vec![Action::Log(1)],
                vec![Action::Call(9), Action::VarAdd(3, Value::Literal(-5))],
            )])],
        );
        let mut rule = Rule::new(5, vec![nested, Action::Cycle(vec![1, 2]), Action::Wait(10)]);
        rule.conditions = vec![Condition::TimeInRange(Bound::Clock(1, 2), Bound::Solar(1, -60_000))];
        rule.triggers = vec![Trigger::Every(5), Trigger::AtTime(23, 59, 127)];
        let block = Block { name: 9, actions: vec![Action::PanelSelect(1, 2, value)] };
        Image { blocks: vec![block], ..Image::of(vec![rule]) }
    }

    #[test]
    fn a_built_image_is_accepted() {
        assert_eq!(image_refusal(&everything().words()), None);
        assert_eq!(image_refusal(&Image::default().words()), None);
    }

    #[test]
    fn the_example_of_document_01_has_these_words() {
        let actions = vec![Action::Log(7), Action::Wait(1000), Action::Log(9)];
        let words = Image::of(vec![Rule::new(5, actions)]).with_budget(8).words();
        let mut wanted = vec![5, 1, 0, 0, 0, 0, 0, 0, 0, 3, 0, 0, 0, 0, 0, 0];
        for (kind, field) in [(21, 7), (23, 1000), (21, 9)] {
            wanted.extend([kind, field, 0, 0, 0, 0, 0, 0]);
        }
        wanted.extend([8, 8, 255, 255, 255, 0, 16, 16, 16, 16, 40, 40, 40]);
        assert_eq!(words, wanted);
    }

    #[test]
    fn equal_values_are_stored_once() {
        let twice = vec![
            Action::VarAdd(1, Value::Literal(4)),
            Action::VarAdd(2, Value::Literal(4)),
        ];
        let words = Image::of(vec![Rule::new(1, twice)]).words();
        assert_eq!(words.len(), 16 + 2 * 8 + 8 + 13);
    }

    #[test]
    fn a_built_snapshot_is_accepted() {
        let world = World {
            now: 1 << 40,
            wall: Some((6, 1_439)),
            sun: Some((0, 1_439)),
            lamps: vec![Lamp { id: [1, 2], level: Some(3), ..Lamp::default() }],
            inputs: vec![Input { id: [1, 2, 3], age: Some(u32::MAX), ..Input::default() }],
            ..World::default()
        };
        let words = world.words();
        assert_eq!(words.len(), 14 + 9 + 11);
        assert_eq!(words[..2], [0, 256]);
        assert_eq!(snapshot_refusal(&words), None);
    }
}
