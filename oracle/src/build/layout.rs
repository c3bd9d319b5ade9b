//! The words of an image: the tables in document 01's order, and the trailer.

use super::{pair, Action, Bound, Condition, Image, Limits, Trigger, Value};

/// A record of 8 words: kind, fields, zeros.
type Record = [u32; 8];

/// The records made so far, without the rules and blocks.
#[derive(Default)]
struct Tables {
    triggers: Vec<Record>,
    conditions: Vec<Record>,
    actions: Vec<Record>,
    values: Vec<Record>,
    bounds: Vec<Record>,
    pool: Vec<u32>,
}

pub(super) fn image_words(image: &Image) -> Vec<u32> {
    let mut tables = Tables::default();
    let rules = rule_words(image, &mut tables);
    let blocks = block_words(image, &mut tables);
    let parts: [Vec<u32>; 8] = [
        rules,
        blocks,
        tables.triggers.concat(),
        tables.conditions.concat(),
        tables.actions.concat(),
        tables.values.concat(),
        tables.bounds.concat(),
        tables.pool,
    ];
    let Limits { budget, depth, repeat, text, group } = image.limits;
    let mut trailer = vec![budget, depth, repeat, text, group];
    let mut words = Vec::new();
    for part in parts {
        trailer.push(words.len() as u32);
        words.extend(part);
    }
    words.extend(trailer);
    words
}

fn rule_words(image: &Image, tables: &mut Tables) -> Vec<u32> {
    let mut words = Vec::new();
    for rule in &image.rules {
        let triggers = tables.trigger_list(&rule.triggers);
        let conditions = tables.condition_list(&rule.conditions);
        let actions = tables.action_list(&rule.actions);
        words.extend([rule.name, rule.enabled, rule.hold, rule.cooldown]);
        words.extend(triggers.into_iter().chain(conditions).chain(actions));
        words.extend([0; 6]);
    }
    words
}

fn block_words(image: &Image, tables: &mut Tables) -> Vec<u32> {
    let mut words = Vec::new();
    for block in &image.blocks {
        let [first, count] = tables.action_list(&block.actions);
        words.extend([block.name, first, count, 0, 0, 0, 0, 0]);
    }
    words
}

fn record(kind: u32, fields: &[u32]) -> Record {
    let mut words = [0; 8];
    words[0] = kind;
    for (word, field) in words[1..].iter_mut().zip(fields) {
        *word = *field;
    }
    words
}

/// The index of a record that is stored once, however often it is used.
fn once(table: &mut Vec<Record>, wanted: Record) -> u32 {
    let found = table.iter().position(|record| *record == wanted);
    found.unwrap_or_else(|| {
        table.push(wanted);
        table.len() - 1
    }) as u32
}

impl Tables {
    fn trigger_list(&mut self, triggers: &[Trigger]) -> [u32; 2] {
        let first = self.triggers.len() as u32;
        for trigger in triggers {
            self.triggers.push(match *trigger {
                Trigger::TimerFires(timer) => record(0, &[timer]),
                Trigger::Every(period) => record(1, &[period]),
                Trigger::AtTime(hour, minute, days) => record(2, &[hour, minute, days]),
                Trigger::AtSolar(event, offset) => record(3, &[event, offset as u32]),
                Trigger::Other => record(4, &[]),
            });
        }
        [first, triggers.len() as u32]
    }

    fn condition_list(&mut self, conditions: &[Condition]) -> [u32; 2] {
        let records: Vec<Record> = conditions.iter().map(|c| self.condition(c)).collect();
        let first = self.conditions.len() as u32;
        self.conditions.extend(&records);
        [first, records.len() as u32]
    }

    fn value(&mut self, value: Value) -> u32 {
        let words = match value {
            Value::Literal(number) => record(0, &pair(number as u64)),
            Value::Reading(code, [a, b, c]) => record(1, &[code, a, b, c]),
            Value::Offset(code, [a, b, c], delta) => record(2, &[code, a, b, c, delta as u32]),
        };
        once(&mut self.values, words)
    }

    fn bound(&mut self, bound: Bound) -> u32 {
        let words = match bound {
            Bound::Clock(hour, minute) => record(0, &[hour, minute]),
            Bound::Solar(event, offset) => record(1, &[event, offset as u32]),
        };
        once(&mut self.bounds, words)
    }

    fn condition(&mut self, condition: &Condition) -> Record {
        match *condition {
            Condition::TimeInRange(start, end) => record(0, &[self.bound(start), self.bound(end)]),
            Condition::DayIn(days) => record(1, &[days]),
            Condition::SunIs(up) => record(2, &[up]),
            Condition::LampIs([a, b], on) => record(3, &[a, b, on]),
            Condition::LampLevel([a, b], cmp, value) => record(4, &[a, b, cmp, self.value(value)]),
            Condition::LampCct([a, b], cmp, value) => record(5, &[a, b, cmp, self.value(value)]),
            Condition::GroupState([a, b], state) => record(6, &[a, b, state]),
            Condition::InputOccupancy([a, b, c], occupied) => record(7, &[a, b, c, occupied]),
            Condition::InputLight([a, b, c], above, value) => {
                record(8, &[a, b, c, above, self.value(value)])
            }
            Condition::HclState(target, state) => record(9, &[target, state]),
            Condition::DeviceOnline([a, b]) => record(10, &[a, b]),
            Condition::RuleEnabled(rule) => record(11, &[rule]),
            Condition::LastFiredOlderThan(rule, ms) => record(12, &[rule, ms]),
            Condition::TimerRunning(timer) => record(13, &[timer]),
            Condition::ControllerActive => record(14, &[]),
            Condition::VarValue(name, cmp, value) => record(15, &[name, cmp, 0, self.value(value)]),
            Condition::VarText(name, cmp, text) => record(15, &[name, cmp, 1, text]),
        }
    }

    /// Writes a list in one piece; the lists nested in it follow behind it, so
    /// each starts after its holder.
    fn action_list(&mut self, actions: &[Action]) -> [u32; 2] {
        let first = self.actions.len();
        self.actions.resize(first + actions.len(), [0; 8]);
        for (place, action) in actions.iter().enumerate() {
            let words = self.action(action);
            self.actions[first + place] = words;
        }
        [first as u32, actions.len() as u32]
    }

    fn action(&mut self, action: &Action) -> Record {
        match action {
            Action::After(ms, body) => {
                let [first, count] = self.action_list(body);
                record(24, &[*ms, first, count])
            }
            Action::Repeat(times, body) => {
                let [first, count] = self.action_list(body);
                record(26, &[*times, first, count])
            }
            Action::Conditional(condition, then, otherwise) => {
                let [condition, _] = self.condition_list(&[*condition]);
                let [first, count] = self.action_list(then);
                let [else_first, else_count] = self.action_list(otherwise);
                record(27, &[condition, first, count, else_first, else_count])
            }
            Action::Cycle(scenes) => {
                let first = self.pool.len() as u32;
                self.pool.extend(scenes);
                record(3, &[first, scenes.len() as u32])
            }
            Action::PanelSelect(adapter, group, value) => {
                record(10, &[*adapter, *group, self.value(*value)])
            }
            Action::VarAdd(name, value) => record(17, &[*name, self.value(*value)]),
            Action::Percent(target, hold, value) => record(28, &[*target, *hold, self.value(*value)]),
            plain => plain_action(plain),
        }
    }
}

/// The actions that point into no table.
fn plain_action(action: &Action) -> Record {
    match action {
        Action::Light(target, hold, answer, verb) => record(0, &[*target, *hold, *answer, *verb]),
        Action::Recall(scene, target) => {
            let [answer, scene] = answered(*scene);
            let [mark, target] = target.map_or([0, 0], |target| [1, target]);
            record(1, &[answer, scene, mark, target])
        }
        Action::Apply(scene) => record(2, &answered(*scene)),
        Action::HclResume(target) => record(4, &[*target]),
        Action::HclHold(target) => record(5, &[*target]),
        Action::HclEnable(schedule) => record(6, &[*schedule]),
        Action::HclDisable(schedule) => record(7, &[*schedule]),
        Action::FeedbackOn(input) => record(8, input),
        Action::FeedbackOff(input) => record(9, input),
        Action::CancelHold(input) => record(11, input),
        Action::CatchMovement(input) => record(12, input),
        other => state_action(other),
    }
}

fn state_action(action: &Action) -> Record {
    match action {
        Action::TimerStart(timer, ms) => record(13, &[*timer, *ms]),
        Action::TimerRestart(timer, ms) => record(14, &[*timer, *ms]),
        Action::TimerCancel(timer) => record(15, &[*timer]),
        Action::VarSet(name, number) => {
            let [low, high] = pair(*number as u64);
            record(16, &[*name, 0, low, high])
        }
        Action::VarText(name, text, length) => record(16, &[*name, 1, *text, *length]),
        Action::RuleEnable(rule) => record(18, &[*rule]),
        Action::RuleDisable(rule) => record(19, &[*rule]),
        Action::MqttPublish(topic, payload, retain) => record(20, &[*topic, *payload, *retain]),
        Action::Log(text) => record(21, &[*text]),
        Action::StatCount(name) => record(22, &[*name]),
        Action::Wait(ms) => record(23, &[*ms]),
        Action::Call(block) => record(25, &[*block]),
        // The actions that point into a table are written by `Tables::action`.
        _ => record(0, &[]),
    }
}

/// Answer 0 and the number, or answer 1 and 0.
fn answered(scene: Option<u32>) -> [u32; 2] {
    scene.map_or([1, 0], |scene| [0, scene])
}
