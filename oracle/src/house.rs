//! One store and the eight calls on it, each a transaction: a refused call changes nothing. More than 400 lines: the store is one type, whose fields no other module sees.

use dali2rust_rules_model::limits::{self, Limits};
use dali2rust_rules_model::{InputRef, LightTarget, TriggerKind};
use dali2rust_rules_runtime::runtime::engine::access::{Kept, NextStart};
use dali2rust_rules_runtime::runtime::engine::{
    ActivationOutcome, Effect, Engine, EngineCountersSnapshot, EngineInput, LightVerb,
    PartialReason, WorldSnapshot,
};

use crate::script::{self, Given};
use crate::{check, decode};

const STORE_WORDS: u32 = 16_384;
const OUTCOME_WORDS: u32 = 8;
const EFFECT_WORDS: u32 = 5;
/// Places of the next sequence number and of the last activation number, low and high word (docs/STORE.md). The oracle keeps no other
/// store word.
const NEXT_LOW: u32 = 13_723;
pub(crate) const NEXT_HIGH: u32 = 13_724;
const LAST_LOW: u32 = 13_725;
pub(crate) const LAST_HIGH: u32 = 13_726;
/// The next sequence number of a new store.
const FIRST_NUMBER: u64 = 1;

/// One line of a script. Sizes and places are in words.
#[derive(Clone, Debug, PartialEq)]
pub enum Call {
    New { time: u64 },
    Load { time: u64, image: Vec<u32> },
    Unload { time: u64 },
    Enable { rule: u32, on: bool },
    Tick { snapshot: Vec<u32> },
    Run { rule: u32, dry: bool, snapshot: Vec<u32> },
    Deadline,
    Counters,
    Lend { outcomes: u32, effects: u32 },
    Size { words: u32 },
    Poke { place: u32, word: u32 },
    Peek { place: u32 },
    /// A call that the published engine has not.
    Own { name: &'static str, given: Given },
}

#[derive(Clone, Debug, PartialEq)]
pub enum Answer {
    Silent,
    Outcomes { time: u64, list: Vec<Outcome> },
    Enabled(bool),
    Deadline(Option<u64>),
    Counters([u32; 16]),
    Word(u32),
    Refused(u32),
    /// The lines for a call that the published engine has not.
    Own(String),
    /// What the oracle cannot do, as call and place.
    Unsupported(String),
}

/// An effect is its kind and four words.
#[derive(Clone, Debug, PartialEq)]
pub struct Outcome {
    pub rule: u32,
    pub dry: u32,
    pub trigger: u32,
    pub reason: u32,
    pub effects: Vec<[u32; 5]>,
}

#[derive(Clone)]
pub struct House {
    engine: Engine,
    limits: Limits,
    /// The store's next sequence number: `new` sets it, each accepted continuation adds 1, load
    /// and unload keep it.
    next: u64,
    /// The last activation number given (document 02, request 6): 0 in a new store, each wet activation that begins adds 1.
    last: u64,
    size: u32,
    outcome_words: u32,
    effect_words: u32,
    /// Whether a tick's clock was set back.
    set_back: bool,
    /// Whether an outcome of the last tick or run was refused for the depth of its chain.
    chained: bool,
}

impl Default for House {
    fn default() -> House {
        House::new()
    }
}

impl House {
    /// A store made new at time 0, with large lent stores.
    #[must_use]
    pub fn new() -> House {
        House {
            engine: Engine::new(0),
            limits: Limits::NONE,
            next: FIRST_NUMBER,
            last: 0,
            size: STORE_WORDS,
            outcome_words: OUTCOME_WORDS * 3_072,
            effect_words: EFFECT_WORDS * 65_536,
            set_back: false,
            chained: false,
        }
    }

    /// Whether a tick's clock was set back (request 5 of document 02): up to there the wheel is the published one, from then on its
    /// variant stands for the definition.
    #[must_use]
    pub fn is_set_back(&self) -> bool {
        self.set_back
    }

    /// How many minutes the clock of a tick is behind the remembered minute, round the week; None where it is not asked for.
    #[must_use]
    pub fn minutes_behind(&self, call: &Call) -> Option<u32> {
        match call {
            Call::Tick { snapshot } if check::snapshot_refusal(snapshot).is_none() => {
                self.engine.minutes_behind(&decode::world(snapshot))
            }
            _ => None,
        }
    }

    /// What a store would keep, but for the set's image and the counters; and the next sequence
    /// number.
    #[must_use]
    pub fn kept(&self) -> (Kept, u64) {
        limits::set(self.limits);
        (self.engine.kept(), self.next)
    }

    /// The last activation number. The Rust numbers no activations: it counts them.
    #[must_use]
    pub fn last_number(&self) -> u64 {
        self.last
    }

    pub fn call(&mut self, call: &Call) -> Answer {
        match call {
            Call::Lend { outcomes, effects } => {
                self.outcome_words = *outcomes;
                self.effect_words = *effects;
                Answer::Silent
            }
            Call::Size { words } => {
                self.size = *words;
                Answer::Silent
            }
            Call::Poke { place, word } => self.poke(*place, *word),
            Call::Peek { place } => self.peek(*place),
            Call::Own { name, given } => self.own(name, given),
            _ if self.size != STORE_WORDS => Answer::Refused(1),
            _ => match self.engine_call(call) {
                _ if self.shows_chain() => Answer::Unsupported("a chain of rules".to_owned()),
                answer => answer,
            },
        }
    }

    /// Document 02, request 9: the Rust's memory of chains shows nowhere, so that its counter, its reason and the depth of a
    /// continuation have no word here. Whether one of the three is not as it must be: the counter 0, no outcome of the last call refused
    /// for its depth, every continuation at depth 0.
    #[must_use]
    pub fn shows_chain(&self) -> bool {
        self.chained || self.engine.counters().chain_depth_exceeded != 0 || self.engine.deepest_continuation() != 0
    }

    fn engine_call(&mut self, call: &Call) -> Answer {
        match call {
            Call::New { time } => {
                self.engine = Engine::new(*time);
                (self.next, self.last) = (FIRST_NUMBER, 0);
                Answer::Silent
            }
            Call::Load { time, image } => self.load(*time, image),
            Call::Unload { time } => {
                self.engine.set_rules(None, *time);
                Answer::Silent
            }
            Call::Enable { rule, on } => {
                Answer::Enabled(self.engine.set_rule_enabled(&decode::name(*rule), *on))
            }
            Call::Tick { snapshot } => self.handle(EngineInput::Tick, snapshot),
            Call::Run { rule, dry, snapshot } => {
                let name = decode::name(*rule);
                self.handle(EngineInput::RunRule { name: &name, dry: *dry }, snapshot)
            }
            Call::Deadline => Answer::Deadline(self.engine.next_deadline_ms()),
            Call::Counters => Answer::Counters(counter_words(&self.engine.counters())),
            Call::Lend { .. }
            | Call::Size { .. }
            | Call::Poke { .. }
            | Call::Peek { .. }
            | Call::Own { .. } => Answer::Silent,
        }
    }

    /// Whether a store of the right size is given: a call that asks one of another size is refused with 1.
    #[must_use]
    pub fn is_sized(&self) -> bool {
        self.size == STORE_WORDS
    }

    /// What starts next by the wall clock: `crate::next_start`.
    #[must_use]
    pub fn next_start(&self, world: &WorldSnapshot) -> NextStart {
        self.engine.next_start(world)
    }

    /// The solar starts of a rule, minute and remainder, None without a sun: `crate::readback`.
    #[must_use]
    pub fn solar_starts(&self, rule: u32, world: &WorldSnapshot) -> Vec<Option<(u16, i32)>> {
        self.engine.solar_starts(&decode::name(rule), world)
    }

    fn own(&self, name: &str, given: &Given) -> Answer {
        match script::own(name).map(|answer| answer(self, given)) {
            Some(Ok(lines)) => Answer::Own(lines),
            Some(Err(number)) => Answer::Refused(number),
            None => Answer::Unsupported(name.to_owned()),
        }
    }

    fn load(&mut self, time: u64, image: &[u32]) -> Answer {
        if let Some(number) = check::image_refusal(image) {
            return Answer::Refused(number);
        }
        let (set, limits) = decode::rule_set(image);
        self.limits = limits;
        self.engine.set_rules(Some(set), time);
        Answer::Silent
    }

    /// 30, 31 and 32 are known only after the work, so it is done on a copy.
    fn handle(&mut self, input: EngineInput<'_>, snapshot: &[u32]) -> Answer {
        if let Some(number) = check::snapshot_refusal(snapshot) {
            return Answer::Refused(number);
        }
        let world = decode::world(snapshot);
        limits::set(self.limits);
        let mut engine = self.engine.clone();
        let before = engine.counters();
        self.set_back |= engine.is_set_back(&input, &world);
        let outcomes = engine.handle_set_back(input, &world);
        self.chained = outcomes.iter().any(|outcome| outcome.partial == Some(PartialReason::ChainDepth));
        let after = engine.counters();
        if !self.room_for(&outcomes) {
            return Answer::Refused(30);
        }
        let accepted = after.continuations_scheduled.saturating_sub(before.continuations_scheduled);
        let Some(next) = self.next.checked_add(u64::from(accepted)) else {
            return Answer::Refused(31);
        };
        let begun = after.activations_total.saturating_sub(before.activations_total);
        let Some(last) = self.last.checked_add(u64::from(begun)) else {
            return Answer::Refused(32);
        };
        self.engine = engine;
        (self.next, self.last) = (next, last);
        Answer::Outcomes {
            time: world.now_ms,
            list: outcomes.iter().map(outcome_words).collect(),
        }
    }

    fn room_for(&self, outcomes: &[ActivationOutcome]) -> bool {
        let effects: usize = outcomes.iter().map(|outcome| outcome.effects.len()).sum();
        outcomes.len() <= (self.outcome_words / OUTCOME_WORDS) as usize
            && effects <= (self.effect_words / EFFECT_WORDS) as usize
    }

    fn poke(&mut self, place: u32, word: u32) -> Answer {
        let number = match place {
            NEXT_LOW | NEXT_HIGH => &mut self.next,
            LAST_LOW | LAST_HIGH => &mut self.last,
            _ => return Answer::Unsupported(format!("poke {place}")),
        };
        *number = match place {
            NEXT_LOW | LAST_LOW => decode::pair(word, (*number >> 32) as u32),
            _ => decode::pair(*number as u32, word),
        };
        Answer::Silent
    }

    fn peek(&self, place: u32) -> Answer {
        match place {
            NEXT_LOW => Answer::Word(self.next as u32),
            NEXT_HIGH => Answer::Word((self.next >> 32) as u32),
            LAST_LOW => Answer::Word(self.last as u32),
            LAST_HIGH => Answer::Word((self.last >> 32) as u32),
            _ => Answer::Unsupported(format!("peek {place}")),
        }
    }
}

/// The 12 counters in `EngineCounters` order without `chain_depth_exceeded`, then pending, timers, rules, variables.
fn counter_words(counters: &EngineCountersSnapshot) -> [u32; 16] {
    [
        counters.activations_total,
        counters.activations_dry,
        counters.suppressed_cooldown,
        counters.suppressed_disabled,
        counters.conditions_rejected,
        counters.partial_outcomes,
        counters.effects_emitted,
        counters.actions_failed,
        counters.continuations_scheduled,
        counters.continuations_fired,
        counters.continuations_dropped,
        counters.ticks_time_unsynced,
        counters.continuations_pending,
        counters.timers_active,
        counters.rules_loaded,
        counters.vars_in_use,
    ]
}

fn outcome_words(outcome: &ActivationOutcome) -> Outcome {
    Outcome {
        rule: decode::number(&outcome.rule),
        dry: u32::from(outcome.dry),
        trigger: trigger_code(outcome.trigger_kind),
        reason: match outcome.partial {
            None => 0,
            Some(PartialReason::ConditionUnevaluable) => 1,
            Some(PartialReason::EffectBudget) => 2,
            // Given by no outcome: `shows_chain`.
            Some(PartialReason::ChainDepth) => u32::MAX,
        },
        effects: outcome.effects.iter().map(effect_words).collect(),
    }
}

/// Other kinds reach no outcome by a tick or a run.
pub fn trigger_code(kind: &str) -> u32 {
    const CODES: [TriggerKind; 5] = [
        TriggerKind::HttpTrigger,
        TriggerKind::TimerFires,
        TriggerKind::Every,
        TriggerKind::AtTime,
        TriggerKind::AtSolar,
    ];
    let found = CODES.iter().position(|known| known.name() == kind);
    found.map_or(u32::MAX, |code| code as u32)
}

fn effect_words(effect: &Effect) -> [u32; 5] {
    match effect {
        // Only action kind 28 gives a level.
        Effect::Light { target, verb: LightVerb::Level { level }, hold_hcl } => {
            [12, target_word(target), u32::from(*level), u32::from(*hold_hcl), 0]
        }
        Effect::Light { target, verb, hold_hcl } => {
            [0, target_word(target), verb_word(verb), u32::from(*hold_hcl), 0]
        }
        Effect::SceneRecall { scene, target, hold_hcl } => [
            1,
            u32::from(*scene),
            u32::from(target.is_some()),
            target.as_ref().map_or(0, target_word),
            u32::from(*hold_hcl),
        ],
        Effect::SceneApply { scene, hold_hcl } => {
            [2, u32::from(*scene), u32::from(*hold_hcl), 0, 0]
        }
        Effect::HclResume { target } => [3, target_word(target), 0, 0, 0],
        Effect::HclHold { target } => [4, target_word(target), 0, 0, 0],
        Effect::HclSchedule { schedule, enabled } => {
            [5, decode::number(schedule), u32::from(*enabled), 0, 0]
        }
        Effect::InputFeedback { input, on } => input_words(6, input, u32::from(*on)),
        Effect::PanelSelect { adapter_id, group, selected } => {
            [7, u32::from(*adapter_id), u32::from(*group), u32::from(*selected), 0]
        }
        Effect::CancelHold { input } => input_words(8, input, 0),
        Effect::CatchMovement { input } => input_words(9, input, 0),
        Effect::MqttPublish { topic, payload, retain } => {
            [10, decode::number(topic), decode::number(payload), u32::from(*retain), 0]
        }
        Effect::Log { text } => [11, decode::number(text), 0, 0, 0],
    }
}

fn input_words(kind: u32, input: &InputRef, last: u32) -> [u32; 5] {
    [
        kind,
        u32::from(input.adapter_id),
        u32::from(input.device_short_address),
        u32::from(input.instance_number),
        last,
    ]
}

/// The decoder makes numbered targets only.
fn target_word(target: &LightTarget) -> u32 {
    target.number().unwrap_or(0)
}

/// `light_verb` gives stored verbs and levels only.
fn verb_word(verb: &LightVerb) -> u32 {
    match verb {
        LightVerb::Stored(word) => *word,
        _ => 0,
    }
}
