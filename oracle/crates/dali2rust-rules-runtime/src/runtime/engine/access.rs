//! Ours, not one of the eleven files: what an engine keeps, and evaluation without a run.

use std::collections::BTreeMap;

use dali2rust_rules_model::{Condition, RuleSet, ValueExpr, VarValue};

use super::eval::{eval_condition, eval_value, EvalEnv};
use super::exec::{flatten_rule, FlatStep};
use super::state::{Continuation, EventCtx, NamedTimer, Volatile};
use super::world::WorldSnapshot;
use super::Engine;

pub(super) mod light;
mod next_start;
mod set_back;
mod solar;

pub use next_start::{next_start, NextStart};
pub use solar::solar_starts;

/// What a store keeps of an engine, but for the set and the counters.
#[derive(Clone, Debug, Default, PartialEq)]
pub struct Kept {
    pub now_ms: u64,
    pub enabled: Vec<bool>,
    pub last_activation_ms: BTreeMap<String, u64>,
    pub cycle_pos: BTreeMap<String, usize>,
    pub vars: BTreeMap<String, VarValue>,
    /// Name and due time.
    pub timers: Vec<(String, u64)>,
    pub every: Vec<KeptSlot>,
    pub pending: Vec<KeptPending>,
    pub prev_week_min: Option<u32>,
}

#[derive(Clone, Debug, PartialEq)]
pub struct KeptSlot {
    pub rule: String,
    pub trigger_idx: usize,
    pub period_ms: u32,
    pub due_ms: u64,
}

#[derive(Clone, Debug, PartialEq)]
pub struct KeptPending {
    pub seq: u64,
    pub due_ms: u64,
    pub rule: String,
    pub trigger_kind: &'static str,
    pub budget_left: u32,
    /// The places of the rule's lists from which these steps are left: one, unless steps are repeated.
    pub places: Vec<KeptPlace>,
}

/// A place of a rule's list as `flatten_rule` makes it.
#[derive(Clone, Copy, Debug, PartialEq, Eq)]
pub struct KeptPlace {
    /// The step whose body the list is; None for the rule's own list.
    pub after: Option<usize>,
    pub step: usize,
    /// Inside a then-region: its end, and the end of the else-region behind it.
    pub jump: Option<(usize, usize)>,
}

impl Engine {
    #[must_use]
    pub fn kept(&self) -> Kept {
        let vol = &self.vol;
        Kept {
            now_ms: self.now_ms,
            enabled: self.enabled.clone(),
            last_activation_ms: vol.last_activation_ms.clone(),
            cycle_pos: vol.cycle_pos.clone(),
            vars: vol.vars.clone(),
            timers: vol.timers.iter().map(|t| (t.name.clone(), t.due_ms)).collect(),
            every: vol.every.iter().map(slot).collect(),
            pending: pendings(&vol.continuations, self.rules.as_ref()),
            prev_week_min: vol.prev_week_min,
        }
    }

    /// The greatest depth of a continuation; 0 where there is none.
    #[must_use]
    pub fn deepest_continuation(&self) -> u32 {
        self.vol.continuations.iter().map(|held| held.depth).max().unwrap_or(0)
    }
}

fn slot(slot: &super::state::EverySlot) -> KeptSlot {
    KeptSlot {
        rule: slot.rule.clone(),
        trigger_idx: slot.trigger_idx,
        period_ms: slot.period_ms,
        due_ms: slot.due_ms,
    }
}

/// Each rule's list is flattened once, however many continuations it has.
fn pendings(held: &[Continuation], rules: Option<&RuleSet>) -> Vec<KeptPending> {
    let mut lists: BTreeMap<&str, Vec<FlatStep>> = BTreeMap::new();
    for (set, rule) in held.iter().filter_map(|held| rules.and_then(|set| Some((set, set.rule(&held.rule)?)))) {
        lists.entry(&rule.name).or_insert_with(|| flatten_rule(&rule.actions, &set.blocks).into());
    }
    held.iter().map(|held| pending(held, lists.get(held.rule.as_str()))).collect()
}

fn pending(held: &Continuation, own: Option<&Vec<FlatStep>>) -> KeptPending {
    KeptPending {
        seq: held.seq,
        due_ms: held.due_ms,
        rule: held.rule.clone(),
        trigger_kind: held.trigger_kind,
        budget_left: held.budget_left,
        places: own.map_or_else(Vec::new, |own| places_in_lists(own, &held.steps)),
    }
}

/// The places of the rule's own list, then of the bodies in it, from which these steps are left.
fn places_in_lists(own: &[FlatStep], left: &[FlatStep]) -> Vec<KeptPlace> {
    let bodies = own.iter().enumerate().filter_map(|(at, step)| match step {
        FlatStep::AfterSched { body, .. } => Some((Some(at), body.as_slice())),
        _ => None,
    });
    std::iter::once((None, own)).chain(bodies).flat_map(|(after, list)| places_in(after, list, left)).collect()
}

fn places_in(after: Option<usize>, list: &[FlatStep], left: &[FlatStep]) -> Vec<KeptPlace> {
    let place = |step: usize| {
        let jump = region_around(list, step);
        let rest = match jump {
            Some((end, past)) => [&list[step..end], &list[past..]],
            None => [&list[step..], &[]],
        };
        let same = rest[0].len() + rest[1].len() == left.len()
            && rest[0].iter().chain(rest[1]).eq(left.iter());
        same.then_some(KeptPlace { after, step, jump })
    };
    (0..=list.len()).filter_map(place).collect()
}

/// The end of the then-region that holds a place, and the end of the else-region behind it.
fn region_around(list: &[FlatStep], place: usize) -> Option<(usize, usize)> {
    list.iter().enumerate().take(place).find_map(|(at, step)| match step {
        FlatStep::Branch { then_len, else_len, .. } if place <= at + then_len => {
            Some((at + 1 + then_len, at + 1 + then_len + else_len))
        }
        _ => None,
    })
}

/// Evaluates over a set and what is kept for it. No event is at hand, as in ticks and runs.
pub struct Evaluator {
    rules: RuleSet,
    enabled: Vec<bool>,
    vol: Volatile,
    ctx: EventCtx,
}

impl Evaluator {
    #[must_use]
    pub fn new(rules: RuleSet, kept: Kept) -> Evaluator {
        let timers = kept.timers.into_iter().map(|(name, due_ms)| NamedTimer { name, due_ms });
        let vol = Volatile {
            last_activation_ms: kept.last_activation_ms,
            vars: kept.vars,
            timers: timers.collect(),
            ..Volatile::default()
        };
        Evaluator { rules, enabled: kept.enabled, vol, ctx: EventCtx::default() }
    }

    fn env<'a>(&'a self, world: &'a WorldSnapshot) -> EvalEnv<'a> {
        EvalEnv { world, vol: &self.vol, rules: &self.rules, enabled: &self.enabled, ctx: &self.ctx }
    }

    /// None: unevaluable.
    #[must_use]
    pub fn condition(&self, world: &WorldSnapshot, condition: &Condition) -> Option<bool> {
        eval_condition(&self.env(world), condition).ok()
    }

    /// None: unevaluable.
    #[must_use]
    pub fn value(&self, world: &WorldSnapshot, value: &ValueExpr) -> Option<i64> {
        eval_value(&self.env(world), value).ok()
    }
}
