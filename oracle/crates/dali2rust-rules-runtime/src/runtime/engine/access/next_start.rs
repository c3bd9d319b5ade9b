//! Ours, not one of the eleven files: request 7 of document 02, what starts next by the wall clock. The published engine has no such call. Its due test,
//! `due_wall_kind`, is asked for one minute after the other, with a window of one minute, as a tick of that minute asks it.

use dali2rust_rules_model::{RuleSet, TriggerKind};

use super::super::counters::EngineCounters;
use super::super::exec::ExecEnv;
use super::super::state::Volatile;
use super::super::wheel::due_wall_kind;
use super::super::world::WorldSnapshot;
use super::super::Engine;

const WEEK_MINUTES: u32 = 10_080;
const WINDOW: u32 = 1;

#[derive(Clone, Debug, PartialEq)]
pub enum NextStart {
    None,
    ClockUnknown,
    /// The fewest minutes ahead, the lowest name due then, and the kind of its first trigger that is.
    Start { minutes: u32, rule: String, kind: TriggerKind },
}

/// What starts next in a world, of a set, if there is one, and whether each of its rules is enabled.
#[must_use]
pub fn next_start(rules: Option<&RuleSet>, enabled: &[bool], world: &WorldSnapshot) -> NextStart {
    let Some(wall) = world.wall else {
        return NextStart::ClockUnknown;
    };
    let Some(rules) = rules else {
        return NextStart::None;
    };
    let now = u32::from(wall.weekday) * 1_440 + u32::from(wall.minutes_of_day);
    let (mut enabled, mut vol, mut counters) = (enabled.to_vec(), Volatile::default(), EngineCounters::default());
    let env = ExecEnv { world, rules, enabled: &mut enabled, vol: &mut vol, counters: &mut counters };
    let start = |minutes: u32| {
        let (rule, kind) = due_behind(&env, (now + minutes - 1) % WEEK_MINUTES)?;
        Some(NextStart::Start { minutes, rule: rule.to_owned(), kind })
    };
    (1..=WEEK_MINUTES).find_map(start).unwrap_or(NextStart::None)
}

/// Of the enabled rules that are due in the minute behind `base` the one of the lowest name.
fn due_behind<'a>(env: &ExecEnv<'a>, base: u32) -> Option<(&'a str, TriggerKind)> {
    let rules = env.rules.rules.iter().zip(env.enabled.iter()).filter(|(_, enabled)| **enabled);
    let due = rules.filter_map(|(rule, _)| {
        let kind = due_wall_kind(env, rule, base, WINDOW, &mut false)?;
        Some((rule.name.as_str(), kind))
    });
    due.min_by_key(|(name, _)| *name)
}

impl Engine {
    #[must_use]
    pub fn next_start(&self, world: &WorldSnapshot) -> NextStart {
        next_start(self.rules.as_ref(), &self.enabled, world)
    }
}
