//! Ours, not one of the eleven files: request 4 of document 02, the solar starts of a rule. The published engine has no such call: its `solar_minute` gives the
//! minutes, and Rust's `%` on i32 what is left of the offset.

use dali2rust_rules_model::{RuleSet, Trigger};

use super::super::eval::solar_minute;
use super::super::world::WorldSnapshot;
use super::super::Engine;

/// For each AtSolar trigger of a rule of the set, if there is one, in its order: minute and remainder, None without a sun. A rule that is not in the set has none.
#[must_use]
pub fn solar_starts(rules: Option<&RuleSet>, rule: &str, world: &WorldSnapshot) -> Vec<Option<(u16, i32)>> {
    let rule = rules.and_then(|set| set.rule(rule));
    let triggers = rule.into_iter().flat_map(|rule| rule.triggers.iter());
    let starts = triggers.filter_map(|trigger| match trigger {
        Trigger::AtSolar { event, offset_ms } => {
            Some(world.sun.map(|sun| (solar_minute(&sun, *event, *offset_ms), *offset_ms % 60_000)))
        }
        _ => None,
    });
    starts.collect()
}

impl Engine {
    #[must_use]
    pub fn solar_starts(&self, rule: &str, world: &WorldSnapshot) -> Vec<Option<(u16, i32)>> {
        solar_starts(self.rules.as_ref(), rule, world)
    }
}
