//! Ours, not one of the eleven files: what stands behind `light_verb`.

use dali2rust_rules_model::{percent, LightOp};

use super::super::eval::{eval_value, EvalEnv, Unevaluable};
use super::super::exec::{ExecEnv, Job};
use super::super::outcome::LightVerb;

/// The stored answer; for action kind 28, the level of its value, evaluated when the step runs.
pub(crate) fn stored_verb(env: &ExecEnv<'_>, job: &Job, op: &LightOp) -> Result<Option<LightVerb>, Unevaluable> {
    match op {
        LightOp::Verb(word) => Ok(Some(LightVerb::Stored(*word))),
        LightOp::Nothing => Ok(None),
        LightOp::Unevaluable => Err(Unevaluable),
        LightOp::Percent(value) => {
            let eval_env = EvalEnv {
                world: env.world,
                vol: env.vol,
                rules: env.rules,
                enabled: env.enabled,
                ctx: &job.ctx,
            };
            let level = percent::level(eval_value(&eval_env, value)?).ok_or(Unevaluable)?;
            Ok(Some(LightVerb::Level { level }))
        }
    }
}
