//! A step of action kind 28 beside a PanelSelect: both evaluate a value and give an effect, and the one also searches the dimming curve.

use std::time::Duration;

use oracle::build::{Action, Image, Rule, Value, World};
use oracle::house::Call;

use super::clock::Clock;
use super::Lending;
use crate::calls::house::{made, Lent};
use crate::store::WORDS;

const RULE: u32 = 5;
const STEPS: usize = 200;
const MOST_TIMES: f64 = 2.0;
const LENT: Lent = Lent { answer: 2, outcomes: 8, effects: 5 * 256 };

fn select(at: usize) -> Action {
    Action::PanelSelect(1, 2, Value::Literal(at as i64))
}

/// Values from all parts of the curve.
fn percent(at: usize) -> Action {
    Action::Percent(1, 2, Value::Literal(1_000 + at as i64 * 4_987))
}

/// The least time of so many runs of a rule with these steps.
fn run(clock: &Clock, times: usize, dry: bool, actions: Vec<Action>) -> Duration {
    let mut store = vec![0; WORDS];
    made(&mut store, &Call::New { time: 0 }, LENT);
    let image = Image::of(vec![Rule::new(RULE, actions)]).words();
    made(&mut store, &Call::Load { time: 0, image }, LENT);
    let call = Call::Run { rule: RULE, dry, snapshot: World::at(0).words() };
    let mut lent = Lending::of(LENT);
    clock.least(times, || store.clone(), |store| lent.call(store, &call))
}

/// The time of one step, in nanoseconds: what 200 steps take more than none, by their number.
fn step(clock: &Clock, times: usize, dry: bool, action: fn(usize) -> Action) -> f64 {
    let list = run(clock, times, dry, (0..STEPS).map(action).collect());
    list.saturating_sub(run(clock, times, dry, Vec::new())).as_secs_f64() * 1e9 / STEPS as f64
}

/// Prints a line for wet and for dry runs; whether a step in percent takes at most twice the time of a PanelSelect.
pub fn report(clock: &Clock, times: usize) -> bool {
    [("wet", false), ("dry", true)].into_iter().fold(true, |fine, (name, dry)| {
        let [panel, light] = [select, percent].map(|action: fn(usize) -> Action| step(clock, times, dry, action));
        let ratio = light / panel.max(1e-3);
        println!("a {name} step: PanelSelect {panel:.0} ns, percent {light:.0} ns, {ratio:.2} times (at most {MOST_TIMES})");
        fine && ratio <= MOST_TIMES
    })
}
