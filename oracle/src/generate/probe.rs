//! Histories with one purpose: the last tick or run shows what a single action,
//! condition, reading or cause of a Fail gives in a random world.

use super::parts;
use super::world::{world, Clock};
use super::{Profile, STORE_WORDS};
use crate::build::{Action, Block, Bound, Condition, Image, Limits, Rule, Value};
use crate::house::Call;
use crate::random::Random;

/// What the last outcome of a probe shows.
#[derive(Clone, Copy, Debug, PartialEq, Eq)]
pub enum Shows {
    /// An action of this kind, in a dry run or not.
    Action(u32, bool),
    /// A condition of this kind (16: a comparison with a text), in a rule or a Conditional.
    Condition(u32, bool),
    /// A comparison of a variable with a literal, by its code.
    Comparison(u32),
    /// A sum of a variable (0 up, 1 down) or of an offset (2 up, 3 down) that saturates.
    Saturation(u32),
    /// A reading, by its code.
    Reading(u32),
    /// A value of this kind.
    Value(u32),
    /// A bound of this kind.
    Bound(u32),
    /// Nothing that the table has a cell for.
    Sizes,
    /// A cause of a Fail, by its place in `FAILS`, in a dry run or not.
    Fail(u32, bool),
}

#[derive(Clone, Debug)]
pub struct Probe {
    pub shows: Shows,
    pub calls: Vec<Call>,
}

/// The causes of a Fail, in the order of `Shows::Fail`.
pub const FAILS: [&str; 20] = [
    "unknown block",
    "call too deep",
    "call at depth limit 0",
    "repeat in repeat",
    "repeat in repeat, by call",
    "repeat 0 times",
    "repeat over the limit",
    "after in after",
    "after in after, by call",
    "conditional in conditional",
    "conditional in conditional, by call",
    "list at 256",
    "block in a list at 256",
    "then-list at 256",
    "repeat copy over 256",
    "call too deep, in an after",
    "repeat in after in repeat",
    "conditional in after in conditional",
    "after in conditional in after",
    "repeat in conditional in repeat",
];
/// The causes that a wet run meets only when the after's body resumes.
const LATER: [u32; 6] = [7, 8, 15, 16, 17, 18];

const NAMES: Profile =
    Profile { rules: 3, blocks: 1, timers: 3, variables: 3, list: 0, depth: 0, calls: 0 };
const PREPARE: u32 = 9;
const PROBED: u32 = 1;
const OTHER: u32 = 2;

/// A random probe.
pub fn draw(random: &mut Random) -> Probe {
    let dry = random.bit() == 1;
    match random.weighted(&[60, 40, 8, 30, 5, 4, 30, 4, 6]) {
        0 => action(random, dry),
        1 => condition(random, dry),
        2 => comparison(random),
        3 => reading(random),
        4 => value(random),
        5 => bound(random),
        6 => fail(random, dry),
        7 => saturation(random),
        _ => sizes(random, dry),
    }
}

/// What a probe is made of: the rule under test, blocks, limits.
struct Stage {
    rule: Rule,
    blocks: Vec<Block>,
    limits: Limits,
    full: bool,
    dry: bool,
}

impl Stage {
    fn of(rule: Rule) -> Stage {
        Stage { rule, blocks: Vec::new(), limits: Limits::default(), full: false, dry: false }
    }

    fn actions(actions: Vec<Action>) -> Stage {
        Stage::of(Rule::new(PROBED, actions))
    }

    /// The probed rule runs after a rule that sets timers and variables. A tick
    /// follows a wet run whose afters are still to come.
    fn probe(self, random: &mut Random, shows: Shows, tick: bool) -> Probe {
        let clock = Clock::new(random);
        let mut other = Rule::new(OTHER, vec![]);
        other.enabled = u32::from(!random.once_in(4));
        let prepare = Rule::new(PREPARE, prelude(random, self.full));
        let rules = vec![prepare, self.rule, other];
        let image = Image { limits: self.limits, blocks: self.blocks, rules };
        let mut calls = vec![Call::New { time: clock.now }];
        calls.push(Call::Load { time: clock.now, image: image.words() });
        calls.push(run(random, &clock, PREPARE, false));
        if !random.once_in(4) {
            calls.push(run(random, &clock, OTHER, false));
        }
        let mut clock = clock;
        clock.now = clock.now.saturating_add(u64::from(random.below(3)));
        calls.push(run(random, &clock, PROBED, self.dry));
        if tick && !self.dry {
            calls.push(Call::Tick { snapshot: world(random, &clock).words() });
        }
        Probe { shows, calls }
    }
}

fn run(random: &mut Random, clock: &Clock, rule: u32, dry: bool) -> Call {
    Call::Run { rule, dry, snapshot: world(random, clock).words() }
}

/// Sets some variables and timers, or all 16 of each.
fn prelude(random: &mut Random, full: bool) -> Vec<Action> {
    let mut actions = Vec::new();
    if full {
        actions.extend((0..16).map(|name| Action::VarSet(name, 1)));
        actions.extend((0..16).map(|name| Action::TimerStart(name, u32::MAX)));
        return actions;
    }
    for name in 0..NAMES.variables {
        match random.below(4) {
            0 | 1 => actions.push(Action::VarSet(name, parts::literal(random))),
            2 => actions.push(Action::VarText(name, random.below(3), 0)),
            _ => {}
        }
        if random.bit() == 1 {
            actions.push(Action::TimerStart(name, 60_000));
        }
    }
    actions
}

fn action(random: &mut Random, dry: bool) -> Probe {
    let kind = random.below(parts::ACTION_KINDS);
    if (24..=27).contains(&kind) {
        return flow_action(random, kind, dry);
    }
    // Names past 16 find their tables full in half of the probes.
    let wide = Profile { timers: 24, variables: 24, ..NAMES };
    let full = random.bit() == 1;
    let profile = if full { &wide } else { &NAMES };
    let action = parts::action_of(random, profile, kind, 0);
    let limits = Limits { text: 4, group: 3, ..Limits::default() };
    let stage = Stage { full, dry, limits, ..Stage::actions(vec![action]) };
    let shown = if kind == parts::VAR_TEXT { 16 } else { kind };
    stage.probe(random, Shows::Action(shown, dry), false)
}

/// An After, Call, Repeat or Conditional with one Log in its list, with an empty
/// list, or failing.
fn flow_action(random: &mut Random, kind: u32, dry: bool) -> Probe {
    let body = random.some(1, |_| Action::Log(1));
    let broken = random.once_in(3);
    let block = Block { name: 0, actions: body.clone() };
    let mut tick = false;
    let action = match kind {
        24 if broken => {
            tick = true;
            Action::After(0, vec![Action::After(0, body)])
        }
        24 => Action::After(0, body),
        25 => Action::Call(u32::from(broken)),
        26 => Action::Repeat(if broken { 0 } else { 2 }, body),
        _ => {
            let condition = parts::condition(random, &NAMES);
            Action::Conditional(condition, body.clone(), body)
        }
    };
    let stage = Stage { dry, blocks: vec![block], ..Stage::actions(vec![action]) };
    stage.probe(random, Shows::Action(kind, dry), tick)
}

fn condition(random: &mut Random, dry: bool) -> Probe {
    let kind = random.below(parts::CONDITION_KINDS);
    let tested = parts::condition_of(random, &NAMES, kind);
    let branch = random.bit() == 1;
    let mut stage = conditioned(tested, branch);
    stage.dry = dry;
    stage.probe(random, Shows::Condition(kind, branch), false)
}

/// Log 1 if the condition is true; in a Conditional, Log 2 if it is false.
fn conditioned(condition: Condition, branch: bool) -> Stage {
    let mut rule = Rule::new(PROBED, vec![Action::Log(1)]);
    if branch {
        rule.actions =
            vec![Action::Conditional(condition, vec![Action::Log(1)], vec![Action::Log(2)])];
    } else {
        rule.conditions.push(condition);
    }
    Stage::of(rule)
}

fn comparison(random: &mut Random) -> Probe {
    let cmp = random.below(6);
    let number = random.pick([-1, 0, 1, i64::MIN, i64::MAX]);
    let other = random.pick([-1, 0, 1, i64::MIN, i64::MAX]);
    let tested = Condition::VarValue(0, cmp, Value::Literal(other));
    let mut stage = conditioned(tested, true);
    stage.rule.actions.insert(0, Action::VarSet(0, number));
    stage.probe(random, Shows::Comparison(cmp), false)
}

/// Adds past an end of the 64-bit numbers; Log 1 if the sum is that end.
fn saturation(random: &mut Random) -> Probe {
    let row = random.below(4);
    let up = row % 2 == 0;
    let by = random.from_to(2, 9) as i32;
    let (end, by) = if up { (i64::MAX, by) } else { (i64::MIN, -by) };
    let near = if up { end - 1 } else { end + 1 };
    let mut actions = vec![Action::VarSet(18, near)];
    if row < 2 {
        actions.push(Action::VarAdd(18, Value::Literal(i64::from(by))));
    } else {
        actions.push(Action::VarAdd(19, Value::Offset(18, [18, 0, 0], by)));
    }
    let sum = if row < 2 { 18 } else { 19 };
    let reached = Condition::VarValue(sum, 0, Value::Literal(end));
    actions.push(Action::Conditional(reached, vec![Action::Log(1)], vec![Action::Log(2)]));
    Stage::actions(actions).probe(random, Shows::Saturation(row), false)
}

/// Adds to a variable that no prelude sets: it fails only if the value does.
fn valued(random: &mut Random, tested: Value, shows: Shows) -> Probe {
    Stage::actions(vec![Action::VarAdd(19, tested)]).probe(random, shows, false)
}

fn reading(random: &mut Random) -> Probe {
    let code = random.below(parts::READING_KINDS);
    let words = parts::reference(random, &NAMES, code);
    valued(random, Value::Reading(code, words), Shows::Reading(code))
}

fn value(random: &mut Random) -> Probe {
    let tested = parts::value(random, &NAMES);
    let kind = match tested {
        Value::Literal(_) => 0,
        Value::Reading(..) => 1,
        Value::Offset(..) => 2,
    };
    valued(random, tested, Shows::Value(kind))
}

/// A range with twice the same bound. Without a wall clock it shows nothing.
fn bound(random: &mut Random) -> Probe {
    let tested = parts::bound(random);
    let kind = match tested {
        Bound::Clock(..) => 0,
        Bound::Solar(..) => 1,
    };
    let stage = conditioned(Condition::TimeInRange(tested, tested), true);
    stage.probe(random, Shows::Bound(kind), false)
}

fn logs(count: usize) -> Vec<Action> {
    vec![Action::Log(1); count]
}

/// A branch that is not taken and leaves `count` steps behind it.
fn skipped(count: usize) -> Action {
    Action::Conditional(Condition::TimerRunning(77), logs(count - 1), vec![])
}

fn fail(random: &mut Random, dry: bool) -> Probe {
    let cause = random.below(FAILS.len() as u32);
    let mut stage = Stage::actions(failing(cause));
    stage.dry = dry;
    let after = vec![Action::After(0, vec![Action::Call(0)])];
    stage.blocks =
        vec![Block { name: 0, actions: block_for(cause) }, Block { name: 1, actions: after }];
    stage.limits.repeat = 3;
    stage.limits.depth = if cause == 2 { 0 } else { random.from_to(1, 8) };
    stage.probe(random, Shows::Fail(cause, dry), LATER.contains(&cause))
}

fn always(then: Vec<Action>) -> Action {
    Action::Conditional(Condition::RuleEnabled(PROBED), then, vec![])
}

fn block_for(cause: u32) -> Vec<Action> {
    match cause {
        1 | 15 => vec![Action::Log(1), Action::Call(0)],
        4 => vec![Action::Repeat(1, logs(1))],
        8 => vec![Action::After(0, logs(1))],
        10 => vec![always(logs(1))],
        _ => logs(2),
    }
}

/// Actions whose run meets a Fail of this cause.
fn failing(cause: u32) -> Vec<Action> {
    let call = vec![Action::Call(0)];
    match cause {
        0 => vec![Action::Call(5)],
        1 | 2 => call,
        3 => vec![Action::Repeat(1, vec![Action::Repeat(1, logs(1))])],
        4 => vec![Action::Repeat(1, call)],
        5 => vec![Action::Repeat(0, logs(1))],
        6 => vec![Action::Repeat(4, logs(1))],
        7 => vec![Action::After(0, vec![Action::After(0, logs(1))])],
        8 => vec![Action::After(0, call)],
        9 => vec![always(vec![always(logs(1))])],
        10 => vec![always(call)],
        11 => [vec![skipped(255)], logs(2)].concat(),
        12 => [vec![skipped(255)], call].concat(),
        13 => vec![skipped(255), always(logs(1))],
        14 => vec![Action::Repeat(3, logs(100))],
        15 => vec![Action::Call(1)],
        16 => vec![Action::Repeat(1, vec![Action::After(0, vec![Action::Repeat(1, logs(1))])])],
        17 => vec![always(vec![Action::After(0, vec![always(logs(1))])])],
        18 => vec![Action::After(0, vec![always(vec![Action::After(0, logs(1))])])],
        _ => vec![Action::Repeat(1, vec![always(vec![Action::Repeat(1, logs(1))])])],
    }
}

/// Lists of about 256 steps, of which the budget pays some.
fn sizes(random: &mut Random, dry: bool) -> Probe {
    let times = random.pick([1, 2, 4]);
    let each = random.from_to(1, 128 / times) as usize;
    let total = random.from_to(254, 258) as usize;
    let rest = random.below(4) as usize;
    let before = total.saturating_sub(each * times as usize + rest).max(1);
    let mut actions = vec![skipped(before), Action::Repeat(times, logs(each))];
    actions.extend(logs(rest));
    let mut stage = Stage::actions(actions);
    stage.dry = dry;
    stage.probe(random, Shows::Sizes, false)
}

/// Calls on a store that is a word too short, for refusal 1 of every call.
pub fn short_store(random: &mut Random) -> Vec<Call> {
    let clock = Clock::new(random);
    let snapshot = world(random, &clock).words();
    vec![
        Call::Size { words: random.pick([0, STORE_WORDS - 1, STORE_WORDS + 1]) },
        Call::New { time: clock.now },
        Call::Load { time: clock.now, image: Image::default().words() },
        Call::Unload { time: clock.now },
        Call::Enable { rule: 1, on: true },
        Call::Tick { snapshot: snapshot.clone() },
        Call::Run { rule: 1, dry: false, snapshot },
        Call::Deadline,
        Call::Counters,
        Call::Size { words: STORE_WORDS },
        Call::Counters,
    ]
}
