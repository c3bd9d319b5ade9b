//! The houses whose calls are timed.

use oracle::build::{
    Action, Block, Bound, Condition, Device, Group, Hcl, Image, Input, Lamp, Rule, Trigger, Value, World,
};
use oracle::generate::{solar, starts};
use oracle::house::Call;

pub struct House {
    pub name: &'static str,
    /// Calls that bring the store to where the timed calls find it.
    pub before: Vec<Call>,
    /// Timed calls, each on the same store.
    pub calls: Vec<(&'static str, Call)>,
    /// Timed calls, one after the other.
    pub history: Vec<Call>,
    /// Outcomes and effects that there is room for.
    pub room: [usize; 2],
}

const START: u64 = 1_000_000;
const LEVEL: u32 = 0;
const GE: u32 = 2;

fn lamp(at: u32) -> [u32; 2] {
    [at / 64, at]
}

fn lamps(count: u32) -> Vec<Lamp> {
    let row = |at| Lamp { id: lamp(at), level: Some(at % 255), cct: Some(4_000), on: at % 2, last_level: Some(200) };
    (0..count).map(row).collect()
}

fn world(lamps_count: u32, groups: u32, devices: u32, inputs: u32, hcl: u32) -> World {
    World {
        now: START,
        wall: Some((2, 719)),
        sun: Some((360, 1_200)),
        active: 1,
        lamps: lamps(lamps_count),
        groups: (0..groups).map(|at| Group { id: [0, at], any_on: 1, all_off: 0, members: 8 }).collect(),
        devices: (0..devices).map(|at| Device { id: [0, at], online: 1 }).collect(),
        inputs: (0..inputs)
            .map(|at| Input { id: [0, at, 0], occupied: Some(1), light: Some(300), position: Some(5), age: Some(9) })
            .collect(),
        hcl: (0..hcl).map(|at| Hcl { target: at, enabled: 1, overridden: 0 }).collect(),
    }
}

fn level_of(at: u32) -> Value {
    let [adapter, id] = lamp(at);
    Value::Reading(LEVEL, [adapter, id, 0])
}

/// A rule of a grower: lights in steps with waits between them, by the clock, the sun, a timer or every so often.
fn grower(at: u32) -> Rule {
    let dim = |verb| vec![Action::Light(at, 2, 0, verb), Action::Light(at + 100, 2, 0, verb)];
    let mut actions = dim(1);
    actions.extend([Action::Wait(60_000), Action::Call(1), Action::VarAdd(at % 8, Value::Literal(1))]);
    actions.push(Action::Conditional(Condition::LampLevel(lamp(at), GE, level_of(at + 1)), dim(2), dim(3)));
    actions.extend([Action::After(30_000, dim(4)), Action::TimerRestart(at % 5, 300_000), Action::Log(at)]);
    let mut rule = Rule::new(at, actions);
    rule.cooldown = 1_000;
    rule.conditions = vec![Condition::TimeInRange(Bound::Clock(4, 0), Bound::Solar(1, 3_600_000))];
    rule.triggers = match at % 4 {
        0 => vec![Trigger::AtTime(12, 0, 127)],
        1 => vec![Trigger::AtSolar(0, -900_000)],
        2 => vec![Trigger::TimerFires(at % 5)],
        _ => vec![Trigger::Every(60_000)],
    };
    rule
}

fn snapshot(world: &World, later: u64, minute: u32) -> Vec<u32> {
    World { now: START + later, wall: Some((2, minute)), ..world.clone() }.words()
}

fn tick(world: &World, later: u64, minute: u32) -> Call {
    Call::Tick { snapshot: snapshot(world, later, minute) }
}

fn run(world: &World, later: u64, rule: u32, dry: bool) -> Call {
    Call::Run { rule, dry, snapshot: snapshot(world, later, 719) }
}

fn load(image: &[u32]) -> Call {
    Call::Load { time: START, image: image.to_vec() }
}

/// A quarter of an hour: a tick a second and what it asks for next; a run by hand a minute.
fn quarter(world: &World, rule: u32) -> Vec<Call> {
    let second = |at: u64| {
        let by_hand = (at % 60 == 30).then(|| run(world, at * 1_000 + 2_000, rule, false));
        [tick(world, at * 1_000 + 2_000, 719 + at as u32 / 60), Call::Deadline].into_iter().chain(by_hand)
    };
    (0..900).flat_map(second).collect()
}

/// The calls that every house has, with a rule that runs; the starts of the next one are read back.
fn usual(world: &World, image: &[u32], rule: u32) -> Vec<(&'static str, Call)> {
    vec![
        ("tick, nothing due", tick(world, 1_001, 719)),
        ("tick, the minute of a schedule", tick(world, 1_001, 720)),
        ("tick, all that waits is due", tick(world, 400_000, 719)),
        ("run", run(world, 1_001, rule, false)),
        ("dry run", run(world, 1_001, rule, true)),
        ("enable", Call::Enable { rule, on: true }),
        ("next deadline", Call::Deadline),
        ("next start", starts::start(snapshot(world, 1_001, 719))),
        ("readback", solar::readback(rule + 1, 3, snapshot(world, 1_001, 719))),
        ("counters", Call::Counters),
        ("load", load(image)),
        ("unload", Call::Unload { time: START + 1_001 }),
        ("new", Call::New { time: START }),
    ]
}

/// 20 rules, 60 lamps; three rules wait.
pub fn typical() -> House {
    let block = Block { name: 1, actions: vec![Action::Light(7, 1, 0, 9), Action::Recall(Some(3), None)] };
    let rules = (0..20).map(grower).collect();
    let image = Image { blocks: vec![block], ..Image::of(rules) }.words();
    let world = world(60, 8, 16, 12, 4);
    let mut before = vec![load(&image), tick(&world, 0, 719)];
    before.extend([1, 2, 3].map(|rule| run(&world, 1_000, rule, false)));
    let (calls, history) = (usual(&world, &image, 4), quarter(&world, 4));
    House { name: "typical house: 20 rules, 60 lamps", before, calls, history, room: [32, 256] }
}

/// A rule of the full image: 31 flat steps or, with an after, 33.
fn crowded(at: u32) -> Rule {
    let mut actions = vec![Action::Repeat(30, vec![Action::Light(at, 2, 0, 2)])];
    if at < 23 {
        actions.push(Action::After(50_000, vec![Action::Light(at, 2, 0, 1)]));
    }
    actions.push(Action::Wait(60_000));
    let mut rule = Rule::new(1_000 - at, actions);
    rule.conditions = vec![Condition::LampLevel(lamp(at * 4), GE, level_of(at % 16))];
    rule.triggers = vec![if at % 2 == 0 { Trigger::Every(300_000 + at) } else { Trigger::AtTime(12, 0, 127) }];
    rule
}

/// 64 rules, 2,030 flat steps, 4,096 words of image, all rows of a snapshot, 32 continuations.
pub fn large() -> House {
    let mut image = Image::of((0..64).map(crowded).collect()).words();
    fill(&mut image);
    let world = world(256, 64, 64, 128, 64);
    let mut before = vec![load(&image), tick(&world, 0, 719)];
    before.extend((0..16).map(|at| run(&world, 1_000, 1_000 - at, false)));
    let (calls, history) = (usual(&world, &image, 950), quarter(&world, 950));
    let name = "large house: 64 rules, 4,096 words of image, full snapshot, 32 continuations";
    House { name, before, calls, history, room: [256, 4_096] }
}

/// Pool words up to the size of a full image.
fn fill(image: &mut Vec<u32>) {
    const MOST: usize = 4_096;
    let at = image.len() - 13;
    let more = MOST.saturating_sub(image.len());
    image.splice(at..at, vec![0; more]);
}

/// Rule 100 starts 16 timers; each of the other 63 rules has all of them as triggers, and 31 Logs. The lists are shared.
fn shared_lists() -> Vec<u32> {
    const TIMERS: u32 = 16;
    const LOGS: u32 = 31;
    let rule = |name, triggers, first, count| vec![name, 1, 0, 0, 0, triggers, 0, 0, first, count, 0, 0, 0, 0, 0, 0];
    let record = |kind, one, two| vec![kind, one, two, 0, 0, 0, 0, 0];
    let mut words: Vec<u32> = (0..63).flat_map(|name| rule(name, TIMERS, 0, LOGS)).collect();
    words.extend(rule(100, 0, LOGS, TIMERS));
    let triggers = words.len() as u32;
    words.extend((0..TIMERS).flat_map(|timer| record(0, timer, 0)));
    let actions = words.len() as u32;
    words.extend((0..LOGS).flat_map(|text| record(21, text, 0)));
    words.extend((0..TIMERS).flat_map(|timer| record(13, timer, 1_000)));
    let end = words.len() as u32;
    words.extend([256, 8, 255, 255, 255, 0, triggers, triggers, actions, actions, end, end, end]);
    words
}

/// 16 timers that are due at once: 1,008 activations with 31,248 effects.
pub fn timers() -> House {
    let image = shared_lists();
    let world = world(256, 64, 64, 128, 64);
    let before = vec![load(&image), tick(&world, 0, 719), run(&world, 0, 100, false)];
    let calls = vec![("tick, 1,008 activations, 31,248 effects", tick(&world, 1_000, 719))];
    let name = "worst case of a tick: 16 timers due for 63 rules each";
    House { name, before, calls, history: Vec::new(), room: [1_184, 32_768] }
}

/// 64 rules with the same list of 380 AtTime triggers, the most that fit, and no action; each on all days.
fn shared_triggers() -> Vec<u32> {
    const TRIGGERS: u32 = 380;
    let rule = |name| vec![name, 1, 0, 0, 0, TRIGGERS, 0, 0, 0, 0, 0, 0, 0, 0, 0, 0];
    let record = |at: u32| vec![2, at / 60, at % 60, 127, 0, 0, 0, 0];
    let mut words: Vec<u32> = (0..64).flat_map(rule).collect();
    let triggers = words.len() as u32;
    words.extend((0..TRIGGERS).flat_map(|at| record(at * 3)));
    let end = words.len() as u32;
    words.extend([256, 8, 255, 255, 255, 0, triggers, triggers, end, end, end, end, end]);
    words
}

/// The most triggers that the next start can meet: 24,320.
pub fn triggers() -> House {
    let image = shared_triggers();
    let world = world(60, 8, 16, 12, 4);
    let calls = vec![("next deadline", Call::Deadline), ("next start", starts::start(snapshot(&world, 0, 1_300)))];
    let name = "worst case of the next start: 64 rules share 380 triggers";
    House { name, before: vec![load(&image), tick(&world, 0, 719)], calls, history: Vec::new(), room: [64, 64] }
}

/// A rule with the most AtSolar triggers that fit into an image, and no action.
pub fn solar_starts() -> House {
    const TRIGGERS: u32 = 508;
    let mut rule = Rule::new(1, Vec::new());
    rule.triggers = (0..TRIGGERS).map(|at| Trigger::AtSolar(at % 2, 1_000 - at as i32 * 12_345)).collect();
    let world = world(60, 8, 16, 12, 4);
    let calls = vec![("next deadline", Call::Deadline), ("readback", solar::readback(1, 3 * TRIGGERS, snapshot(&world, 0, 719)))];
    let name = "worst case of a readback: a rule with 508 AtSolar triggers";
    House { name, before: vec![load(&Image::of(vec![rule]).words())], calls, history: Vec::new(), room: [1, 320] }
}

/// A rule whose 32 afters wait, the first the longest: all of them are due in one tick, in the order from the last to the first.
pub fn due() -> House {
    const MOST: u32 = 32;
    let afters = (0..MOST).map(|at| Action::After((MOST - at) * 1_000, vec![Action::Log(at)])).collect();
    let image = Image::of(vec![Rule::new(1, afters)]).words();
    let world = world(60, 8, 16, 12, 4);
    let before = vec![load(&image), tick(&world, 0, 719), run(&world, 0, 1, false)];
    let calls = vec![
        ("tick, nothing due", tick(&world, 500, 719)),
        ("tick, one due", tick(&world, 1_000, 719)),
        ("tick, 32 due, due times falling", tick(&world, 32_000, 719)),
    ];
    House { name: "32 continuations due in one tick", before, calls, history: Vec::new(), room: [32, 256] }
}

/// An image that takes long to flatten, which every call does that checks the store.
pub fn flattening(name: &'static str, image: Vec<u32>) -> House {
    let world = world(256, 64, 64, 128, 64);
    let calls = usual(&world, &image, 5);
    House { name, before: vec![load(&image)], calls, history: Vec::new(), room: [32, 256] }
}
