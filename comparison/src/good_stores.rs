//! Good stores to change: new, typical and full ones, as the oracle comes to them.

use oracle::build::{Action, Condition, Image, Rule, Trigger, World};
use oracle::generate;
use oracle::house::Call;

use crate::kept::Player;
use crate::store::{Store, MOST_PENDING, MOST_TIMERS, MOST_VARIABLES, RULES};

/// Name and store.
pub type Named = (&'static str, Store);

/// A new store; a set without rules; a typical set; one of history; and a full store.
pub fn all(seed: u64) -> Vec<Named> {
    let mut stores = vec![("new", made(&[Call::New { time: 5 }]))];
    stores.push(("no rules", made(&[load(&Image::default())])));
    stores.push(("typical", typical()));
    stores.extend(richest(seed).map(|store| ("history", store)));
    stores.push(("full", full()));
    stores
}

fn made(calls: &[Call]) -> Store {
    let mut player = Player::default();
    for call in calls {
        player.call(call);
    }
    player.store().unwrap_or_default()
}

fn load(image: &Image) -> Call {
    Call::Load { time: 1_000, image: image.words() }
}

fn snapshot(time: u64) -> Vec<u32> {
    World { wall: Some((3, 700)), ..World::at(time) }.words()
}

fn run(time: u64, rule: u32) -> Call {
    Call::Run { rule, dry: false, snapshot: snapshot(time) }
}

fn tick(time: u64) -> Call {
    Call::Tick { snapshot: snapshot(time) }
}

/// Waits in a list, at its end, in both regions of a branch and in bodies of afters; the rule is one that is on.
fn waiting(rule: u32) -> Vec<Action> {
    let wait = || Action::Wait(60_000);
    let body = vec![Action::Log(2), wait(), Action::Log(3)];
    let then = vec![Action::Log(1), Action::After(70_000, body), wait(), Action::Log(4)];
    let branch = |rule: u32| {
        Action::Conditional(Condition::RuleEnabled(rule), then.clone(), vec![wait(), Action::Log(5)])
    };
    vec![Action::After(50_000, vec![wait(), branch(rule)]), branch(rule), Action::Log(6), branch(99), wait()]
}

/// Times at which the waits above are over, one after the other.
const LATER: [u64; 3] = [55_000, 63_000, 73_000];

fn typical() -> Store {
    let mut rule = Rule::new(7, waiting(1));
    rule.triggers = vec![Trigger::Other, Trigger::Every(30_000)];
    let sets = vec![
        Action::VarSet(3, -1),
        Action::VarText(2, 9, 0),
        Action::TimerStart(4, 90_000),
        Action::TimerStart(2, u32::MAX),
        Action::Cycle(vec![1, 2, 3]),
        Action::Wait(100_000),
    ];
    let mut other = Rule::new(1, sets);
    other.triggers = vec![Trigger::Every(900_000), Trigger::Every(800_000)];
    let empty = vec![Action::Conditional(Condition::RuleEnabled(99), vec![], vec![Action::Wait(90_000)])];
    let image = Image::of(vec![rule, other, Rule::new(9, empty)]);
    let mut calls = vec![load(&image), run(2_000, 1), run(2_000, 7), run(2_000, 9)];
    calls.extend(LATER.map(tick));
    made(&calls)
}

/// Of generated histories, the store with the most pending records, those with a jump counted for five.
fn richest(seed: u64) -> Option<Store> {
    let jumps = |store: &Store| store.pending.iter().filter(|held| held.jump.is_some()).count();
    let mut best: Option<(usize, Store)> = None;
    for seed in seed..seed + 300 {
        let mut player = Player::default();
        for call in generate::history(seed) {
            player.call(&call);
            let Some(store) = player.store() else { continue };
            let rich = store.pending.len() + 4 * jumps(&store);
            if best.as_ref().is_none_or(|(most, _)| *most < rich) {
                best = Some((rich, store));
            }
        }
    }
    best.map(|(_, store)| store)
}

/// The name of a rule of the full store: not in the image's order.
fn nth(rule: u32) -> u32 {
    1_000 - rule * 3
}

/// Rule 0 sets the variables, 1 the timers, 2 to 5 wait, 6 and 7 schedule more than there is room for.
fn crowded(rule: u32) -> Rule {
    let mut actions = vec![Action::Cycle(vec![7, 8])];
    match rule {
        0 => actions.extend((0..MOST_VARIABLES as u32).map(|name| Action::VarSet(name, -i64::from(name)))),
        1 => actions.extend((0..MOST_TIMERS as u32).map(|name| Action::TimerStart(name, u32::MAX))),
        2..=5 => actions.extend(waiting(nth(rule))),
        6 => actions.push(Action::Repeat(40, vec![Action::After(80_000, vec![Action::Log(1); 30])])),
        7 => actions.push(Action::Repeat(22, vec![Action::After(9, vec![Action::Log(1); 20])])),
        _ => {}
    }
    let mut crowded = Rule::new(nth(rule), actions);
    crowded.triggers = vec![Trigger::Every(1_000_000 + rule)];
    crowded
}

/// 64 rules with 64 Every slots, last activations and cycle positions, 16 variables, 16 timers and 32 pending records.
fn full() -> Store {
    let rules = 0..RULES as u32;
    let mut calls = vec![load(&Image::of(rules.clone().map(crowded).collect()))];
    calls.extend((2..=5).map(|rule| run(2_000, nth(rule))));
    calls.extend(LATER.map(tick));
    calls.extend(rules.map(|rule| run(73_000, nth(rule))));
    made(&calls)
}

/// Whether the full store is full.
pub fn is_full(store: &Store) -> bool {
    store.pending.len() == MOST_PENDING
        && store.timers.len() == MOST_TIMERS
        && store.variables.len() == MOST_VARIABLES
        && store.bits.len() == RULES
        && store.slots.len() == RULES
        && store.activations.iter().all(Option::is_some)
        && store.positions.iter().all(Option::is_some)
}
