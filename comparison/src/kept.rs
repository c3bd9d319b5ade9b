//! A store from what the oracle keeps, and what the oracle evaluates from a store.

use std::collections::BTreeMap;

use oracle::access::{Kept, KeptPending, KeptPlace, NextStart};
use oracle::check;
use oracle::decode::{name, number};
use oracle::house::{self, Answer, Call, House};
use oracle::model::{Text, VarValue};
use oracle::next_start;
use oracle::readback::{self, Start};

use crate::store::{Pending, Slot, Store, Timer, Value, Variable};
use crate::tables::{Tables, ACTIONS};

const PERCENT: u32 = 28;

/// List, place and jump of a pending record.
pub type Place = (u32, u32, Option<(u32, u32)>);

/// A house with the image of its loaded set, which it does not keep itself.
#[derive(Default)]
pub struct Player {
    house: House,
    image: Option<Vec<u32>>,
    by_sharing: bool,
}

impl Player {
    pub fn call(&mut self, call: &Call) -> Answer {
        let answer = self.house.call(call);
        if answer == Answer::Silent {
            match call {
                Call::Load { image, .. } => {
                    self.by_sharing = check::flat_size(image).is_some_and(|size| size.fits_by_sharing());
                    self.image = Some(image.clone());
                }
                Call::New { .. } | Call::Unload { .. } => (self.image, self.by_sharing) = (None, false),
                _ => {}
            }
        }
        answer
    }

    /// What starts next by the wall clock, by the published due test.
    pub fn next_start(&self, snapshot: &[u32]) -> Result<NextStart, u32> {
        next_start::next_start(&self.house, snapshot)
    }

    /// The solar starts of a rule, by the published `solar_minute`, for which so many words are lent.
    pub fn readback(&self, rule: u32, snapshot: &[u32], room: usize) -> Result<Vec<Start>, u32> {
        readback::of_house(&self.house, rule, snapshot, room)
    }

    /// The names of the loaded rules.
    pub fn rule_names(&self) -> Vec<u32> {
        self.image.as_deref().map_or_else(Vec::new, |image| Tables::of(image).rule_names())
    }

    /// Whether a tick's clock was set back: from then on the house has the wheel's variant for request 5 of document 02.
    pub fn is_set_back(&self) -> bool {
        self.house.is_set_back()
    }

    /// Whether the Rust's memory of chains shows: its counter, an outcome's reason or a continuation's depth.
    pub fn shows_chain(&self) -> bool {
        self.house.shows_chain()
    }

    /// The Rust's count of wet activations.
    pub fn activations_total(&mut self) -> Option<u32> {
        match self.house.call(&Call::Counters) {
            Answer::Counters(counters) => Some(counters[0]),
            _ => None,
        }
    }

    /// Whether the loaded set is one that fits only by sharing (document 02, request 8).
    pub fn fits_by_sharing(&self) -> bool {
        self.by_sharing
    }

    /// Whether the loaded set has an action of kind 28, which the published engine does not know: what runs then is the stand-in.
    pub fn has_percent(&self) -> bool {
        let image = self.image.as_deref();
        image.is_some_and(|image| Tables::of(image).records(ACTIONS).any(|record| record[0] == PERCENT))
    }

    /// The store that the house would have; None where its size is not a store's. A pending record has the first of its places, and one
    /// that has none a list that no rule has.
    pub fn store(&mut self) -> Option<Store> {
        Some(self.store_and_places()?.0)
    }

    /// The store, and of each pending record all places of the Rust's lists from which its steps are left: the Rust keeps the steps, not their
    /// place.
    pub fn store_and_places(&mut self) -> Option<(Store, Vec<Vec<Place>>)> {
        let Answer::Counters(counters) = self.house.call(&Call::Counters) else {
            return None;
        };
        let (kept, next) = self.house.kept();
        let names = self.rule_names();
        let of_rules = || names.iter().map(|rule| name(*rule));
        let places = kept.pending.iter().map(|held| held.places.iter().map(place_of).collect()).collect();
        let store = Store {
            last: kept.now_ms,
            image: self.image.clone(),
            activations: of_rules().map(|rule| kept.last_activation_ms.get(&rule).copied()).collect(),
            positions: of_rules().map(|rule| kept.cycle_pos.get(&rule).map(|at| *at as u32)).collect(),
            variables: kept.vars.iter().map(|(name, value)| variable(name, value)).collect(),
            timers: kept.timers.iter().map(|(name, due)| Timer { name: number(name), due: *due }).collect(),
            slots: slots(&kept),
            pending: kept.pending.iter().map(|held| pending(held, self.house.last_number())).collect(),
            bits: kept.enabled,
            week_minute: kept.prev_week_min,
            next,
            last_number: self.house.last_number(),
            counters: std::array::from_fn(|place| counters[place]),
        };
        Some((store, places))
    }
}

fn variable(name: &str, value: &VarValue) -> Variable {
    let value = match value {
        VarValue::Int(integer) => Value::Integer(*integer),
        VarValue::Text(text) => Value::Text(text.number),
    };
    Variable { name: number(name), value }
}

fn slots(kept: &Kept) -> Vec<Slot> {
    let slot = |slot: &oracle::access::KeptSlot| Slot {
        rule: number(&slot.rule),
        place: slot.trigger_idx as u32,
        period: slot.period_ms,
        due: slot.due_ms,
    };
    kept.every.iter().map(slot).collect()
}

/// The Rust numbers no activations: a number that was given, the first or the last.
fn pending(held: &KeptPending, last_number: u64) -> Pending {
    let (list, place, jump) = held.places.first().map_or((u32::MAX, 0, None), place_of);
    Pending {
        seq: held.seq,
        due: held.due_ms,
        rule: number(&held.rule),
        list,
        place,
        jump,
        budget: held.budget_left,
        trigger: house::trigger_code(held.trigger_kind),
        number: if held.seq % 2 == 0 { last_number } else { 1 },
    }
}

/// List, place and jump: the Rust's own index in its own list.
fn place_of(at: &KeptPlace) -> Place {
    let jump = at.jump.map(|(end, past)| (end as u32, past as u32));
    (at.after.map_or(0, |after| after as u32 + 1), at.step as u32, jump)
}

/// What evaluation reads of a store.
pub fn evaluated(store: &Store) -> Kept {
    let names = store.image.as_deref().map_or_else(Vec::new, |image| Tables::of(image).rule_names());
    let activations = names.iter().zip(&store.activations);
    Kept {
        enabled: store.bits.clone(),
        last_activation_ms: activations.filter_map(|(rule, time)| Some((name(*rule), (*time)?))).collect(),
        vars: store.variables.iter().map(|variable| (name(variable.name), held(variable.value))).collect::<BTreeMap<_, _>>(),
        timers: store.timers.iter().map(|timer| (name(timer.name), timer.due)).collect(),
        ..Kept::default()
    }
}

fn held(value: Value) -> VarValue {
    match value {
        Value::Integer(integer) => VarValue::Int(integer),
        Value::Text(number) => VarValue::Text(Text { number, bytes: 0 }),
    }
}
