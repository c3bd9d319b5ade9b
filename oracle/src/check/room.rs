//! How many outcomes and effects a tick or a run can give while an image is loaded, counted from the records: who lends so much is
//! never refused with 30.

use super::flat;
use super::image::{self, RULES, TRIGGERS};

/// A store's pending records and timers: document 01, "Store".
const CONTINUATIONS: u64 = 32;
const TIMERS: u64 = 16;

const TIMER_FIRES: u32 = 0;
const EVERY: u32 = 1;
const AT_TIME: u32 = 2;
const AT_SOLAR: u32 = 3;

#[derive(Clone, Copy, Debug, PartialEq, Eq)]
pub struct Room {
    pub outcomes: u64,
    pub effects: u64,
}

/// How often one tick can start a rule of triggers of these kinds: by each timer that runs, by each Every, and once by the clock.
fn starts(kinds: &[u32]) -> u64 {
    let listed = |wanted: &[u32]| kinds.iter().filter(|kind| wanted.contains(kind)).count() as u64;
    listed(&[TIMER_FIRES]).min(TIMERS) + listed(&[EVERY]) + listed(&[AT_TIME, AT_SOLAR]).min(1)
}

/// The room that the image's set needs, or the number with which load refuses it.
///
/// # Errors
/// 10 to 17.
pub fn room(image: &[u32]) -> Result<Room, u32> {
    if let Some(number) = image::image_refusal(image) {
        return Err(number);
    }
    let (tables, limits, budget) = image::accepted(image);
    let sizes = flat::rule_sizes(&tables, &limits);
    let mut room = Room { outcomes: CONTINUATIONS, effects: 0 };
    for (rule, (own, _)) in tables.records(RULES).zip(&sizes) {
        let listed = rule[4]..rule[4] + rule[5];
        let kinds: Vec<u32> = listed.map(|at| tables.record(TRIGGERS, at as usize)[0]).collect();
        room.outcomes += starts(&kinds);
        room.effects += starts(&kinds) * budget.min(*own);
    }
    let longest = sizes.iter().map(|(own, bodies)| *own.max(bodies)).max().unwrap_or(0);
    room.effects += CONTINUATIONS * longest.min(budget - 1);
    room.effects = room.effects.max(longest.min(budget));
    Ok(room)
}

#[cfg(test)]
mod tests {
    use super::*;

    /// A trailer of a budget, no call, no repeat, and these first words of tables.
    fn image(budget: u32, tables: [&[u32]; 8]) -> Vec<u32> {
        let mut words = tables.concat();
        words.extend([budget, 0, 1, 0, 0]);
        let mut first = 0;
        for table in tables {
            words.push(first);
            first += table.len() as u32;
        }
        words
    }

    fn rule(name: u32, triggers: [u32; 2], actions: [u32; 2]) -> [u32; 16] {
        [name, 1, 0, 0, triggers[0], triggers[1], 0, 0, actions[0], actions[1], 0, 0, 0, 0, 0, 0]
    }

    const LOG: [u32; 8] = [21, 7, 0, 0, 0, 0, 0, 0];

    #[test]
    fn a_rule_of_each_kind_of_trigger() {
        let rules = [rule(1, [0, 4], [0, 3]), rule(2, [1, 2], [0, 2])].concat();
        let triggers = [[0, 5, 0, 0, 0, 0, 0, 0], [1, 9, 0, 0, 0, 0, 0, 0], [2, 1, 1, 127, 0, 0, 0, 0], [3, 0, 0, 0, 0, 0, 0, 0]].concat();
        let words = image(3, [&rules, &[], &triggers, &[], &[LOG, LOG, LOG].concat(), &[], &[], &[]]);
        // Rule 1: a timer, an Every and the clock, 3 effects each; rule 2: an Every and the clock, 2 each; 32 continuations of 2.
        assert_eq!(room(&words), Ok(Room { outcomes: 37, effects: 64 + 9 + 4 }));
    }

    #[test]
    fn a_body_of_an_after_is_no_step_of_the_list_around() {
        let after = [24, 1_000, 1, 2, 0, 0, 0, 0];
        let words = image(9, [&rule(1, [0, 1], [0, 1]), &[], &[1, 9, 0, 0, 0, 0, 0, 0], &[], &[after, LOG, LOG].concat(), &[], &[], &[]]);
        assert_eq!(room(&words), Ok(Room { outcomes: 33, effects: 64 + 1 }));
    }

    #[test]
    fn with_a_budget_of_1_a_run_gives_more_than_a_tick() {
        let words = image(1, [&rule(1, [0, 0], [0, 2]), &[], &[], &[], &[LOG, LOG].concat(), &[], &[], &[]]);
        assert_eq!(room(&words), Ok(Room { outcomes: 32, effects: 1 }));
        assert_eq!(room(&words[1..]), Err(12));
        assert_eq!(room(&[]), Err(10));
    }
}
