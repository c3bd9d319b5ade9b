//! Ticks by how far their clock is behind the remembered minute: whether a sun was missed, and whether a wall rule started.

use super::cells::SET_BACKS;
use super::Coverage;
use crate::house::{Answer, Call, House};

const FIRED: usize = 9;
const UNSYNCED: usize = 11;
const AT_TIME: u32 = 3;

/// What is known before a call.
pub(super) struct Clock {
    behind: Option<u32>,
    counters: [u32; 16],
}

fn counters(house: &mut House) -> [u32; 16] {
    match house.call(&Call::Counters) {
        Answer::Counters(counters) => counters,
        _ => [0; 16],
    }
}

impl Clock {
    pub(super) fn of(house: &mut House, call: &Call) -> Clock {
        Clock { behind: house.minutes_behind(call), counters: counters(house) }
    }

    pub(super) fn see(&self, coverage: &mut Coverage, answer: &Answer, house: &mut House) {
        let (Some(behind), Answer::Outcomes { list, .. }) = (self.behind, answer) else {
            return;
        };
        let row = match behind {
            0 | 1 => behind as usize,
            2..=119 => 2,
            120 => 3,
            121 => 4,
            _ => return,
        };
        let by = counters(house);
        coverage.count(SET_BACKS, row, 0);
        if by[UNSYNCED] > self.counters[UNSYNCED] {
            coverage.count(SET_BACKS, row, 1);
        }
        // The continuations come first, with the trigger of their rule's start.
        let resumed = by[FIRED].saturating_sub(self.counters[FIRED]) as usize;
        if list.iter().skip(resumed).any(|outcome| outcome.trigger >= AT_TIME) {
            coverage.count(SET_BACKS, row, 2);
        }
    }
}
