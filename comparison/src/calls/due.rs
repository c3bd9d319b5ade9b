//! Ticks in which many continuations are due (document 02, request 3), seen in the words of the store before and behind a tick.

use crate::store::MOST_PENDING;

use super::sharing::{pending, RULE};

/// Words of a pending record: docs/STORE.md.
const DUE: usize = 2;
const MANY: usize = 20;

pub const CELLS: [&str; 9] = [
    "20 to 31 due", "32 due", "rising", "falling", "all equal", "saturated", "more stand", "a rule of a due one disabled", "32 again",
];

#[derive(Default)]
pub struct Due {
    pub counts: [u64; 9],
}

fn time(words: &[u32]) -> u64 {
    u64::from(words[0]) | u64::from(words[1]) << 32
}

impl Due {
    /// An accepted tick, with the words of its snapshot.
    pub fn see(&mut self, snapshot: &[u32], before: &[u32], after: &[u32]) {
        let now = time(snapshot);
        let due: Vec<(u64, u32)> =
            pending(before).map(|row| (time(&row[DUE..]), row[RULE])).filter(|(time, _)| *time <= now).collect();
        if due.len() < MANY {
            return;
        }
        let pairs = || due.windows(2).map(|pair| pair[0].0.cmp(&pair[1].0));
        let equal = pairs().all(|order| order.is_eq());
        let disabled = |rule: u32| enabled(before, rule) && !enabled(after, rule);
        let seen = [
            due.len() < MOST_PENDING,
            due.len() == MOST_PENDING,
            !equal && pairs().all(|order| order.is_le()),
            !equal && pairs().all(|order| order.is_ge()),
            equal,
            due.iter().filter(|(time, _)| *time == u64::MAX).count() > 1,
            pending(before).count() > due.len(),
            due.iter().any(|(_, rule)| disabled(*rule)),
            pending(after).count() == MOST_PENDING,
        ];
        self.counts.iter_mut().zip(seen).for_each(|(count, seen)| *count += u64::from(seen));
    }
}

/// Whether a loaded rule is enabled: its bit stands at the place that its row has in the image.
fn enabled(words: &[u32], rule: u32) -> bool {
    const IMAGE: usize = 4;
    const RULE_WORDS: usize = 16;
    const BITS: usize = 12_421;
    words[IMAGE..].chunks(RULE_WORDS).position(|row| row[0] == rule).is_some_and(|at| words[BITS + at] == 1)
}
