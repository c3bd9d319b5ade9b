//! What was met of sets that fit only by sharing (document 02, request 8), seen in the words of the store before and behind a call.

use oracle::house::{Answer, Call};

use crate::store::{MOST_PENDING, PENDING_WORDS};

/// Places of the pending records: docs/STORE.md.
const PENDING: usize = 13_240;
pub const RULE: usize = 4;
const LIST: usize = 5;
const PLACE: usize = 6;

pub const CELLS: [&str; 8] = [
    "loads", "wet runs", "dry runs", "ticks that resume a body", "waits in bodies", "32 pending", "disables that strike bodies",
    "loads that strike bodies",
];
/// Histories that load such a set, in a whole run.
pub const LEAST: u64 = 2_000;

#[derive(Default)]
pub struct Sharing {
    pub histories: u64,
    pub counts: [u64; 8],
}

pub fn pending(words: &[u32]) -> impl Iterator<Item = &[u32]> {
    words[PENDING + 1..].chunks(PENDING_WORDS).take(words[PENDING] as usize)
}

fn bodies(words: &[u32]) -> usize {
    pending(words).filter(|row| row[LIST] > 0).count()
}

impl Sharing {
    fn count(&mut self, cell: usize, seen: bool) {
        self.counts[cell] += u64::from(seen);
    }

    /// A call that was accepted: whether such a set was loaded before it and is behind it.
    pub fn see(&mut self, call: &Call, answer: &Answer, loaded: [bool; 2], before: &[u32], after: &[u32]) {
        let struck = || bodies(before) > bodies(after);
        let outcomes = match answer {
            Answer::Outcomes { list, .. } => list.len(),
            _ => 0,
        };
        match call {
            Call::Load { .. } => {
                self.count(0, loaded[1]);
                self.count(7, loaded[0] && struck());
            }
            Call::Run { dry, .. } => self.count(1 + usize::from(*dry), loaded[1] && outcomes > 0),
            Call::Tick { .. } => self.count(3, loaded[1] && outcomes > 0 && struck()),
            Call::Enable { rule, on: false } => {
                let all = pending(after).all(|row| row[RULE] != *rule);
                self.count(6, loaded[1] && struck() && all);
            }
            _ => {}
        }
        self.count(4, loaded[1] && pending(after).any(|row| row[LIST] > 0 && row[PLACE] > 0));
        self.count(5, loaded[1] && pending(after).count() == MOST_PENDING);
    }
}
