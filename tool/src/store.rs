//! The words of a store: docs/STORE.md.

use crate::tree::wide;

pub const WORDS: usize = 16_384;

pub const LAST: usize = 0;
pub const LOADED: usize = 2;
pub const IMAGE: usize = 3;
pub const MOST_IMAGE: usize = 4_096;
pub const LISTS: usize = 4_100;
pub const RULES: usize = 64;
pub const STEPS: usize = 4_228;
pub const BITS: usize = 12_421;
pub const ACTIVATIONS: usize = 12_485;
pub const POSITIONS: usize = 12_677;
pub const VARIABLES: usize = 12_805;
pub const TIMERS: usize = 12_870;
pub const SLOTS: usize = 12_919;
pub const PENDING: usize = 13_240;
pub const PENDING_WORDS: usize = 15;
pub const WEEK_MINUTE: usize = 13_721;
pub const NEXT: usize = 13_723;
pub const LAST_NUMBER: usize = 13_725;
pub const COUNTERS: usize = 13_727;
pub const UNUSED: usize = 13_739;

/// A counted table: the place of its count, its most rows, the words of a row.
#[derive(Clone, Copy)]
pub struct Counted {
    pub name: &'static str,
    pub place: usize,
    pub most: usize,
    pub width: usize,
}

pub const COUNTED: [Counted; 6] = [
    Counted { name: "image", place: IMAGE, most: MOST_IMAGE, width: 1 },
    Counted { name: "flat steps", place: STEPS, most: 2_048, width: 4 },
    Counted { name: "variables", place: VARIABLES, most: 16, width: 4 },
    Counted { name: "timers", place: TIMERS, most: 16, width: 3 },
    Counted { name: "Every slots", place: SLOTS, most: 64, width: 5 },
    Counted { name: "pending", place: PENDING, most: 32, width: PENDING_WORDS },
];

impl Counted {
    /// The rows that the count tells, if it is in range.
    pub fn rows<'a>(&self, store: &'a [u32]) -> Option<std::slice::ChunksExact<'a, u32>> {
        let count = *store.get(self.place)? as usize;
        let end = self.place + 1 + count.checked_mul(self.width)?;
        (count <= self.most).then(|| store.get(self.place + 1..end)).flatten().map(|rows| rows.chunks_exact(self.width))
    }
}

pub const COUNTER_NAMES: [&str; 16] = [
    "activations",
    "dry activations",
    "suppressed by cooldown",
    "suppressed, rule off",
    "conditions rejected",
    "partial outcomes",
    "effects",
    "actions failed",
    "continuations scheduled",
    "continuations fired",
    "continuations dropped",
    "ticks without a clock",
    "pending now",
    "timers now",
    "rules now",
    "variables now",
];

#[derive(Clone, Copy, Debug)]
pub struct Pending {
    pub sequence: u64,
    pub due: u64,
    pub rule: u32,
    pub list: u32,
    pub place: u32,
    pub jump: Option<(u32, u32)>,
    pub budget: u32,
    pub trigger: u32,
    /// Of the activation that it belongs to.
    pub number: u64,
}

/// What a store holds beside its image, of one that keeps the store rules.
pub struct State<'a> {
    words: &'a [u32],
}

impl<'a> State<'a> {
    /// None for words that are no store.
    pub fn of(words: &'a [u32]) -> Option<State<'a>> {
        (words.len() == WORDS && COUNTED.iter().all(|table| table.rows(words).is_some())).then_some(State { words })
    }

    fn rows(&self, table: usize) -> std::slice::ChunksExact<'a, u32> {
        COUNTED[table].rows(self.words).unwrap_or([].chunks_exact(1))
    }

    pub fn words(&self) -> &'a [u32] {
        self.words
    }

    pub fn last(&self) -> u64 {
        wide(self.words[LAST], self.words[LAST + 1])
    }

    pub fn image(&self) -> Option<&'a [u32]> {
        let count = self.words[IMAGE] as usize;
        (self.words[LOADED] == 1).then(|| &self.words[IMAGE + 1..IMAGE + 1 + count])
    }

    pub fn bit(&self, rule: usize) -> bool {
        self.words.get(BITS + rule) == Some(&1)
    }

    pub fn activation(&self, rule: usize) -> Option<u64> {
        let row = self.words.get(ACTIVATIONS + rule * 3..ACTIVATIONS + rule * 3 + 3)?;
        (row[0] == 1).then(|| wide(row[1], row[2]))
    }

    pub fn position(&self, rule: usize) -> Option<u32> {
        let row = self.words.get(POSITIONS + rule * 2..POSITIONS + rule * 2 + 2)?;
        (row[0] == 1).then(|| row[1])
    }

    /// Name, whether a text, value.
    pub fn variables(&self) -> impl Iterator<Item = (u32, bool, u64)> + 'a {
        self.rows(2).map(|row| (row[0], row[1] == 1, wide(row[2], row[3])))
    }

    /// Name and due time.
    pub fn timers(&self) -> impl Iterator<Item = (u32, u64)> + 'a {
        self.rows(3).map(|row| (row[0], wide(row[1], row[2])))
    }

    /// Rule, place among its triggers, period, due time.
    pub fn slots(&self) -> impl Iterator<Item = (u32, u32, u32, u64)> + 'a {
        self.rows(4).map(|row| (row[0], row[1], row[2], wide(row[3], row[4])))
    }

    pub fn pending(&self) -> impl Iterator<Item = Pending> + 'a {
        self.rows(5).map(|row| Pending {
            sequence: wide(row[0], row[1]),
            due: wide(row[2], row[3]),
            rule: row[4],
            list: row[5],
            place: row[6],
            jump: (row[7] == 1).then_some((row[8], row[9])),
            budget: row[10],
            trigger: row[11],
            number: wide(row[12], row[13]),
        })
    }

    pub fn week_minute(&self) -> Option<u32> {
        (self.words[WEEK_MINUTE] == 1).then(|| self.words[WEEK_MINUTE + 1])
    }

    pub fn next_sequence(&self) -> u64 {
        wide(self.words[NEXT], self.words[NEXT + 1])
    }

    /// The last activation number given.
    pub fn last_number(&self) -> u64 {
        wide(self.words[LAST_NUMBER], self.words[LAST_NUMBER + 1])
    }

    pub fn counters(&self) -> &'a [u32] {
        &self.words[COUNTERS..UNUSED]
    }

    /// The earliest due time of what waits, timers and Every slots.
    pub fn next_due(&self) -> Option<u64> {
        let waits = self.pending().map(|held| held.due);
        waits.chain(self.timers().map(|timer| timer.1)).chain(self.slots().map(|slot| slot.3)).min()
    }
}
