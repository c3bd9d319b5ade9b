//! What a store says, and its 16,384 words: docs/STORE.md.

use crate::flat_form::{self, Lists, Step};

pub const WORDS: usize = 16_384;
pub const MOST_IMAGE: usize = 4_096;
pub const RULES: usize = 64;
pub const MOST_STEPS: usize = 2_048;
pub const MOST_VARIABLES: usize = 16;
pub const MOST_TIMERS: usize = 16;
pub const MOST_SLOTS: usize = 64;
pub const MOST_PENDING: usize = 32;
pub const PENDING_WORDS: usize = 15;

#[derive(Clone, Debug, Default, PartialEq)]
pub struct Store {
    pub last: u64,
    /// The image of the loaded set.
    pub image: Option<Vec<u32>>,
    /// One for each loaded rule, as the next two.
    pub bits: Vec<bool>,
    pub activations: Vec<Option<u64>>,
    pub positions: Vec<Option<u32>>,
    pub variables: Vec<Variable>,
    pub timers: Vec<Timer>,
    pub slots: Vec<Slot>,
    pub pending: Vec<Pending>,
    pub week_minute: Option<u32>,
    pub next: u64,
    /// The last activation number given.
    pub last_number: u64,
    pub counters: [u32; 12],
}

#[derive(Clone, Copy, Debug, PartialEq)]
pub struct Variable {
    pub name: u32,
    pub value: Value,
}

#[derive(Clone, Copy, Debug, PartialEq)]
pub enum Value {
    Integer(i64),
    Text(u32),
}

#[derive(Clone, Copy, Debug, PartialEq)]
pub struct Timer {
    pub name: u32,
    pub due: u64,
}

#[derive(Clone, Copy, Debug, PartialEq)]
pub struct Slot {
    pub rule: u32,
    pub place: u32,
    pub period: u32,
    pub due: u64,
}

#[derive(Clone, Copy, Debug, PartialEq)]
pub struct Pending {
    pub seq: u64,
    pub due: u64,
    pub rule: u32,
    pub list: u32,
    pub place: u32,
    /// Where it is taken, where it leads.
    pub jump: Option<(u32, u32)>,
    pub budget: u32,
    pub trigger: u32,
    /// Of its activation.
    pub number: u64,
}

impl Store {
    pub fn words(&self) -> Vec<u32> {
        let mut out = Writer { words: Vec::with_capacity(WORDS) };
        out.wide(self.last);
        out.set(self.image.as_deref());
        out.rows(RULES, 1, self.bits.iter().map(|bit| vec![u32::from(*bit)]));
        out.rows(RULES, 3, self.activations.iter().map(|time| marked(time.map(pair))));
        out.rows(RULES, 2, self.positions.iter().map(|position| marked(position.map(|n| [n]))));
        out.counted(MOST_VARIABLES, 4, self.variables.iter().map(variable));
        out.counted(MOST_TIMERS, 3, self.timers.iter().map(timer));
        out.counted(MOST_SLOTS, 5, self.slots.iter().map(slot));
        out.counted(MOST_PENDING, PENDING_WORDS, self.pending.iter().map(pending));
        out.words.extend(marked(self.week_minute.map(|minute| [minute])));
        out.wide(self.next);
        out.wide(self.last_number);
        out.words.extend(self.counters);
        out.words.resize(WORDS, 0);
        out.words
    }
}

struct Writer {
    words: Vec<u32>,
}

impl Writer {
    fn wide(&mut self, value: u64) {
        self.words.extend(pair(value));
    }

    /// A table of this many rows, those behind the given ones 0.
    fn rows(&mut self, most: usize, width: usize, rows: impl Iterator<Item = Vec<u32>>) {
        let end = self.words.len() + most * width;
        rows.for_each(|row| self.words.extend(row));
        self.words.resize(end, 0);
    }

    fn counted(&mut self, most: usize, width: usize, rows: impl ExactSizeIterator<Item = Vec<u32>>) {
        self.words.push(rows.len() as u32);
        self.rows(most, width, rows);
    }

    /// Loaded word, image, lists of the rules, flat steps.
    fn set(&mut self, image: Option<&[u32]>) {
        self.words.push(u32::from(image.is_some()));
        self.counted(MOST_IMAGE, 1, image.unwrap_or(&[]).iter().map(|word| vec![*word]));
        let lists = image.map_or_else(Vec::new, flat_form::lists);
        self.rows(RULES, 2, list_rows(&lists).map(|row| row.to_vec()));
        let steps: Vec<Step> = lists.iter().flat_map(Lists::stored).copied().collect();
        self.counted(MOST_STEPS, 4, steps.iter().map(|step| step.to_vec()));
    }
}

/// Where each rule's own list begins among the flat steps, behind its bodies, and how many steps it has.
pub fn list_rows(lists: &[Lists]) -> impl Iterator<Item = [u32; 2]> + '_ {
    lists.iter().scan(0, |end, lists| {
        let row = [*end + lists.bodies.len() as u32, lists.own.len() as u32];
        *end = row[0] + row[1];
        Some(row)
    })
}

pub fn pair(value: u64) -> [u32; 2] {
    [value as u32, (value >> 32) as u32]
}

/// A mark and the words, which are 0 where the mark is.
fn marked<const N: usize>(words: Option<[u32; N]>) -> Vec<u32> {
    let mut row = vec![u32::from(words.is_some())];
    row.extend(words.unwrap_or([0; N]));
    row
}

fn variable(variable: &Variable) -> Vec<u32> {
    let (tag, [low, high]) = match variable.value {
        Value::Integer(number) => (0, pair(number as u64)),
        Value::Text(number) => (1, [number, 0]),
    };
    vec![variable.name, tag, low, high]
}

fn timer(timer: &Timer) -> Vec<u32> {
    [[timer.name].as_slice(), &pair(timer.due)].concat()
}

fn slot(slot: &Slot) -> Vec<u32> {
    [[slot.rule, slot.place, slot.period].as_slice(), &pair(slot.due)].concat()
}

fn pending(held: &Pending) -> Vec<u32> {
    let mut row = [pair(held.seq), pair(held.due)].concat();
    row.extend([held.rule, held.list, held.place]);
    row.extend(marked(held.jump.map(|(at, to)| [at, to])));
    row.extend([held.budget, held.trigger]);
    row.extend(pair(held.number));
    row.push(0);
    row
}
