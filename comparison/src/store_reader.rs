//! A reader of a store's words, from docs/STORE.md and document 01, "Store".

use oracle::check;

use crate::flat_form::{self, Lists, Step, BRANCH};
use crate::store::{
    list_rows, Pending, Slot, Store, Timer, Value, Variable, MOST_IMAGE, MOST_PENDING, MOST_SLOTS, MOST_STEPS,
    MOST_TIMERS, MOST_VARIABLES, PENDING_WORDS, RULES, WORDS,
};
use crate::tables::{Tables, TRIGGERS};

/// The rule of a store that is broken: the first in the order in which this reader looks.
#[derive(Clone, Copy, Debug, PartialEq, Eq, PartialOrd, Ord)]
pub enum Broken {
    Size,
    Loaded,
    Count,
    Mark,
    Unused,
    Position,
    Trigger,
    Event,
    WeekMinute,
    Image,
    FlatForm,
    RuleNotLoaded,
    Text,
    TimerNames,
    VariableNames,
    Slots,
    PendingRule,
    PendingList,
    PendingPlace,
    PendingJump,
    PendingBudget,
    SequenceTwice,
    SequenceNotBelow,
    NumberNotGiven,
}

impl Broken {
    pub const ALL: [Broken; 24] = [
        Broken::Size,
        Broken::Loaded,
        Broken::Count,
        Broken::Mark,
        Broken::Unused,
        Broken::Position,
        Broken::Trigger,
        Broken::Event,
        Broken::WeekMinute,
        Broken::Image,
        Broken::FlatForm,
        Broken::RuleNotLoaded,
        Broken::Text,
        Broken::TimerNames,
        Broken::VariableNames,
        Broken::Slots,
        Broken::PendingRule,
        Broken::PendingList,
        Broken::PendingPlace,
        Broken::PendingJump,
        Broken::PendingBudget,
        Broken::SequenceTwice,
        Broken::SequenceNotBelow,
        Broken::NumberNotGiven,
    ];

    /// Document 01's words.
    pub fn text(self) -> &'static str {
        match self {
            Broken::Size => "16,384 words",
            Broken::Loaded => "loaded is 0 or 1",
            Broken::Count => "a count is within its table",
            Broken::Mark => "bits, tags and marks are 0 or 1",
            Broken::Unused => "unused words are 0",
            Broken::Position => "positions are below 16",
            Broken::Trigger => "its trigger is 0 to 4",
            Broken::Event => "its event word is 0",
            Broken::WeekMinute => "the week minute is below 10,080",
            Broken::Image => "the image passes load",
            Broken::FlatForm => "the flat part is its flat form",
            Broken::RuleNotLoaded => "bits, activations, positions belong to loaded rules",
            Broken::Text => "a text variable keeps its number only",
            Broken::TimerNames => "timer names are distinct",
            Broken::VariableNames => "variable names are distinct",
            Broken::Slots => "Every slots are those of the set, sorted",
            Broken::PendingRule => "its rule is loaded",
            Broken::PendingList => "it names one of that rule's lists",
            Broken::PendingPlace => "its place lies in that list or at its end",
            Broken::PendingJump => "a jump stands with it inside a then-region",
            Broken::PendingBudget => "its budget is below B",
            Broken::SequenceTwice => "its sequence number is distinct",
            Broken::SequenceNotBelow => "its sequence number is below the next",
            Broken::NumberNotGiven => "its number is at least 1 and at most the last one given",
        }
    }
}

fn ask(holds: bool, rule: Broken) -> Result<(), Broken> {
    if holds {
        Ok(())
    } else {
        Err(rule)
    }
}

/// What the words say, or the rule that they break.
pub fn read(words: &[u32]) -> Result<Store, Broken> {
    let parts = shape(words)?;
    let lists = set_lists(&parts)?;
    let names = parts.set_image().map_or_else(Vec::new, |image| Tables::of(image).rule_names());
    let store = parts.store(names.len())?;
    names_and_texts(&parts)?;
    ask(same_slots(&store), Broken::Slots)?;
    for held in &store.pending {
        pending_fits(held, &store, &names, &lists)?;
    }
    sequence_numbers(&store)?;
    ask(store.pending.iter().all(|held| (1..=store.last_number).contains(&held.number)), Broken::NumberNotGiven)?;
    Ok(store)
}

/// Whether words have a store's shape and texts of one word: what reading the state alone needs.
pub fn readable(words: &[u32]) -> bool {
    shape(words).is_ok_and(|parts| parts.texts_short())
}

// THE SHAPE ----------------------------------------------------------------------------------------------------------------------

/// The parts in their order, tables without the words behind their counts.
struct Parts<'a> {
    last: u64,
    loaded: bool,
    image: &'a [u32],
    lists: &'a [u32],
    steps: &'a [u32],
    bits: &'a [u32],
    activations: &'a [u32],
    positions: &'a [u32],
    variables: &'a [u32],
    timers: &'a [u32],
    slots: &'a [u32],
    pending: &'a [u32],
    week_minute: Option<u32>,
    next: u64,
    last_number: u64,
    counters: &'a [u32],
}

struct Cursor<'a> {
    rest: &'a [u32],
}

impl<'a> Cursor<'a> {
    fn take(&mut self, count: usize) -> &'a [u32] {
        let (words, rest) = self.rest.split_at(count);
        self.rest = rest;
        words
    }

    fn wide(&mut self) -> u64 {
        wide(self.take(2))
    }

    /// A count and as many rows; the places of the others hold 0.
    fn counted(&mut self, most: usize, width: usize) -> Result<&'a [u32], Broken> {
        let count = self.take(1)[0] as usize;
        let rows = self.take(most * width);
        ask(count <= most, Broken::Count)?;
        let (rows, others) = rows.split_at(count * width);
        ask(zeros(others), Broken::Unused)?;
        Ok(rows)
    }
}

fn wide(words: &[u32]) -> u64 {
    u64::from(words[1]) << 32 | u64::from(words[0])
}

fn zeros(words: &[u32]) -> bool {
    words.iter().all(|word| *word == 0)
}

/// A mark, with words behind it that are 0 where it is.
fn marked(words: &[u32]) -> Result<Option<&[u32]>, Broken> {
    ask(words[0] <= 1, Broken::Mark)?;
    ask(words[0] == 1 || zeros(&words[1..]), Broken::Unused)?;
    Ok((words[0] == 1).then_some(&words[1..]))
}

fn shape(words: &[u32]) -> Result<Parts<'_>, Broken> {
    ask(words.len() == WORDS, Broken::Size)?;
    let mut cursor = Cursor { rest: words };
    let last = cursor.wide();
    let loaded = cursor.take(1)[0];
    ask(loaded <= 1, Broken::Loaded)?;
    let image = cursor.counted(MOST_IMAGE, 1)?;
    let lists = cursor.take(RULES * 2);
    let steps = cursor.counted(MOST_STEPS, 4)?;
    let bits = cursor.take(RULES);
    ask(bits.iter().all(|bit| *bit <= 1), Broken::Mark)?;
    let activations = cursor.take(RULES * 3);
    activations.chunks(3).try_for_each(|row| marked(row).map(|_| ()))?;
    let positions = cursor.take(RULES * 2);
    positions.chunks(2).try_for_each(position_fits)?;
    let variables = cursor.counted(MOST_VARIABLES, 4)?;
    ask(variables.chunks(4).all(|row| row[1] <= 1), Broken::Mark)?;
    let timers = cursor.counted(MOST_TIMERS, 3)?;
    let slots = cursor.counted(MOST_SLOTS, 5)?;
    let pending = cursor.counted(MOST_PENDING, PENDING_WORDS)?;
    pending.chunks(PENDING_WORDS).try_for_each(pending_words_fit)?;
    let week_minute = marked(cursor.take(2))?.map(|words| words[0]);
    ask(week_minute.is_none_or(|minute| minute < 10_080), Broken::WeekMinute)?;
    let next = cursor.wide();
    let last_number = cursor.wide();
    let counters = cursor.take(12);
    ask(zeros(cursor.rest), Broken::Unused)?;
    let loaded = loaded == 1;
    Ok(Parts {
        last, loaded, image, lists, steps, bits, activations, positions, variables, timers, slots, pending, week_minute,
        next, last_number, counters,
    })
}

fn position_fits(row: &[u32]) -> Result<(), Broken> {
    let position = marked(row)?;
    ask(position.is_none_or(|words| words[0] < 16), Broken::Position)
}

fn pending_words_fit(row: &[u32]) -> Result<(), Broken> {
    marked(&row[7..10])?;
    ask(row[11] <= 4, Broken::Trigger)?;
    ask(row[14] == 0, Broken::Event)
}

// THE SET ------------------------------------------------------------------------------------------------------------------------

/// "if 1, the image passes load and the flat part is its flat form"; without a set their words are unused.
fn set_lists(parts: &Parts<'_>) -> Result<Vec<Lists>, Broken> {
    let Some(image) = parts.set_image() else {
        ask(parts.image.is_empty() && zeros(parts.lists) && parts.steps.is_empty(), Broken::Unused)?;
        return Ok(Vec::new());
    };
    ask(check::image_refusal(image).is_none(), Broken::Image)?;
    let lists = flat_form::lists(image);
    let mut rows: Vec<u32> = list_rows(&lists).flatten().collect();
    rows.resize(RULES * 2, 0);
    let steps: Vec<u32> = lists.iter().flat_map(Lists::stored).flatten().copied().collect();
    ask(parts.lists == rows && parts.steps == steps, Broken::FlatForm)?;
    Ok(lists)
}

impl<'a> Parts<'a> {
    fn set_image(&self) -> Option<&'a [u32]> {
        self.loaded.then_some(self.image)
    }

    fn texts_short(&self) -> bool {
        self.variables.chunks(4).all(|row| row[1] == 0 || row[3] == 0)
    }

    /// With bits, last activations and cycle positions of so many rules.
    fn store(&self, rules: usize) -> Result<Store, Broken> {
        let others = [&self.bits[rules..], &self.activations[rules * 3..], &self.positions[rules * 2..]];
        ask(others.iter().all(|words| zeros(words)), Broken::RuleNotLoaded)?;
        let first = |row: &[u32]| (row[0] == 1).then_some(row[1]);
        Ok(Store {
            last: self.last,
            image: self.set_image().map(<[u32]>::to_vec),
            bits: self.bits[..rules].iter().map(|bit| *bit == 1).collect(),
            activations: self.activations[..rules * 3]
                .chunks(3)
                .map(|row| (row[0] == 1).then(|| wide(&row[1..])))
                .collect(),
            positions: self.positions[..rules * 2].chunks(2).map(first).collect(),
            variables: self.variables.chunks(4).map(variable).collect(),
            timers: self.timers.chunks(3).map(|row| Timer { name: row[0], due: wide(&row[1..]) }).collect(),
            slots: self.slots.chunks(5).map(slot).collect(),
            pending: self.pending.chunks(PENDING_WORDS).map(pending).collect(),
            week_minute: self.week_minute,
            next: self.next,
            last_number: self.last_number,
            counters: std::array::from_fn(|place| self.counters[place]),
        })
    }
}

fn variable(row: &[u32]) -> Variable {
    let value = match row[1] {
        0 => Value::Integer(wide(&row[2..]) as i64),
        _ => Value::Text(row[2]),
    };
    Variable { name: row[0], value }
}

fn slot(row: &[u32]) -> Slot {
    Slot { rule: row[0], place: row[1], period: row[2], due: wide(&row[3..]) }
}

fn pending(row: &[u32]) -> Pending {
    Pending {
        seq: wide(row),
        due: wide(&row[2..]),
        rule: row[4],
        list: row[5],
        place: row[6],
        jump: (row[7] == 1).then_some((row[8], row[9])),
        budget: row[10],
        trigger: row[11],
        number: wide(&row[12..]),
    }
}

// FURTHER RULES ------------------------------------------------------------------------------------------------------------------

fn names_and_texts(parts: &Parts<'_>) -> Result<(), Broken> {
    let first = |row: &[u32]| row[0];
    ask(parts.texts_short(), Broken::Text)?;
    ask(distinct(parts.timers.chunks(3).map(first).collect()), Broken::TimerNames)?;
    ask(distinct(parts.variables.chunks(4).map(first).collect()), Broken::VariableNames)
}

fn distinct<T: Ord>(mut items: Vec<T>) -> bool {
    items.sort_unstable();
    items.windows(2).all(|pair| pair[0] != pair[1])
}

/// "Every slots are those of the set, sorted": by rule, then by place among the rule's triggers.
fn same_slots(store: &Store) -> bool {
    let mut wanted = store.image.as_deref().map_or_else(Vec::new, every_triggers);
    wanted.sort_unstable();
    wanted.iter().eq(store.slots.iter().map(|slot| (slot.rule, slot.place, slot.period)).collect::<Vec<_>>().iter())
}

fn every_triggers(image: &[u32]) -> Vec<(u32, u32, u32)> {
    let tables = Tables::of(image);
    let mut found = Vec::new();
    for rule in tables.records(crate::tables::RULES) {
        for place in 0..rule[5] {
            let trigger = tables.record(TRIGGERS, rule[4] + place);
            if trigger[0] == 1 {
                found.push((rule[0], place, trigger[1]));
            }
        }
    }
    found
}

fn pending_fits(held: &Pending, store: &Store, names: &[u32], lists: &[Lists]) -> Result<(), Broken> {
    let rule = names.iter().position(|name| *name == held.rule).ok_or(Broken::PendingRule)?;
    let list = lists[rule].named(held.list).ok_or(Broken::PendingList)?;
    let place = held.place as usize;
    ask(place <= list.len(), Broken::PendingPlace)?;
    ask(held.jump == jump_at(list, place), Broken::PendingJump)?;
    let budget = store.image.as_deref().map_or(0, |image| Tables::of(image).budget());
    ask(held.budget < budget, Broken::PendingBudget)
}

/// The jump of a place: inside a then-region, from its end past the else-region.
fn jump_at(list: &[Step], place: usize) -> Option<(u32, u32)> {
    list.iter().enumerate().find_map(|(at, step)| {
        let inside = step[0] == BRANCH && place > at && place <= at + step[2] as usize;
        let end = at as u32 + 1 + step[2];
        inside.then_some((end, end + step[3]))
    })
}

fn sequence_numbers(store: &Store) -> Result<(), Broken> {
    let numbers: Vec<u64> = store.pending.iter().map(|held| held.seq).collect();
    ask(numbers.iter().all(|number| *number < store.next), Broken::SequenceNotBelow)?;
    ask(distinct(numbers), Broken::SequenceTwice)
}
