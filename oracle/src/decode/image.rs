use dali2rust_rules_model::limits::Limits;
use dali2rust_rules_model::{
    Action, ClockTime, Condition, DaySet, DefBlock, DurationMs, List, Rule, RuleSet, TimeBound,
    Trigger, ValueExpr,
};

use super::conditions::{clock_time, condition, solar_event, time_bound, value};
use super::{actions, bit, byte, name, signed};

const TRAILER_WORDS: usize = 13;
/// Words a record, in the order of the trailer's eight table starts.
const RECORD_WORDS: [usize; 8] = [16, 8, 8, 8, 8, 8, 8, 1];
const RULES: usize = 0;
const BLOCKS: usize = 1;
const TRIGGERS: usize = 2;
const CONDITIONS: usize = 3;
const ACTIONS: usize = 4;
const VALUES: usize = 5;
const BOUNDS: usize = 6;
const POOL: usize = 7;

/// The image's tables; a word outside a table is read as 0.
struct Tables<'a> {
    parts: [&'a [u32]; 8],
}

impl<'a> Tables<'a> {
    fn new(image: &'a [u32], trailer: &[u32; TRAILER_WORDS]) -> Tables<'a> {
        let last = image.len().saturating_sub(TRAILER_WORDS);
        let start = |table: usize| match trailer.get(5 + table) {
            Some(word) => (*word as usize).min(last),
            None => last,
        };
        let parts =
            std::array::from_fn(|table| image.get(start(table)..start(table + 1)).unwrap_or(&[]));
        Tables { parts }
    }

    fn records(&self, table: usize) -> impl DoubleEndedIterator<Item = [u32; 16]> + '_ {
        let part = self.parts.get(table).copied().unwrap_or(&[]);
        let width = RECORD_WORDS.get(table).copied().unwrap_or(8);
        part.chunks_exact(width).map(widened)
    }
}

/// All records are handed on as 16 words, the missing ones 0.
fn widened(record: &[u32]) -> [u32; 16] {
    std::array::from_fn(|at| record.get(at).copied().unwrap_or(0))
}

/// The records that other records point to.
pub(super) struct Parts {
    pub conditions: Vec<Condition>,
    pub values: Vec<ValueExpr>,
    pub bounds: Vec<TimeBound>,
    pub pool: Vec<u8>,
}

impl Parts {
    fn new(tables: &Tables<'_>) -> Parts {
        let mut parts = Parts {
            conditions: Vec::new(),
            values: tables.records(VALUES).map(|r| value(&r)).collect(),
            bounds: tables.records(BOUNDS).map(|r| time_bound(&r)).collect(),
            pool: tables.records(POOL).map(|r| byte(r[0])).collect(),
        };
        parts.conditions = tables
            .records(CONDITIONS)
            .map(|r| condition(&r, &parts))
            .collect();
        parts
    }

    pub fn value(&self, index: u32) -> ValueExpr {
        let found = self.values.get(index as usize);
        found.cloned().unwrap_or(ValueExpr::Literal(0))
    }

    pub fn bound(&self, index: u32) -> TimeBound {
        let found = self.bounds.get(index as usize);
        found.copied().unwrap_or(TimeBound::Clock(ClockTime {
            hour: 0,
            minute: 0,
        }))
    }

    pub fn condition(&self, index: u32) -> Condition {
        let found = self.conditions.get(index as usize);
        found.cloned().unwrap_or(Condition::ControllerActive)
    }
}

/// The part of a table that a first record and a count name.
pub(super) fn part<T: Clone>(table: &[T], first: u32, count: u32) -> List<T> {
    let start = (first as usize).min(table.len());
    let end = start.saturating_add(count as usize).min(table.len());
    List::from(table.get(start..end).unwrap_or(&[]).to_vec())
}

fn trailer(image: &[u32]) -> [u32; TRAILER_WORDS] {
    let from = image.len().saturating_sub(TRAILER_WORDS);
    std::array::from_fn(|at| image.get(from + at).copied().unwrap_or(0))
}

/// The conditions and the values of an image, record by record.
#[must_use]
pub fn conditions_and_values(image: &[u32]) -> (Vec<Condition>, Vec<ValueExpr>) {
    let parts = Parts::new(&Tables::new(image, &trailer(image)));
    (parts.conditions, parts.values)
}

/// The loaded set and its five limits.
#[must_use]
pub fn rule_set(image: &[u32]) -> (RuleSet, Limits) {
    let trailer = trailer(image);
    let tables = Tables::new(image, &trailer);
    let parts = Parts::new(&tables);
    let records: Vec<[u32; 16]> = tables.records(ACTIONS).collect();
    let actions = actions::all(&records, &parts);
    let triggers: Vec<Trigger> = tables.records(TRIGGERS).map(|r| trigger(&r)).collect();
    let rules: Vec<Rule> = tables
        .records(RULES)
        .map(|r| rule(&r, &triggers, &parts.conditions, &actions))
        .collect();
    let blocks: Vec<DefBlock> = tables
        .records(BLOCKS)
        .map(|r| DefBlock {
            name: name(r[0]),
            actions: part(&actions, r[1], r[2]),
        })
        .collect();
    let set = RuleSet {
        rules: List::from(rules),
        blocks: List::from(blocks),
    };
    (set, limits(&trailer))
}

fn limits(trailer: &[u32; TRAILER_WORDS]) -> Limits {
    Limits {
        budget: trailer[0],
        call_depth: trailer[1],
        repeat: byte(trailer[2]),
        text_bytes: byte(trailer[3]),
        group: byte(trailer[4]),
    }
}

fn rule(
    record: &[u32; 16],
    triggers: &[Trigger],
    conditions: &[Condition],
    actions: &[Action],
) -> Rule {
    Rule {
        name: name(record[0]),
        enabled: bit(record[1]),
        hold_hcl: bit(record[2]),
        cooldown_ms: record[3],
        triggers: part(triggers, record[4], record[5]),
        conditions: part(conditions, record[6], record[7]),
        actions: part(actions, record[8], record[9]),
    }
}

fn trigger(record: &[u32; 16]) -> Trigger {
    let [kind, a, b, c, ..] = *record;
    match kind {
        0 => Trigger::TimerFires { timer: name(a) },
        1 => Trigger::Every {
            period_ms: DurationMs(a),
        },
        2 => Trigger::AtTime {
            time: clock_time(a, b),
            days: DaySet(byte(c)),
        },
        3 => Trigger::AtSolar {
            event: solar_event(a),
            offset_ms: signed(b),
        },
        // "4 any other, never due here": neither a tick nor a run meets this one.
        _ => Trigger::ControllerStarts,
    }
}
