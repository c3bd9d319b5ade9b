//! Two rules that set one light differently in one minute.

use std::collections::BTreeMap;

use crate::fault::Fault;
use crate::names::Book;
use crate::schema::{Sort, Table, AT_SOLAR, AT_TIME, EVERY, TIMER_FIRES};
use crate::spell::{span, Speller};
use crate::tree::{Record, Rule, Set};

use super::told;

const DAY: i64 = 1_440;
/// Condition `day in`.
const DAY_IN: u32 = 1;

/// When a rule starts.
#[derive(Clone, Copy, PartialEq)]
enum Start {
    Clock,
    Sun { event: u32 },
    Timer { name: u32 },
    Every { period: u32 },
}

/// A light that a rule sets whenever it runs.
struct Told<'a> {
    rule: &'a Rule,
    start: Start,
    /// The days on which it may start.
    days: u32,
    /// Minutes of the day; or from the sun's event, the timer's end or the period's.
    minute: i64,
    light: u32,
    step: &'a Record,
}

pub fn warnings(set: &Set, book: &Book) -> Vec<Fault> {
    let mut together: BTreeMap<Key, Vec<Told<'_>>> = BTreeMap::new();
    for told in set.rules.iter().filter(|rule| rule.enabled).flat_map(|rule| tells(set, rule)) {
        together.entry(key(&told)).or_default().push(told);
    }
    let mut faults = Vec::new();
    for told in together.values() {
        for (place, second) in told.iter().enumerate() {
            let clash = told[..place].iter().find(|first| first.rule.name != second.rule.name && first.step != second.step && meet(first, second));
            faults.extend(clash.map(|first| fault(first, second, book)));
        }
    }
    faults
}

/// The light, the kind of start with what it waits for, and the minute.
type Key = (u32, u32, u32, i64);

/// Only what has one key can meet.
fn key(told: &Told<'_>) -> Key {
    let (kind, name, minute) = match told.start {
        Start::Clock => (0, 0, told.minute.rem_euclid(DAY)),
        Start::Sun { event } => (1, event, told.minute),
        Start::Timer { name } => (2, name, told.minute),
        Start::Every { .. } => (3, 0, told.minute),
    };
    (told.light, kind, name, minute)
}

fn fault(first: &Told<'_>, second: &Told<'_>, book: &Book) -> Fault {
    let speller = Speller { book };
    let (a, b) = (book.name(Sort::Rule, first.rule.name), book.name(Sort::Rule, second.rule.name));
    let says = |told: &Told<'_>| speller.head(Table::Actions, told.step);
    let what = format!("{} rule `{a}` says `{}` and rule `{b}` says `{}`", when(second, book), says(first), says(second));
    let last = if first.rule.name < second.rule.name { b } else { a };
    Fault::warning(second.step.spot, what).help(format!("rules of one minute are served in the order of their names: `{last}` has the last word"))
}

fn when(told: &Told<'_>, book: &Book) -> String {
    let minute = told.minute;
    let ahead = span(minute.unsigned_abs() * 60_000);
    match told.start {
        Start::Clock => format!("at {:02}:{:02}", minute.rem_euclid(DAY) / 60, minute.rem_euclid(DAY) % 60),
        Start::Sun { event } => format!("{ahead} {} {}", if minute < 0 { "before" } else { "after" }, crate::grammar::SUN[usize::from(event != 0)]),
        Start::Timer { name } => format!("{ahead} after timer `{}` fires", book.name(Sort::Timer, name)),
        Start::Every { period } => format!("{ahead} after each {}", span(period.into())),
    }
}

/// Of two that have one key: whether both come in some minute.
fn meet(first: &Told<'_>, second: &Told<'_>) -> bool {
    let day = |told: &Told<'_>| if told.start == Start::Clock { told.minute.div_euclid(DAY).rem_euclid(7) as u32 } else { 0 };
    let turned = |told: &Told<'_>| (told.days << day(told) | told.days >> (7 - day(told))) & 127;
    if let (Start::Every { period: a }, Start::Every { period: b }) = (first.start, second.start) {
        if !are_in_step(a, b) {
            return false;
        }
    }
    turned(first) & turned(second) != 0 && may_both_run(first.rule, second.rule)
}

/// Periods begin together, so that the shorter meets each of the longer that is a multiple of it.
fn are_in_step(a: u32, b: u32) -> bool {
    let (short, long) = (a.min(b), a.max(b));
    short > 0 && long % short == 0
}

/// Conditions may part two rules, but not where only one has any, or both have the same; `day in` is counted with the days.
fn may_both_run(first: &Rule, second: &Rule) -> bool {
    let open = |rule: &Rule| -> Vec<Record> { rule.conditions.iter().filter(|condition| condition.kind != DAY_IN).cloned().collect() };
    let (a, b) = (open(first), open(second));
    a.is_empty() || b.is_empty() || a == b
}

fn tells<'a>(set: &'a Set, rule: &'a Rule) -> Vec<Told<'a>> {
    let told = told::of(set, rule);
    let of_rule = rule.conditions.iter().filter(|condition| condition.kind == DAY_IN).fold(127, |days, condition| days & condition.word(0));
    let mut found = Vec::new();
    for trigger in &rule.triggers {
        let (start, days, minute) = match trigger.kind {
            AT_TIME => (Start::Clock, trigger.word(2), i64::from(trigger.word(0) * 60 + trigger.word(1))),
            AT_SOLAR => (Start::Sun { event: trigger.word(0) }, 127, i64::from(trigger.word(1) as i32 / 60_000)),
            TIMER_FIRES => (Start::Timer { name: trigger.word(0) }, 127, 0),
            EVERY => (Start::Every { period: trigger.word(0) }, 127, 0),
            _ => continue,
        };
        // Of several words in one minute the last counts.
        let mut last: BTreeMap<(i64, u32), &Record> = BTreeMap::new();
        for told in told.iter().filter(|told| told.always) {
            if let Some(ms) = told.ms {
                last.insert((minute + (ms / 60_000) as i64, told.step.word(0)), told.step);
            }
        }
        let days = days & of_rule;
        found.extend(last.into_iter().map(|((minute, light), step)| Told { rule, start, days, minute, light, step }));
    }
    found
}
