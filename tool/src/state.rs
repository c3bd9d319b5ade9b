//! What a store holds, in words: for `show` and `watch`.

use std::fmt::Write as _;

use cerambiu::NextStart;

use crate::flat::{self, Flat, BRANCH, PRIMITIVE, PUTS_OFF, WAITS};
use crate::grammar::DAYS;
use crate::image::{self, Tables};
use crate::names::Book;
use crate::schema::{Sort, Table, AT_SOLAR};
use crate::spell::{span, Speller};
use crate::store::{Pending, State, COUNTER_NAMES};
use crate::tree::pair;

/// Why a rule ran, as an outcome tells it.
pub const TRIGGERS: [&str; 5] = ["by hand", "timer", "every", "at time", "at sun"];

/// A time of the store as what lies between it and the last time.
pub fn from_now(due: u64, last: u64) -> String {
    match due.cmp(&last) {
        std::cmp::Ordering::Equal => "now".to_string(),
        std::cmp::Ordering::Less => format!("{} ago", span(last - due)),
        std::cmp::Ordering::Greater => format!("in {}", span(due - last)),
    }
}

pub struct Teller<'a> {
    state: &'a State<'a>,
    book: &'a Book,
    tables: Option<Tables<'a>>,
    flat: Option<Flat>,
}

impl<'a> Teller<'a> {
    pub fn new(state: &'a State<'a>, book: &'a Book) -> Teller<'a> {
        let tables = state.image().and_then(Tables::of);
        let flat = tables.as_ref().map(flat::flatten);
        Teller { state, book, tables, flat }
    }

    fn rules(&self) -> Vec<u32> {
        let count = self.tables.map_or(0, |tables| tables.count(Table::Rules));
        (0..count).filter_map(|index| Some(self.tables?.record(Table::Rules, index)?[0])).collect()
    }

    /// Last time, previous week minute, rules.
    pub fn rules_text(&self) -> String {
        let mut text = String::new();
        let last = self.state.last();
        let _ = writeln!(text, "last time: {last} ms");
        let minute = self.state.week_minute().map(|minute| week_minute(minute, self.book.monday));
        let _ = writeln!(text, "last minute of the clock: {}", minute.unwrap_or("none".to_string()));
        if self.tables.is_none() {
            text.push_str("no rules are loaded\n");
        }
        for (index, rule) in self.rules().into_iter().enumerate() {
            let is_on = if self.state.bit(index) { "on" } else { "off" };
            let fired = match self.state.activation(index) {
                Some(time) => format!("last ran {}", from_now(time, last)),
                None => "never ran".to_string(),
            };
            let cycle = self.state.position(index).map_or(String::new(), |place| format!(", next scene of its cycle: {}", place + 1));
            let _ = writeln!(text, "rule {}: {is_on}, {fired}{cycle}", self.book.name(Sort::Rule, rule));
        }
        text
    }

    pub fn waits_text(&self) -> String {
        let mut text = String::new();
        let last = self.state.last();
        let mut held: Vec<Pending> = self.state.pending().collect();
        held.sort_by_key(|held| (held.due, held.sequence));
        for held in &held {
            let _ = writeln!(
                text,
                "waits: rule {} ({}, activation {}), {} (at {} ms), then: {}; budget left {}",
                self.book.name(Sort::Rule, held.rule),
                TRIGGERS.get(held.trigger as usize).unwrap_or(&"?"),
                held.number,
                from_now(held.due, last),
                held.due,
                self.next_steps(held),
                held.budget
            );
        }
        if held.is_empty() {
            text.push_str("nothing waits\n");
        }
        for (timer, due) in self.state.timers() {
            let _ = writeln!(text, "timer {}: fires {} (at {due} ms)", self.book.name(Sort::Timer, timer), from_now(due, last));
        }
        for (rule, place, period, due) in self.state.slots() {
            let name = self.book.name(Sort::Rule, rule);
            let _ = writeln!(text, "rule {name}, trigger {}, every {}: {} (at {due} ms)", place + 1, span(u64::from(period)), from_now(due, last));
        }
        text
    }

    pub fn variables_text(&self) -> String {
        let mut text = String::new();
        for (name, is_text, value) in self.state.variables() {
            let value = match is_text {
                true => format!("text {}", self.book.name(Sort::Text, value as u32)),
                false => (value as i64).to_string(),
            };
            let _ = writeln!(text, "variable {} = {value}", self.book.name(Sort::Var, name));
        }
        text
    }

    pub fn counters_text(&self) -> String {
        let counted = COUNTER_NAMES.iter().zip(self.state.counters()).filter(|(_, count)| **count > 0);
        let list: Vec<String> = counted.map(|(name, count)| format!("{name} {count}")).collect();
        match list.is_empty() {
            true => "counters: all 0\n".to_string(),
            false => format!("counters: {}\n", list.join(", ")),
        }
    }

    /// The step that comes next, and how many are behind it.
    fn next_steps(&self, held: &Pending) -> String {
        let rule = self.rules().iter().position(|name| *name == held.rule);
        let list = rule.and_then(|rule| self.flat.as_ref()?.rules.get(rule)?.named(held.list));
        let Some(list) = list else { return "?".to_string() };
        let place = held.jump.filter(|(at, _)| *at == held.place).map_or(held.place, |(_, to)| to) as usize;
        let Some(step) = list.get(place) else { return "nothing more".to_string() };
        let behind = list.len() - place - 1;
        let more = if behind == 0 { String::new() } else { format!(" and up to {behind} more") };
        format!("`{}`{more}", self.step(step))
    }

    fn step(&self, step: &flat::Step) -> String {
        let speller = Speller { book: self.book };
        let record = |table| image::record(self.tables.as_ref()?, table, step[1]);
        match step[0] {
            PRIMITIVE => record(Table::Actions).map_or("?".to_string(), |action| speller.head(Table::Actions, &action)),
            WAITS => format!("wait {}", span(u64::from(step[1]))),
            BRANCH => record(Table::Conditions).map_or("?".to_string(), |condition| format!("when {}", speller.head(Table::Conditions, &condition))),
            PUTS_OFF => format!("after {}", span(u64::from(step[1]))),
            _ => "a step that fails".to_string(),
        }
    }

    /// What starts next by the clock, from the last minute on: the proved function's answer. `sun`: the minutes of sunrise and sunset.
    pub fn next_start(&self, sun: Option<(u32, u32)>) -> String {
        let Some(now) = self.state.week_minute() else {
            return "next start by the clock: the clock is not known\n".to_string();
        };
        let text = match cerambiu::next_start(self.state.words(), &self.snapshot(now, sun)) {
            Ok(NextStart::Start { minutes, rule }) => {
                let at = week_minute((now + minutes) % WEEK, self.book.monday);
                let ahead = span(u64::from(minutes) * 60_000);
                format!("next start by the clock: rule {}, {at}, in {ahead}\n", self.book.name(Sort::Rule, rule))
            }
            Ok(_) => "next start by the clock: none, no rule that is on has a trigger for it\n".to_string(),
            Err(refused) => format!("next start by the clock: refused with {}\n", refused.0),
        };
        match sun.is_none() && self.asks_sun() {
            true => text + "  (rules by the sun are left out: --sun HH:MM-HH:MM gives its times)\n",
            false => text,
        }
    }

    /// The world at the last tick: its time and its minute, and no rows.
    fn snapshot(&self, now: u32, sun: Option<(u32, u32)>) -> [u32; 14] {
        let [low, high] = pair(self.state.last());
        let (mark, rise, set) = sun.map_or((0, 0, 0), |(rise, set)| (1, rise, set));
        [low, high, 1, now / 1_440, now % 1_440, mark, rise, set, 1, 0, 0, 0, 0, 0]
    }

    /// Whether a rule that is on has a trigger by the sun.
    fn asks_sun(&self) -> bool {
        let Some(tables) = self.tables else { return false };
        let mut on = (0..tables.count(Table::Rules)).filter(|rule| self.state.bit(*rule)).filter_map(|rule| tables.record(Table::Rules, rule));
        on.any(|rule| {
            let list = rule[4]..rule[4].saturating_add(rule[5]);
            list.into_iter().any(|at| tables.record(Table::Triggers, at as usize).is_some_and(|trigger| trigger[0] == AT_SOLAR))
        })
    }
}

const WEEK: u32 = 10_080;

/// `tuesday 05:00`.
pub fn week_minute(minute: u32, monday: u32) -> String {
    let day = (minute / 1_440 + 7 - monday % 7) % 7;
    format!("{} {:02}:{:02}", DAYS[day as usize], minute % 1_440 / 60, minute % 60)
}
