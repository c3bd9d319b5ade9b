//! Warnings: what loads, and then silently loses light.

mod clash;
mod told;
mod unfold;

use std::collections::BTreeSet;

use crate::fault::{nearest, Fault};
use crate::light;
use crate::names::Book;
use crate::parse::File;
use crate::schema::{self, Sort, Table, AT_TIME, EVERY, LIGHT, PERCENT, READING_VAR, TIMER_FIRES};
use crate::spell::{span, Speller};
use crate::tree::{Record, Rule, Set, Spot};

/// The warnings of a file, in the order of its lines.
pub fn warnings(file: &File) -> Vec<Fault> {
    let mut lint = Lint { set: &file.set, book: &file.book, faults: Vec::new() };
    lint.rules();
    lint.triggers();
    lint.conditions();
    lint.timers();
    lint.variables();
    lint.lights();
    lint.names(file);
    lint.faults.extend(unfold::warnings(&file.set, &file.book));
    lint.faults.extend(clash::warnings(&file.set, &file.book));
    let mut seen = BTreeSet::new();
    lint.faults.retain(|fault| seen.insert((fault.spot.line, fault.spot.column, fault.what.clone())));
    lint.faults.sort_by_key(|fault| (fault.spot.line, fault.spot.column));
    lint.faults
}

struct Lint<'a> {
    set: &'a Set,
    book: &'a Book,
    faults: Vec<Fault>,
}

impl<'a> Lint<'a> {
    fn warn(&mut self, spot: Spot, what: String, help: &str) {
        self.faults.push(Fault::warning(spot, what).help(help));
    }

    fn name(&self, sort: Sort, number: u32) -> String {
        self.book.name(sort, number)
    }

    /// Every record of a kind of a table.
    fn records(&self, table: Table, wanted: impl Fn(u32) -> bool) -> Vec<&'a Record> {
        let mut found = Vec::new();
        self.set.each(|at, record| {
            if at == table && wanted(record.kind) {
                found.push(record);
            }
        });
        found
    }

    // RULES ---------------------------------------------------------------------------------------------------------------------------------

    fn rules(&mut self) {
        let set = self.set;
        for step in self.records(Table::Actions, |kind| matches!(kind, schema::RULE_ENABLE | schema::RULE_DISABLE)) {
            if set.rule(step.word(0)).is_none() {
                let what = format!("no rule `{}` in this set: this step fails each time (reason 1)", self.name(Sort::Rule, step.word(0)));
                self.warn(step.spot, what, "");
            }
        }
        for condition in self.records(Table::Conditions, |kind| matches!(kind, 11 | 12)) {
            if set.rule(condition.word(0)).is_none() {
                let answer = if condition.kind == 11 { "no" } else { "yes" };
                let what = format!("no rule `{}` in this set: this condition always says {answer}", self.name(Sort::Rule, condition.word(0)));
                self.warn(condition.spot, what, "");
            }
        }
        for rule in &set.rules {
            if rule.steps.is_empty() {
                self.warn(rule.spot, format!("rule `{}` has no steps: it does nothing", self.name(Sort::Rule, rule.name)), "");
            }
            self.second_press(rule);
        }
        for (place, block) in set.blocks.iter().enumerate() {
            if set.blocks[..place].iter().any(|other| other.name == block.name) {
                let what = format!("a second block `{}`: calls take the first", self.name(Sort::Block, block.name));
                self.warn(block.spot, what, "");
            }
        }
    }

    /// A rule that is run by hand and tells a light something later: in an after, or behind a wait where it goes dark.
    fn second_press(&mut self, rule: &Rule) {
        if !rule.triggers.is_empty() {
            return;
        }
        let told = told::of(self.set, rule);
        let at_once: BTreeSet<u32> = told.iter().filter(|told| told.after.is_none() && told.wait.is_none()).map(|told| told.step.word(0)).collect();
        for later in told.iter().filter(|told| at_once.contains(&told.step.word(0))) {
            let dark = bright(later.step, self.book) == Some(0);
            let Some(holder) = later.after.or(later.wait.filter(|_| dark)) else { continue };
            let ahead = span(later.ms.unwrap_or(holder.word(0).into()));
            let light = self.name(Sort::Light, later.step.word(0));
            let what = format!("a second press does not prolong this: light `{light}` is still told {ahead} after the first");
            let help = format!("`timer restart NAME {ahead}` here, and a rule `when timer NAME fires`, count from the last press");
            self.warn(holder.spot, what, &help);
        }
    }

    // TRIGGERS AND CONDITIONS -----------------------------------------------------------------------------------------------------------------

    fn triggers(&mut self) {
        for trigger in self.records(Table::Triggers, |_| true) {
            match trigger.kind {
                AT_TIME if trigger.word(2) == 0 => self.warn(trigger.spot, "on no day: this trigger is never due".to_string(), ""),
                EVERY if trigger.word(0) == 0 => {
                    let what = "every 0 s is due in every tick, and its deadline is always past".to_string();
                    self.warn(trigger.spot, what, "a host that sleeps until the next deadline never sleeps");
                }
                4 => self.warn(trigger.spot, "this trigger is never due in this engine".to_string(), ""),
                _ => {}
            }
        }
    }

    fn conditions(&mut self) {
        for condition in self.records(Table::Conditions, |kind| kind == 1) {
            if condition.word(0) == 0 {
                self.warn(condition.spot, "on no day: this condition always says no".to_string(), "");
            }
        }
        let speller = Speller { book: self.book };
        for value in self.records(Table::Values, |kind| kind != 0) {
            if (19..=22).contains(&value.word(0)) {
                let what = format!("`{}` cannot be told: ticks and runs carry no event (reason 1)", speller.value(value));
                self.faults.push(Fault::warning(value.spot, what));
            }
        }
    }

    // TIMERS AND VARIABLES --------------------------------------------------------------------------------------------------------------------

    fn timers(&mut self) {
        let started = self.records(Table::Actions, |kind| matches!(kind, schema::TIMER_START | schema::TIMER_RESTART));
        let cancelled = self.records(Table::Actions, |kind| kind == schema::TIMER_CANCEL);
        let fires = self.records(Table::Triggers, |kind| kind == TIMER_FIRES);
        let asked = self.records(Table::Conditions, |kind| kind == 13);
        let names = |records: &[&Record]| -> BTreeSet<u32> { records.iter().map(|record| record.word(0)).collect() };
        let (runs, awaited) = (names(&started), names(&fires));
        for step in &started {
            if !awaited.contains(&step.word(0)) && !names(&asked).contains(&step.word(0)) {
                let name = self.name(Sort::Timer, step.word(0));
                let help = self.near(Sort::Timer, &name, &awaited, "no rule has `when timer .. fires` for it");
                self.warn(step.spot, format!("nobody awaits timer `{name}`"), &help);
            }
        }
        for record in fires.iter().chain(&asked).chain(&cancelled) {
            if !runs.contains(&record.word(0)) {
                let name = self.name(Sort::Timer, record.word(0));
                let help = self.near(Sort::Timer, &name, &runs, "no step has `timer start` or `timer restart` for it");
                self.warn(record.spot, format!("nobody starts timer `{name}`"), &help);
            }
        }
    }

    fn near(&self, sort: Sort, name: &str, others: &BTreeSet<u32>, otherwise: &str) -> String {
        let names: Vec<String> = others.iter().map(|number| self.name(sort, *number)).collect();
        match nearest(name, names.iter().map(String::as_str)) {
            Some(near) => format!("is `{near}` meant?"),
            None => otherwise.to_string(),
        }
    }

    fn variables(&mut self) {
        let set_here = self.records(Table::Actions, |kind| matches!(kind, schema::VAR_SET | schema::VAR_ADD));
        let known: BTreeSet<u32> = set_here.iter().map(|step| step.word(0)).collect();
        for step in &set_here {
            let is_long = step.kind == schema::VAR_SET && step.word(1) == 1 && step.word(3) > self.set.limits.text;
            if is_long {
                let what = format!("a text of {} bytes, and the text limit is {}: this step fails each time", step.word(3), self.set.limits.text);
                self.warn(step.spot, what, "");
            }
        }
        let readers = self.records(Table::Values, |kind| kind != 0).into_iter().filter(|value| value.word(0) == READING_VAR);
        let mut asked: Vec<(u32, Spot)> = readers.map(|value| (value.word(1), value.spot)).collect();
        asked.extend(self.records(Table::Conditions, |kind| kind == 15).iter().map(|condition| (condition.word(0), condition.spot)));
        for (variable, spot) in asked {
            if !known.contains(&variable) {
                let name = self.name(Sort::Var, variable);
                let help = self.near(Sort::Var, &name, &known, "no step sets it: it has no value");
                self.warn(spot, format!("nobody sets variable `{name}`"), &help);
            }
        }
    }

    // LIGHTS --------------------------------------------------------------------------------------------------------------------------------

    fn lights(&mut self) {
        let steps = self.records(Table::Actions, |kind| matches!(kind, LIGHT | PERCENT));
        let (mut lit, mut dark) = (Vec::<&Record>::new(), BTreeSet::new());
        for step in steps {
            match bright(step, self.book) {
                Some(0) => {
                    dark.insert(step.word(0));
                }
                Some(_) => lit.push(step),
                // A value may be 0.
                None if step.kind == PERCENT => {
                    dark.insert(step.word(0));
                }
                None => {}
            }
            let ppm = step.one(2).and_then(Record::literal).filter(|_| step.kind == PERCENT);
            if ppm.is_some_and(|ppm| ppm != 0 && !(1_000..=1_000_000).contains(&ppm)) {
                self.warn(step.spot, "this value has no level on the bus: the step fails each time".to_string(), "0, or 1000 to 1000000");
            }
        }
        let mut told = BTreeSet::new();
        for step in lit {
            if !dark.contains(&step.word(0)) && told.insert(step.word(0)) {
                let what = format!("light `{}` is switched on, and no rule switches it off", self.name(Sort::Light, step.word(0)));
                self.warn(step.spot, what, "a verb is off if it is declared with `0 %` or named `off`");
            }
        }
    }

    fn names(&mut self, file: &File) {
        for sort in Sort::ALL.into_iter().filter(|sort| sort.is_ordered()) {
            if let Some((first, second)) = self.book.disorder(sort) {
                let def = file.defs.iter().find(|def| def.sort == sort && def.name == second);
                let what = format!("{0}s `{first}` and `{second}`: their numbers are not in the order of their names", sort.word());
                let help = "rules and timers that are due together are served by number; document 01 wants the byte order of the names";
                self.warn(def.map_or(Spot::default(), |def| def.spot), what, help);
            }
        }
    }
}

/// The light that a step sets, if it is known now.
pub fn bright(step: &Record, book: &Book) -> Option<u32> {
    match step.kind {
        LIGHT if step.word(2) == 0 => Some(light::of_verb(book, step.word(3))),
        PERCENT => step.one(2)?.literal().and_then(|ppm| u32::try_from(ppm).ok()),
        _ => None,
    }
}
