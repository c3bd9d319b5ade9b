//! The text of every trigger, condition, step and reading, as one table: the parser, the speller, the messages and the tests of docs/RULES.md
//! go by it. `{2:verb}` is field 2 of the record, written as a verb; `set` gives the fields that the form fixes and does not show.

use std::sync::OnceLock;

use crate::schema::Table;

pub struct Form {
    pub kind: u32,
    pub set: &'static [(usize, u32)],
    pub text: &'static str,
}

#[derive(Clone, Debug, PartialEq)]
pub enum Item {
    /// A word or a sign as it stands.
    Plain(&'static str),
    /// One of several phrases: its number is the field.
    Choice(usize, Vec<Vec<&'static str>>),
    /// A field, written as this name says (`items`).
    Field(usize, &'static str),
}

pub struct Read {
    pub kind: u32,
    pub set: &'static [(usize, u32)],
    pub items: Vec<Item>,
    pub text: &'static str,
}

const fn form(kind: u32, text: &'static str) -> Form {
    Form { kind, set: &[], text }
}

const fn fixed(kind: u32, set: &'static [(usize, u32)], text: &'static str) -> Form {
    Form { kind, set, text }
}

pub static TRIGGERS: &[Form] = &[
    form(0, "when timer {0:timer} fires"),
    form(1, "every {0:span}"),
    form(3, "at {0:sun}"),
    form(2, "at {0:clock} {2:ondays}"),
    form(4, "other trigger"),
];

pub static CONDITIONS: &[Form] = &[
    form(0, "time {0:bound} .. {1:bound}"),
    form(1, "day in {0:days}"),
    form(2, "sun is {0:down|up}"),
    form(3, "lamp {0:lamp} is {2:off|on}"),
    form(4, "lamp {0:lamp} level {2:cmp} {3:value}"),
    form(5, "lamp {0:lamp} cct {2:cmp} {3:value}"),
    form(6, "group {0:group} {2:any on|all off}"),
    form(7, "input {0:input} {3:empty|occupied}"),
    form(8, "input {0:input} light {3:below|above} {4:value}"),
    form(9, "hcl {0:light} {1:enabled|overridden}"),
    form(10, "device {0:device} online"),
    form(11, "rule {0:rule} enabled"),
    form(12, "rule {0:rule} last fired older than {1:span}"),
    form(13, "timer {0:timer} running"),
    form(14, "controller active"),
    fixed(15, &[(2, 1)], "var {0:var} {1:cmp} text {3:text}"),
    fixed(15, &[(2, 0)], "var {0:var} {1:cmp} {3:value}"),
];

pub static STEPS: &[Form] = &[
    fixed(0, &[(2, 1), (3, 0)], "light {0:light} nothing {1:hold}"),
    fixed(0, &[(2, 2), (3, 0)], "light {0:light} unevaluable {1:hold}"),
    form(28, "light {0:light} {2:percent} {1:hold}"),
    form(28, "light {0:light} ppm {2:value} {1:hold}"),
    fixed(0, &[(2, 0)], "light {0:light} {3:verb} {1:hold}"),
    fixed(1, &[(0, 1), (1, 0), (2, 1)], "recall unevaluable on {3:light}"),
    fixed(1, &[(0, 1), (1, 0), (2, 0), (3, 0)], "recall unevaluable"),
    fixed(1, &[(0, 0), (2, 1)], "recall {1:scene} on {3:light}"),
    fixed(1, &[(0, 0), (2, 0), (3, 0)], "recall {1:scene}"),
    fixed(2, &[(0, 1), (1, 0)], "apply unevaluable"),
    fixed(2, &[(0, 0)], "apply {1:scene}"),
    form(3, "cycle {0:scenes}"),
    form(4, "hcl resume {0:light}"),
    form(5, "hcl hold {0:light}"),
    form(6, "hcl enable {0:schedule}"),
    form(7, "hcl disable {0:schedule}"),
    form(8, "feedback on {0:input}"),
    form(9, "feedback off {0:input}"),
    form(10, "panel {0:panel} select {2:value}"),
    form(11, "cancel hold {0:input}"),
    form(12, "catch movement {0:input}"),
    form(13, "timer start {0:timer} {1:span}"),
    form(14, "timer restart {0:timer} {1:span}"),
    form(15, "timer cancel {0:timer}"),
    fixed(16, &[(1, 1)], "set {0:var} = text {2:text} {3:bytes}"),
    fixed(16, &[(1, 0)], "set {0:var} = {2:integer}"),
    form(17, "add {0:var} {1:value}"),
    form(18, "rule enable {0:rule}"),
    form(19, "rule disable {0:rule}"),
    form(20, "publish {0:topic} {1:text} {2:retain}"),
    form(21, "log {0:text}"),
    form(22, "count {0:counter}"),
    form(23, "wait {0:span}"),
    form(24, "after {0:span} {1:body}"),
    form(25, "call {0:block}"),
    form(26, "repeat {0:times} {1:body}"),
    form(27, "when {0:condition} {1:body} {3:else}"),
];

/// By reading code; the fields are the three reference words.
pub static READINGS: &[Form] = &[
    form(0, "lamp {0:lamp} level"),
    form(1, "lamp {0:lamp} cct"),
    form(2, "lamp {0:lamp} on"),
    form(3, "lamp {0:lamp} last level"),
    form(4, "group {0:group} any on"),
    form(5, "group {0:group} all off"),
    form(6, "group {0:group} members"),
    form(7, "input {0:input} occupied"),
    form(8, "input {0:input} light"),
    form(9, "input {0:input} position"),
    form(10, "input {0:input} age"),
    form(11, "time now"),
    form(12, "time hour"),
    form(13, "time minute"),
    form(14, "time weekday"),
    form(15, "sunrise"),
    form(16, "sunset"),
    form(17, "sun up"),
    form(18, "var {0:var}"),
    form(19, "event value"),
    form(20, "event device"),
    form(21, "event instance"),
    form(22, "event option"),
];

pub const COMPARISONS: [&str; 6] = ["=", "!=", ">=", "<=", ">", "<"];
pub const DAYS: [&str; 7] = ["monday", "tuesday", "wednesday", "thursday", "friday", "saturday", "sunday"];
pub const SUN: [&str; 2] = ["sunrise", "sunset"];
/// Unit and milliseconds, the largest first.
pub const UNITS: [(&str, u64); 4] = [("h", 3_600_000), ("min", 60_000), ("s", 1_000), ("ms", 1)];
/// Words that stand where a name may stand, so that no name may be one of them.
pub const RESERVED: [&str; 8] = ["nothing", "unevaluable", "ppm", "hold", "no", "text", "end", "else"];

fn items(text: &'static str) -> Vec<Item> {
    let mut items = Vec::new();
    let mut rest = text;
    while !rest.is_empty() {
        if let Some(inner) = rest.strip_prefix('{') {
            let (field, after) = inner.split_once('}').unwrap_or((inner, ""));
            let (place, name) = field.split_once(':').unwrap_or(("0", field));
            let place = place.parse().unwrap_or(0);
            items.push(match name.contains('|') {
                true => Item::Choice(place, name.split('|').map(|words| words.split(' ').collect()).collect()),
                false => Item::Field(place, name),
            });
            rest = after.trim_start();
        } else {
            let (word, after) = rest.split_once(' ').unwrap_or((rest, ""));
            items.push(Item::Plain(word));
            rest = after;
        }
    }
    items
}

fn read(forms: &'static [Form]) -> Vec<Read> {
    forms.iter().map(|form| Read { kind: form.kind, set: form.set, items: items(form.text), text: form.text }).collect()
}

/// The forms of a table; of values the readings.
pub fn forms(table: Table) -> &'static [Read] {
    static ALL: OnceLock<[Vec<Read>; 4]> = OnceLock::new();
    let all = ALL.get_or_init(|| [read(TRIGGERS), read(CONDITIONS), read(STEPS), read(READINGS)]);
    &all[match table {
        Table::Triggers => 0,
        Table::Conditions => 1,
        Table::Actions => 2,
        _ => 3,
    }]
}

#[cfg(test)]
mod tests {
    use super::{forms, Item};
    use crate::schema::{kinds, Class, Table};

    #[test]
    fn every_kind_has_a_form_and_every_form_a_kind() {
        for table in [Table::Triggers, Table::Conditions, Table::Actions] {
            let (kinds, _) = kinds(table);
            for kind in 0..kinds.len() as u32 {
                assert!(forms(table).iter().any(|form| form.kind == kind), "{} {kind}", table.name());
            }
            assert!(forms(table).iter().all(|form| (form.kind as usize) < kinds.len()));
        }
        let readings: Vec<u32> = forms(Table::Values).iter().map(|form| form.kind).collect();
        assert_eq!(readings, (0..=22).collect::<Vec<_>>());
    }

    /// How many fields an item fills.
    fn filled(name: &str) -> usize {
        match name {
            "lamp" | "group" | "device" | "panel" | "clock" | "sun" | "integer" | "body" | "else" | "scenes" => 2,
            "input" => 3,
            _ => 1,
        }
    }

    #[test]
    fn every_field_is_written_once() {
        for table in [Table::Triggers, Table::Conditions, Table::Actions] {
            let (kinds, _) = kinds(table);
            for form in forms(table) {
                let fields = kinds[form.kind as usize].fields;
                let mut seen = vec![0; fields.len()];
                for item in &form.items {
                    match item {
                        Item::Field(place, name) => (0..filled(name)).for_each(|more| seen[place + more] += 1),
                        Item::Choice(place, _) => seen[*place] += 1,
                        Item::Plain(_) => {}
                    }
                }
                form.set.iter().for_each(|(place, _)| seen[*place] += 1);
                assert!(seen.iter().all(|times| *times == 1), "{}: {seen:?}", form.text);
                assert!(fields.iter().all(|field| field.class != Class::Reference(0)));
            }
        }
    }
}
