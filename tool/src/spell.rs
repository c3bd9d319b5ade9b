//! Trees in words: the text form of a set, and single triggers, conditions and steps for messages.

use std::collections::BTreeSet;
use std::fmt::Write as _;

use crate::grammar::{forms, Item, COMPARISONS, DAYS, SUN, UNITS};
use crate::names::Book;
use crate::parse::resolve::name_sort;
use crate::schema::{Sort, Table};
use crate::tree::{wide, Part, Record, Set, LIMITS};

/// `1 h 30 min`.
pub fn span(ms: u64) -> String {
    let mut left = ms;
    let mut parts = Vec::new();
    for (unit, size) in UNITS {
        if left >= size {
            parts.push(format!("{} {unit}", left / size));
            left %= size;
        }
    }
    if parts.is_empty() {
        parts.push("0 s".to_string());
    }
    parts.join(" ")
}

/// Parts per million as a percentage: `12.5 %`.
pub fn percent(ppm: u64) -> String {
    let text = format!("{}.{:04}", ppm / 10_000, ppm % 10_000);
    let text = text.trim_end_matches('0').trim_end_matches('.');
    format!("{text} %")
}

fn sun(event: u32, offset: u32) -> String {
    let event = SUN[usize::from(event != 0)];
    match offset as i32 {
        0 => event.to_string(),
        offset if offset < 0 => format!("{event} - {}", span(u64::from(offset.unsigned_abs()))),
        offset => format!("{event} + {}", span(u64::from(offset.unsigned_abs()))),
    }
}

/// Day bits in words; the days stand in the week's order.
pub fn days(bits: u32, monday: u32) -> String {
    let has = |day: u32| bits >> ((day + monday) % 7) & 1 == 1;
    match bits & 127 {
        127 => return "every day".to_string(),
        0 => return "no day".to_string(),
        _ => {}
    }
    let mut parts = Vec::new();
    let mut day = 0;
    while day < 7 {
        let length = (day..7).take_while(|day| has(*day)).count() as u32;
        match length {
            0 => day += 1,
            1 | 2 => (0..length).for_each(|more| parts.push(DAYS[(day + more) as usize].to_string())),
            _ => parts.push(format!("{} to {}", DAYS[day as usize], DAYS[(day + length - 1) as usize])),
        }
        day += length;
    }
    parts.join(", ")
}

pub struct Speller<'a> {
    pub book: &'a Book,
}

impl Speller<'_> {
    /// A record on one line, without what is nested in it.
    pub fn head(&self, table: Table, record: &Record) -> String {
        let form = forms(table).iter().filter(|form| form.kind == record.kind).find(|form| {
            form.set.iter().all(|(place, word)| record.word(*place) == *word) && self.fits(&form.items, record)
        });
        let Some(form) = form else { return format!("kind {}", record.kind) };
        let mut words = Vec::new();
        for item in &form.items {
            match item {
                Item::Plain(word) => words.push(word.to_string()),
                Item::Choice(place, phrases) => {
                    let phrase = phrases.get(record.word(*place) as usize);
                    words.push(phrase.map_or("?".to_string(), |phrase| phrase.join(" ")));
                }
                Item::Field(place, name) => words.push(self.field(table, record, *place, name)),
            }
        }
        words.retain(|word| !word.is_empty());
        words.join(" ")
    }

    /// Whether a form can say the record: only a light that has a level is written in percent.
    fn fits(&self, items: &[Item], record: &Record) -> bool {
        items.iter().all(|item| match item {
            Item::Field(place, "percent") => {
                let ppm = record.one(*place).and_then(Record::literal);
                ppm.is_some_and(|ppm| ppm == 0 || (1_000..=1_000_000).contains(&ppm))
            }
            _ => true,
        })
    }

    fn field(&self, table: Table, record: &Record, place: usize, name: &str) -> String {
        let word = record.word(place);
        if let Some(sort) = Sort::of_word(name) {
            return self.book.name(sort, word);
        }
        match name {
            "span" => span(u64::from(word)),
            "sun" => sun(word, record.word(place + 1)),
            "clock" => format!("{word:02}:{:02}", record.word(place + 1)),
            "ondays" if word == 127 => "every day".to_string(),
            "ondays" => format!("on {}", days(word, self.book.monday)),
            "days" => days(word, self.book.monday),
            "lamp" | "group" | "device" | "panel" => format!("{word}/{}", record.word(place + 1)),
            "input" => format!("{word}/{}/{}", record.word(place + 1), record.word(place + 2)),
            "cmp" => COMPARISONS.get(word as usize).copied().unwrap_or("?").to_string(),
            "hold" => ["no hold", "hold", ""].get(word as usize).copied().unwrap_or("?").to_string(),
            "retain" => if word == 1 { "retain" } else { "" }.to_string(),
            "bytes" => self.bytes(record, place),
            "scene" => word.to_string(),
            "times" => format!("{word} times"),
            "integer" => (wide(word, record.word(place + 1)) as i64).to_string(),
            "scenes" => self.scenes(record, place),
            "value" => record.one(place).map_or("?".to_string(), |value| self.value(value)),
            "percent" => percent(record.one(place).and_then(Record::literal).unwrap_or(0) as u64),
            "bound" => record.one(place).map_or("?".to_string(), |bound| self.bound(bound)),
            "condition" => record.one(place).map_or("?".to_string(), |inner| self.head(Table::Conditions, inner)),
            _ => {
                let _ = table;
                String::new()
            }
        }
    }

    /// The length of a text, where it is not that of its words.
    fn bytes(&self, record: &Record, place: usize) -> String {
        let words = self.book.entry(Sort::Text, record.word(place - 1)).and_then(|(_, entry)| entry.words.as_ref());
        let length = record.word(place);
        match words {
            Some(words) if words.len() == length as usize => String::new(),
            _ => format!("{length} bytes"),
        }
    }

    fn scenes(&self, record: &Record, place: usize) -> String {
        match record.parts.get(place) {
            Some(Part::Scenes(scenes)) if !scenes.is_empty() => {
                scenes.iter().map(u32::to_string).collect::<Vec<_>>().join(", ")
            }
            _ => "nothing".to_string(),
        }
    }

    fn bound(&self, bound: &Record) -> String {
        match bound.kind {
            0 => format!("{:02}:{:02}", bound.word(0), bound.word(1)),
            _ => sun(bound.word(0), bound.word(1)),
        }
    }

    pub fn value(&self, value: &Record) -> String {
        if let Some(number) = value.literal() {
            return number.to_string();
        }
        let reading = Record::new(value.word(0), &[value.word(1), value.word(2), value.word(3)]);
        let reading = self.head(Table::Values, &reading);
        match (value.kind, value.word(4) as i32) {
            (1, _) => reading,
            (_, delta) if delta < 0 => format!("{reading} - {}", delta.unsigned_abs()),
            (_, delta) => format!("{reading} + {delta}"),
        }
    }

    // LISTS ---------------------------------------------------------------------------------------------------------------------------------

    pub fn steps(&self, steps: &[Record], depth: usize, text: &mut String) {
        let indent = "    ".repeat(depth.min(32));
        for step in steps {
            let _ = writeln!(text, "{indent}{}", self.head(Table::Actions, step));
            if step.lists().next().is_none() {
                continue;
            }
            self.steps(step.list(1), depth + 1, text);
            if !step.list(3).is_empty() {
                let _ = writeln!(text, "{indent}else");
                self.steps(step.list(3), depth + 1, text);
            }
            let _ = writeln!(text, "{indent}end");
        }
    }
}

/// The numbers of each sort that a set mentions.
pub fn mentioned(set: &Set) -> Vec<(Sort, BTreeSet<u32>)> {
    let mut found: Vec<(Sort, BTreeSet<u32>)> = Sort::ALL.into_iter().map(|sort| (sort, BTreeSet::new())).collect();
    let mut add = |sort: Sort, number: u32| {
        found[sort as usize].1.insert(number);
    };
    set.rules.iter().for_each(|rule| add(Sort::Rule, rule.name));
    set.blocks.iter().for_each(|block| add(Sort::Block, block.name));
    set.each(|table, record| {
        for field in 0..record.parts.len() {
            if let Some(sort) = name_sort(table, record, field) {
                add(sort, record.word(field));
            }
        }
    });
    found
}

/// The text of a set. Every number that it mentions stands in it, so that the text alone gives the set again.
pub fn text(set: &Set, book: &Book) -> String {
    let mut book = book.clone();
    let found = mentioned(set);
    found.iter().for_each(|(sort, numbers)| book.complete(*sort, numbers.iter().copied()));
    let speller = Speller { book: &book };
    let mut text = format!("weekday monday = {}\nlimits", book.monday);
    for ((name, _, _), word) in LIMITS.iter().zip(set.limits.words()) {
        let _ = write!(text, " {name} {word}");
    }
    text.push('\n');
    for (sort, numbers) in &found {
        for number in numbers {
            let is_there = match sort {
                Sort::Rule => set.rule(*number).is_some(),
                Sort::Block => set.block(*number).is_some(),
                _ => false,
            };
            if !is_there {
                declaration(&mut text, *sort, *number, &book);
            }
        }
    }
    for block in &set.blocks {
        let _ = writeln!(text, "\nblock {} = {}", book.name(Sort::Block, block.name), block.name);
        speller.steps(&block.steps, 1, &mut text);
        text.push_str("end\n");
    }
    set.rules.iter().for_each(|rule| rule_text(&mut text, rule, &speller));
    text
}

fn declaration(text: &mut String, sort: Sort, number: u32, book: &Book) {
    let missing = if matches!(sort, Sort::Rule | Sort::Block) { "missing " } else { "" };
    let _ = write!(text, "{missing}{} {} = {number}", sort.word(), book.name(sort, number));
    if let Some((_, entry)) = book.entry(sort, number) {
        if let Some(bright) = entry.bright {
            let _ = write!(text, " {}", percent(u64::from(bright)));
        }
        if let Some(words) = &entry.words {
            let _ = write!(text, " \"{words}\"");
        }
    }
    text.push('\n');
}

fn rule_text(text: &mut String, rule: &crate::tree::Rule, speller: &Speller<'_>) {
    let _ = writeln!(text, "\nrule {} = {}", speller.book.name(Sort::Rule, rule.name), rule.name);
    let mut line = |words: String| {
        let _ = writeln!(text, "    {words}");
    };
    if !rule.enabled {
        line("off".to_string());
    }
    if rule.hold {
        line("hold".to_string());
    }
    if rule.cooldown > 0 {
        line(format!("cooldown {}", span(u64::from(rule.cooldown))));
    }
    rule.triggers.iter().for_each(|trigger| line(speller.head(Table::Triggers, trigger)));
    rule.conditions.iter().for_each(|condition| line(format!("if {}", speller.head(Table::Conditions, condition))));
    if !rule.steps.is_empty() {
        text.push_str("    do\n");
        speller.steps(&rule.steps, 2, text);
        text.push_str("    end\n");
    }
    text.push_str("end\n");
}

#[cfg(test)]
mod tests {
    use super::{days, percent, span};

    #[test]
    fn spans_percents_and_days() {
        assert_eq!(span(5_400_000), "1 h 30 min");
        assert_eq!(span(0), "0 s");
        assert_eq!(span(u64::from(u32::MAX)), "1193 h 2 min 47 s 295 ms");
        assert_eq!(percent(400_000), "40 %");
        assert_eq!(percent(1_000), "0.1 %");
        assert_eq!(percent(1_000_000), "100 %");
        assert_eq!(days(0b11111, 0), "monday to friday");
        assert_eq!(days(0b1000001, 0), "monday, sunday");
        assert_eq!(days(0b1, 6), "tuesday");
    }
}
