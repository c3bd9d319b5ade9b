//! `barn test`: plays the `expect` blocks of files, and shows what differs as a timeline.

use std::fmt::Write as _;

use crate::account::{self, Spell};
use crate::args::Args;
use crate::command::{accepted, Said};
use crate::day::report::{event_text, hours_text, time_text, when};
use crate::day::Shown;
use crate::effect;
use crate::expect::{Expect, Look, Want};
use crate::files::{self, Rules, Stop};
use crate::help;
use crate::light;
use crate::play::{self, Event, Plan, Played, DAY};
use crate::schema::Sort;
use crate::spell::{percent, span};

pub fn command(args: &[String]) -> Result<Said, Stop> {
    let args = Args::read("test", args, &[], &[])?;
    if args.given.is_empty() {
        return Err(Stop::usage(help::of("test").unwrap_or_default()));
    }
    let mut said = Said::default();
    for path in &args.given {
        match file(path) {
            Ok(of_file) => {
                said.out.push_str(&of_file.out);
                said.err.push_str(&of_file.err);
                said.status = said.status.max(of_file.status);
            }
            // The files behind it are tested all the same.
            Err(Stop { text, status }) => {
                said.err.push_str(&text);
                said.status = said.status.max(status);
            }
        }
    }
    Ok(said)
}

fn file(path: &str) -> Result<Said, Stop> {
    let rules = files::read_rules(path)?;
    let words = accepted(&rules)?;
    let mut said = Said::default();
    let (mut met, mut all) = (0, 0);
    for expect in &rules.file.expects {
        let failed = failures(&rules, &words, expect).map_err(|what| Stop::fails(format!("barn test: {what}\n")))?;
        all += expect.wants.len();
        met += expect.wants.len() - failed.len();
        failed.iter().for_each(|text| said.out.push_str(text));
    }
    let _ = writeln!(said.out, "{path}: {met} of {all} expectations met");
    if all == 0 {
        said.err.push_str(&format!("warning: {path} has no expectation\n"));
    }
    said.status = u8::from(met < all);
    Ok(said)
}

/// Everything that an expectation is held to.
struct Case<'a> {
    rules: &'a Rules,
    shown: &'a Shown<'a>,
}

fn failures(rules: &Rules, words: &[u32], expect: &Expect) -> Result<Vec<String>, String> {
    let book = &rules.file.book;
    let number = |place: u32| rules.file.uses.get(place as usize).and_then(|used| book.number(used.sort, &used.name)).unwrap_or(0);
    let presses = expect.presses.iter().map(|(_, rule, at)| (number(*rule), *at)).collect();
    let plan = Plan { presses, ..expect.plan.clone() };
    let played: Played = play::play(words, book, &plan, true)?;
    let shown = Shown::new(&rules.path, &rules.file.set, book, &plan, &played);
    let case = Case { rules, shown: &shown };
    let mut failed = Vec::new();
    for (spot, want) in &expect.wants {
        if let Some((why, lines)) = case.differs(want, &number) {
            let statement = rules.source.lines().nth(spot.line - 1).unwrap_or("").split('#').next().unwrap_or("").trim();
            let title = if expect.title.is_empty() { String::new() } else { format!(" (\"{}\")", expect.title) };
            failed.push(format!("FAILED {}:{}:{}{title}: {statement}\n    {why}\n{lines}", rules.path, spot.line, spot.column));
        }
    }
    Ok(failed)
}

impl Case<'_> {
    fn spells(&self, light: u32) -> &[Spell] {
        let name = self.rules.file.book.name(Sort::Light, light);
        self.shown.lights.iter().find(|(found, _)| *found == name).map_or(&[], |(_, spells)| spells)
    }

    /// Why an expectation is not met, and the timeline around it.
    fn differs(&self, want: &Want, number: &impl Fn(u32) -> u32) -> Option<(String, String)> {
        match want {
            Want::Light { light, look, at } => {
                let light = number(*light);
                let why = self.looks_otherwise(light, look, *at, number)?;
                Some((why, self.around(|event| of_light(event, light), *at)))
            }
            Want::Hours { light, span: wanted, day } => {
                let light = number(*light);
                let (from, to) = ((day - 1) * DAY, day * DAY);
                let found = account::lit(self.spells(light), from, to);
                let why = format!("light hours are {}, expected {}", exact(found), exact(*wanted));
                (found != *wanted).then(|| (why, self.all(|event| of_light(event, light) && (from..to).contains(&event.time))))
            }
            Want::LongestDark { light, span: wanted } => {
                let light = number(*light);
                let spells = self.spells(light);
                let longest = account::longest_dark(spells, 0, self.shown.plan.days * DAY);
                let found = longest.map_or(0, |(begin, end)| end - begin);
                let ends = longest.map_or(String::new(), |(begin, end)| format!(" ({} to {})", time_text(begin), time_text(end)));
                let why = format!("the longest dark is {}{ends}, expected {}", exact(found), exact(*wanted));
                (found != *wanted).then(|| (why, self.all(|event| of_light(event, light))))
            }
            Want::Nothing { from, to } => {
                let inside = |event: &Event| (*from..=*to).contains(&event.time);
                let count = self.shown.played.events.iter().filter(|event| inside(event)).count();
                let why = format!("{count} effects, expected none");
                (count > 0).then(|| (why, self.all(inside)))
            }
        }
    }

    fn looks_otherwise(&self, light: u32, look: &Look, at: i64, number: &impl Fn(u32) -> u32) -> Option<String> {
        let book = &self.rules.file.book;
        let last = self.shown.played.lights.iter().rev().find(|setting| setting.light == light && setting.time <= at);
        let spell = account::at(self.spells(light), at);
        let is_lit = spell.is_some_and(|spell| spell.is_lit());
        let fits = match look {
            Look::Lit => is_lit,
            Look::Dark => !is_lit,
            Look::Verb(verb) => last.is_some_and(|setting| setting.told == [0, number(*verb)]),
            Look::Percent(ppm) => last.is_some_and(|setting| setting.told[0] == 12 && setting.told[1] == light::level_of(*ppm)),
        };
        if fits {
            return None;
        }
        let Some(last) = last else { return Some("it was told nothing before".to_string()) };
        let [kind, word] = last.told;
        let told = effect::words(&[kind, light, word, 0, 0], book);
        let cut = if spell.is_some_and(|spell| spell.cut) { ", and power is cut" } else { "" };
        Some(format!("the last word before it is `{told}` ({}), at {}{cut}", percent(u64::from(last.ppm)), time_text(last.time)))
    }

    // TIMELINES -----------------------------------------------------------------------------------------------------------------------------

    fn line(&self, event: &Event) -> String {
        let rule = self.rules.file.book.name(Sort::Rule, event.rule);
        format!("      {}  {rule}: {}\n", when(event, self.shown.plan.days), event_text(event, self.shown))
    }

    fn all(&self, wanted: impl Fn(&Event) -> bool) -> String {
        let lines: Vec<String> = self.shown.played.events.iter().filter(|event| wanted(event)).map(|event| self.line(event)).collect();
        match lines.len() {
            0 => "      nothing happens\n".to_string(),
            count if count > 12 => lines[..12].concat() + &format!("      and {} more\n", count - 12),
            _ => lines.concat(),
        }
    }

    /// Three events before a time and three behind it.
    fn around(&self, wanted: impl Fn(&Event) -> bool, at: i64) -> String {
        let events: Vec<&Event> = self.shown.played.events.iter().filter(|event| wanted(event)).collect();
        let middle = events.iter().filter(|event| event.time <= at).count();
        let mut text: String = events[middle.saturating_sub(3)..middle].iter().map(|event| self.line(event)).collect();
        let _ = writeln!(text, "    > {}  expected here", time_text(at));
        text.extend(events[middle..(middle + 3).min(events.len())].iter().map(|event| self.line(event)));
        text
    }
}

fn of_light(event: &Event, light: u32) -> bool {
    event.effect.is_some_and(|words| matches!(words[0], 0 | 12) && words[1] == light)
}

fn exact(ms: i64) -> String {
    match ms % 60_000 {
        0 => hours_text(ms),
        _ => span(ms.unsigned_abs()),
    }
}
