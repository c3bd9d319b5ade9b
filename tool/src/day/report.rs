//! A played day as text.

use std::fmt::Write as _;

use crate::account::{self, Spell};
use crate::effect;
use crate::grammar::DAYS;
use crate::play::{Event, Sun, DAY, MINUTE};
use crate::schema::{Sort, Table};
use crate::spell::span;
use crate::state::TRIGGERS;
use crate::tree::Set;

use super::Shown;

/// `05:00`, or with seconds where there are any.
pub fn time_text(time: i64) -> String {
    let of_day = time.rem_euclid(DAY);
    let (hour, minute, second) = (of_day / 3_600_000, of_day / MINUTE % 60, of_day / 1_000 % 60);
    match second {
        0 => format!("{hour:02}:{minute:02}"),
        _ => format!("{hour:02}:{minute:02}:{second:02}"),
    }
}

/// A span to the minute: seconds of a day's light say nothing.
pub fn hours_text(ms: i64) -> String {
    match (ms + 30_000) / MINUTE {
        minutes if ms > 0 && minutes == 0 => span(ms as u64),
        minutes => format!("{} h {:02} min", minutes / 60, minutes % 60),
    }
}

pub fn sun_text(shown: &Shown<'_>) -> String {
    match shown.plan.sun {
        Sun::Fixed(rise, set) => format!("sun {:02}:{:02} to {:02}:{:02}", rise / 60, rise % 60, set / 60, set % 60),
        Sun::Latitude(latitude) => format!("sun of latitude {latitude}"),
    }
}

pub fn head(shown: &Shown<'_>) -> String {
    let plan = shown.plan;
    let days = if plan.days == 1 { "1 day".to_string() } else { format!("{} days", plan.days) };
    let first = plan.first;
    format!("{}: {days} from {} {}, {}\n", shown.title, DAYS[first.weekday() as usize], first.text(), sun_text(shown))
}

/// The words of an event: what was done, and what went wrong.
pub fn event_text(event: &Event, shown: &Shown<'_>) -> String {
    let mut text = event.effect.map_or("nothing".to_string(), |words| effect::words(&words, shown.book));
    if event.reason != 0 {
        text.push_str(&format!("   ({})", effect::reason(event.reason)));
    }
    if event.late {
        text.push_str(&format!("   (late: told at {} when power was back)", time_text(event.time)));
    }
    text
}

/// The day's number and the time of the wall clock.
pub fn when(event: &Event, days: i64) -> String {
    match days {
        1 => time_text(event.wall),
        _ => format!("day {} {}", event.wall.div_euclid(DAY) + 1, time_text(event.wall)),
    }
}

pub fn timeline(shown: &Shown<'_>) -> String {
    let events = &shown.played.events;
    let rule = |event: &Event| shown.book.name(Sort::Rule, event.rule);
    let times: Vec<String> = events.iter().map(|event| when(event, shown.plan.days)).collect();
    let wide = events.iter().map(|event| rule(event).chars().count()).max().unwrap_or(0);
    let early = times.iter().map(String::len).max().unwrap_or(0);
    let mut text = String::new();
    for (event, time) in events.iter().zip(&times) {
        let trigger = TRIGGERS.get(event.trigger as usize).unwrap_or(&"?");
        let _ = writeln!(text, "{time:early$}  {:wide$}  {trigger:7}  {}", rule(event), event_text(event, shown));
    }
    if events.is_empty() {
        text.push_str("nothing happens\n");
    }
    text
}

/// Half an hour a letter.
const CELL: i64 = 30 * MINUTE;
/// Half of the light, in parts per million.
const HALF: u32 = 500_000;

fn bar(spells: &[Spell], day: i64) -> String {
    let cell = |number: i64| {
        let (from, to) = (day * DAY + number * CELL, day * DAY + (number + 1) * CELL);
        let here: Vec<&Spell> = spells.iter().filter(|spell| spell.from < to && spell.to > from).collect();
        let most = here.iter().filter(|spell| spell.is_lit()).filter_map(|spell| spell.ppm).max();
        match most {
            Some(ppm) if ppm >= HALF => '#',
            Some(_) => '-',
            None if here.iter().any(|spell| spell.cut) => 'x',
            None if here.iter().all(|spell| spell.ppm.is_none()) => '.',
            None => ' ',
        }
    };
    (0..48).map(cell).collect()
}

/// The longest dark stretch of a span of time, with its ends.
pub fn dark_text(spells: &[Spell], from: i64, to: i64) -> String {
    match account::longest_dark(spells, from, to) {
        Some((begin, end)) if account::is_open(spells, begin) => format!("over a week (to {})", time_text(end)),
        Some((begin, end)) => format!("{} ({} to {})", hours_text(end - begin), time_text(begin), time_text(end)),
        None => "none".to_string(),
    }
}

/// A bar for each light and day, with its light hours and its longest dark stretch.
pub fn bars(shown: &Shown<'_>) -> String {
    let wide = shown.lights.iter().map(|(name, _)| name.chars().count()).max().unwrap_or(0);
    let mut text = String::new();
    for day in 0..shown.plan.days {
        if shown.plan.days > 1 {
            let date = shown.plan.first.plus(day);
            let _ = writeln!(text, "day {}, {} {}", day + 1, DAYS[date.weekday() as usize], date.text());
        }
        for (name, spells) in &shown.lights {
            let (from, to) = (day * DAY, (day + 1) * DAY);
            let hours = hours_text(account::lit(spells, from, to));
            let _ = writeln!(text, "{name:wide$} |{}| light {hours}, longest dark {}", bar(spells, day), dark_text(spells, from, to));
        }
    }
    let _ = writeln!(text, "{:wide$}  0     3     6     9     12    15    18    21", "");
    let _ = writeln!(text, "{:wide$}  a letter is half an hour: # light, - under half, x power cut, . not told yet", "");
    text
}

/// The light hours of many days: the least, the most, and the first day of each month.
pub fn hours(shown: &Shown<'_>) -> String {
    let mut text = String::new();
    let date = |day: usize| shown.plan.first.plus(day as i64);
    for (name, spells) in &shown.lights {
        let days = account::days(spells, shown.plan.days);
        let least = days.iter().enumerate().min_by_key(|(_, ms)| **ms);
        let most = days.iter().enumerate().max_by_key(|(day, ms)| (**ms, std::cmp::Reverse(*day)));
        let average = days.iter().sum::<i64>() / days.len().max(1) as i64;
        if let (Some((low, least)), Some((high, most))) = (least, most) {
            let _ = writeln!(
                text,
                "{name}: light a day from {} ({}) to {} ({}), on average {}; longest dark {}",
                hours_text(*least),
                date(low).text(),
                hours_text(*most),
                date(high).text(),
                hours_text(average),
                dark_text(spells, 0, shown.plan.days * DAY)
            );
        }
        for (day, ms) in days.iter().enumerate().filter(|(day, _)| *day == 0 || date(*day).civil().2 == 1) {
            let full = (ms + CELL / 2) / CELL;
            let _ = writeln!(text, "  {} {} {}", date(day).text(), hours_text(*ms), "#".repeat(full.max(0) as usize));
        }
    }
    text
}

pub fn csv(shown: &Shown<'_>) -> String {
    let quoted = |text: &str| format!("\"{}\"", text.replace('"', "\"\""));
    let date = |day: i64| shown.plan.first.plus(day).text();
    let mut text = String::from("what,day,date,time,rule,trigger,effect,reason,light,light_hours,longest_dark_hours\n");
    for event in &shown.played.events {
        let day = event.wall.div_euclid(DAY);
        let rule = shown.book.name(Sort::Rule, event.rule);
        let trigger = TRIGGERS.get(event.trigger as usize).unwrap_or(&"?");
        let words = event.effect.map_or(String::new(), |words| effect::words(&words, shown.book));
        let _ = writeln!(text, "event,{},{},{},{},{trigger},{},{},,,", day + 1, date(day), time_text(event.wall), quoted(&rule), quoted(&words), event.reason);
    }
    for day in 0..shown.plan.days {
        for (name, spells) in &shown.lights {
            let (from, to) = (day * DAY, (day + 1) * DAY);
            let hours = account::lit(spells, from, to) as f64 / 3_600_000.0;
            let dark = account::longest_dark(spells, from, to).map_or(0.0, |(begin, end)| (end - begin) as f64 / 3_600_000.0);
            let _ = writeln!(text, "light,{},{},,,,,,{},{hours:.3},{dark:.3}", day + 1, date(day), quoted(name));
        }
    }
    text
}

/// What the reader must know of how it was played.
pub fn notes(shown: &Shown<'_>, set: &Set) -> String {
    let mut notes: Vec<String> = shown.played.notes.clone();
    notes.dedup();
    let (mut asks_rows, mut sets_otherwise) = (false, false);
    set.each(|table, record| {
        asks_rows |= table == Table::Conditions && matches!(record.kind, 3..=10);
        asks_rows |= table == Table::Values && record.kind != 0 && record.word(0) <= 10;
        sets_otherwise |= table == Table::Actions && matches!(record.kind, 1..=7);
    });
    if asks_rows {
        notes.push("the set asks lamps, groups, inputs, devices or HCL rows; the day is played without any".to_string());
    }
    if sets_otherwise {
        notes.push("scenes and HCL change lights too; the bars and the light hours know only what a light is told by a verb or in percent".to_string());
    }
    if !shown.plan.clocks.is_empty() {
        notes.push("the timeline has the times of the clock that was set, bars and light hours the time that went by".to_string());
    }
    let dark_days = (0..shown.plan.days).filter(|day| shown.plan.sun_of(*day).is_none()).count();
    if dark_days > 0 {
        let days = if dark_days == 1 { "1 day".to_string() } else { format!("{dark_days} days") };
        notes.push(format!("on {days} the sun does not rise or does not set there: rules by the sun do not run"));
    }
    let lost = shown.played.events.iter().filter(|event| event.reason != 0).count();
    if lost > 0 {
        notes.push(format!("{lost} lines of the timeline have a reason: steps failed or were lost"));
    }
    notes.iter().map(|note| format!("note: {note}\n")).collect()
}
