//! `expect` blocks: what a day must show. `barn test` plays them.

use crate::fault::{nearest, Fault};
use crate::lex::{Kind, Line};
use crate::parse::decl::Places;
use crate::parse::matcher::{fault_of, Fit, Matcher, Use};
use crate::play::{Plan, Sun, DAY, MINUTE};
use crate::schema::Sort;
use crate::sun::Date;
use crate::tree::Spot;

/// What a light is to be at a time.
#[derive(Clone, Copy, Debug, PartialEq)]
pub enum Look {
    /// The place of a verb among the uses.
    Verb(u32),
    /// Parts per million.
    Percent(u64),
    Lit,
    Dark,
}

/// Lights and rules are places among the uses; times are milliseconds from the first midnight.
#[derive(Clone, Debug)]
pub enum Want {
    Light { light: u32, look: Look, at: i64 },
    Hours { light: u32, span: i64, day: i64 },
    LongestDark { light: u32, span: i64 },
    Nothing { from: i64, to: i64 },
}

#[derive(Clone, Debug)]
pub struct Expect {
    pub title: String,
    pub spot: Spot,
    pub plan: Plan,
    /// Where it is said, rule (a use) and time.
    pub presses: Vec<(Spot, u32, i64)>,
    pub wants: Vec<(Spot, Want)>,
}

const HEADS: [&str; 9] = ["light", "longest", "nothing", "press", "sun", "latitude", "date", "days", "cut"];

/// Reads the lines of a block.
pub fn read(head: &Line, lines: &[&Line], uses: &mut Vec<Use>, places: &Places) -> Result<Expect, Vec<Fault>> {
    let mut faults = Vec::new();
    let title = match head.tokens.get(1) {
        Some(token) if token.kind == Kind::Quoted => token.text.clone(),
        Some(token) => {
            faults.push(Fault::error(token.spot, "a title between `\"` expected").help("`expect \"a winter day\"`"));
            String::new()
        }
        None => String::new(),
    };
    let (plan, presses, wants) = (Plan::default(), Vec::new(), Vec::new());
    let mut expect = Expect { title, spot: head.tokens[0].spot, plan, presses, wants };
    for line in lines {
        let known = uses.len();
        let mut matcher = Matcher { line, at: 1, uses, places };
        if let Err(fault) = expect.line(&mut matcher) {
            uses.truncate(known);
            faults.push(fault);
        }
    }
    let days = expect.plan.days;
    for (spot, time) in expect.times() {
        if time >= days * DAY {
            let what = format!("day {} is not played: this block has {days}", time / DAY + 1);
            faults.push(Fault::error(spot, what).help("write `days N` in it"));
        }
    }
    match faults.is_empty() {
        true => Ok(expect),
        false => Err(faults),
    }
}

impl Expect {
    /// The times that the block speaks of.
    fn times(&self) -> Vec<(Spot, i64)> {
        let of_want = |(spot, want): &(Spot, Want)| match want {
            Want::Light { at, .. } => (*spot, *at),
            Want::Hours { day, .. } => (*spot, (day - 1) * DAY),
            Want::LongestDark { .. } => (*spot, 0),
            Want::Nothing { to, .. } => (*spot, *to),
        };
        let presses = self.presses.iter().map(|(spot, _, at)| (*spot, *at));
        let cuts = self.plan.cuts.iter().map(|(from, _)| (self.spot, *from));
        self.wants.iter().map(of_want).chain(presses).chain(cuts).collect()
    }

    fn line(&mut self, matcher: &mut Matcher<'_>) -> Result<(), Fault> {
        let line = matcher.line;
        let (head, spot) = (line.tokens[0].text.as_str(), whole(line));
        let fit = match head {
            "light" => light(matcher).map(|want| self.wants.push((spot, want))),
            "longest" => longest(matcher).map(|want| self.wants.push((spot, want))),
            "nothing" => nothing(matcher).map(|want| self.wants.push((spot, want))),
            "press" => press(matcher).map(|(rule, at)| self.presses.push((spot, rule, at))),
            "sun" => sun(matcher).map(|sun| self.plan.sun = sun),
            "latitude" => latitude(matcher).map(|sun| self.plan.sun = sun),
            "date" => date(matcher).map(|date| self.plan.first = date),
            "days" => days(matcher).map(|days| self.plan.days = days),
            "cut" => cut(matcher).map(|cut| self.plan.cuts.push(cut)),
            other => {
                let help = match nearest(other, HEADS) {
                    Some(near) => format!("is `{near}` meant?"),
                    None => format!("an expectation has: {}", HEADS.join(", ")),
                };
                return Err(Fault::error(line.tokens[0].spot, format!("`{other}` is nothing that can be expected")).help(help));
            }
        };
        fit.and_then(|()| matcher.end()).map_err(|miss| fault_of(miss, line))
    }
}

/// A whole statement.
fn whole(line: &Line) -> Spot {
    let first = line.tokens[0].spot;
    Spot { length: line.end.column.saturating_sub(first.column).max(1), ..first }
}

/// `HH:MM[:SS] [on day N]`.
fn moment(matcher: &mut Matcher<'_>) -> Fit<i64> {
    let [hour, minute, second] = matcher.clock_seconds()?.map(i64::from);
    let day = on_day(matcher)?.unwrap_or(1);
    Ok((day - 1) * DAY + (hour * 60 + minute) * MINUTE + second * 1_000)
}

fn on_day(matcher: &mut Matcher<'_>) -> Fit<Option<i64>> {
    if !matcher.take("on") {
        return Ok(None);
    }
    matcher.word("day")?;
    let from = matcher.at;
    match matcher.number("a day", 3_660)? {
        0 => {
            matcher.at = from;
            matcher.wrong("days are counted from 1".to_string(), "")
        }
        day => Ok(Some(day as i64)),
    }
}

fn light(matcher: &mut Matcher<'_>) -> Fit<Want> {
    if matcher.sees("hours") && matcher.line.tokens.len() > 3 {
        matcher.at += 1;
        let light = matcher.name(Sort::Light)?;
        let span = i64::from(matcher.span()?);
        let day = on_day(matcher)?.unwrap_or(1);
        return Ok(Want::Hours { light, span, day });
    }
    let light = matcher.name(Sort::Light)?;
    let is_number = matcher.token().is_some_and(|token| token.kind == Kind::Number);
    let look = match () {
        () if is_number => Look::Percent(matcher.parts_per_million()?),
        () if matcher.take("lit") => Look::Lit,
        () if matcher.take("dark") => Look::Dark,
        () => Look::Verb(matcher.name(Sort::Verb)?),
    };
    matcher.word("at")?;
    Ok(Want::Light { light, look, at: moment(matcher)? })
}

fn longest(matcher: &mut Matcher<'_>) -> Fit<Want> {
    matcher.word("dark")?;
    let light = matcher.name(Sort::Light)?;
    Ok(Want::LongestDark { light, span: i64::from(matcher.span()?) })
}

fn nothing(matcher: &mut Matcher<'_>) -> Fit<Want> {
    matcher.word("from")?;
    let from = moment(matcher)?;
    matcher.word("to")?;
    let start = matcher.at;
    let to = moment(matcher)?;
    if to <= from {
        matcher.at = start;
        return matcher.wrong("it ends before it begins".to_string(), "over midnight: `nothing from 22:00 to 04:00 on day 2`, with `days 2`");
    }
    Ok(Want::Nothing { from, to })
}

fn press(matcher: &mut Matcher<'_>) -> Fit<(u32, i64)> {
    let rule = matcher.name(Sort::Rule)?;
    matcher.word("at")?;
    Ok((rule, moment(matcher)?))
}

fn sun(matcher: &mut Matcher<'_>) -> Fit<Sun> {
    let [hour, minute] = matcher.clock()?;
    matcher.word("to")?;
    let start = matcher.at;
    let [end_hour, end_minute] = matcher.clock()?;
    let (rise, set) = (hour * 60 + minute, end_hour * 60 + end_minute);
    if set <= rise {
        matcher.at = start;
        return matcher.wrong("the sun sets before it rises".to_string(), "`sun 07:00 to 17:00`");
    }
    Ok(Sun::Fixed(rise, set))
}

fn latitude(matcher: &mut Matcher<'_>) -> Fit<Sun> {
    let minus = matcher.take("-");
    let Some(degrees) = matcher.token().and_then(|token| token.text.parse::<f64>().ok()).filter(|degrees| (0.0..=90.0).contains(degrees)) else {
        return matcher.miss("a latitude of -90 to 90");
    };
    matcher.at += 1;
    Ok(Sun::Latitude(if minus { -degrees } else { degrees }))
}

fn date(matcher: &mut Matcher<'_>) -> Fit<Date> {
    let from = matcher.at;
    let mut parts = Vec::new();
    for place in 0..3 {
        if place > 0 && !matcher.take("-") {
            return matcher.miss("`-`, as in 2026-06-21,");
        }
        parts.push(matcher.number("a date YYYY-MM-DD", 9_999)? as i64);
    }
    match Date::of(parts[0], parts[1], parts[2]) {
        Some(date) => Ok(date),
        None => {
            matcher.at = from;
            matcher.wrong("there is no such day".to_string(), "a date is YYYY-MM-DD")
        }
    }
}

fn days(matcher: &mut Matcher<'_>) -> Fit<i64> {
    let from = matcher.at;
    match matcher.number("a number of days", 3_660)? {
        0 => {
            matcher.at = from;
            matcher.wrong("at least one day is played".to_string(), "")
        }
        days => Ok(days as i64),
    }
}

fn cut(matcher: &mut Matcher<'_>) -> Fit<(i64, i64)> {
    let from = moment(matcher)?;
    matcher.word("to")?;
    let start = matcher.at;
    let to = moment(matcher)?;
    let to = if to < DAY { from.div_euclid(DAY) * DAY + to } else { to };
    if to <= from {
        matcher.at = start;
        return matcher.wrong("a power cut ends behind its beginning".to_string(), "over midnight: `to 01:00 on day 2`");
    }
    Ok((from, to))
}
