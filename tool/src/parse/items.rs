//! The fields of a form: names, spans, times, days, addresses, values.

use crate::grammar::{COMPARISONS, DAYS, SUN, UNITS};
use crate::lex::Kind;
use crate::names::check_name;
use crate::schema::{Sort, Table};
use crate::tree::{pair, Part, Record};

use super::decl::{address_words, Address};
use super::matcher::{Fit, Matcher, Use};

impl Matcher<'_> {
    /// The parts that a field of this name stands for.
    pub fn field(&mut self, name: &'static str) -> Fit<Vec<Part>> {
        let words = |words: &[u32]| words.iter().map(|word| Part::Word(*word)).collect::<Vec<_>>();
        if let Some(sort) = Sort::of_word(name) {
            return Ok(words(&[self.name(sort)?]));
        }
        Ok(match name {
            "span" => words(&[self.span()?]),
            "sun" => words(&self.sun()?),
            "clock" => words(&self.clock()?),
            "ondays" => words(&[self.on_days()?]),
            "days" => words(&[self.days()?]),
            "lamp" | "group" | "input" | "device" | "panel" => words(&self.address(name)?),
            "cmp" => words(&[self.comparison()?]),
            "hold" => words(&[self.hold()?]),
            "retain" => words(&[u32::from(self.take("retain"))]),
            "bytes" => words(&[self.bytes()?]),
            "scene" => words(&[self.scene()?]),
            "times" => words(&[self.times()?]),
            "integer" => words(&pair(self.integer("an integer")? as u64)),
            "value" => vec![one(self.value()?)],
            "percent" => vec![one(self.percent()?)],
            "bound" => vec![one(self.bound()?)],
            "condition" => vec![one(self.record(Table::Conditions, true)?)],
            "scenes" => vec![Part::Scenes(self.scenes()?), Part::Gap],
            _ => vec![Part::List(Vec::new()), Part::Gap],
        })
    }

    /// A name, as its place in the list of uses.
    pub fn name(&mut self, sort: Sort) -> Fit<u32> {
        let Some(token) = self.token().filter(|token| token.kind == Kind::Word) else {
            return self.miss(&format!("the name of a {}", sort.word()));
        };
        if let Err(what) = check_name(&token.text) {
            return self.wrong(what, "");
        }
        self.uses.push(Use { sort, name: token.text.clone(), spot: token.spot });
        self.at += 1;
        Ok(self.uses.len() as u32 - 1)
    }

    /// Digits up to `most`.
    pub fn number(&mut self, what: &str, most: u64) -> Fit<u64> {
        let Some(token) = self.token().filter(|token| token.kind == Kind::Number) else {
            return self.miss(what);
        };
        match token.text.parse::<u64>() {
            Ok(number) if number <= most => {
                self.at += 1;
                Ok(number)
            }
            Err(_) if token.text.contains('.') => self.wrong(format!("{what} expected, found `{}`", token.text), "a whole number"),
            _ => self.wrong(format!("{} is out of range: {what} is 0 to {most}", token.text), ""),
        }
    }

    /// `1 h 30 min`, in milliseconds of one word.
    pub fn span(&mut self) -> Fit<u32> {
        let from = self.at;
        let mut total: u64 = 0;
        let mut units = &UNITS[..];
        loop {
            let number = self.number("a duration", u64::MAX)?;
            let Some(unit) = self.token() else {
                return self.wrong(format!("a unit expected behind {number}, found the end of the line"), UNIT_HELP);
            };
            let Some(place) = units.iter().position(|(name, _)| *name == unit.text) else {
                return self.wrong(format!("a unit expected behind {number}, found `{}`", unit.text), UNIT_HELP);
            };
            total = total.saturating_add(number.saturating_mul(units[place].1));
            units = &units[place + 1..];
            self.at += 1;
            if self.token().is_none_or(|token| token.kind != Kind::Number) || units.is_empty() {
                break;
            }
        }
        u32::try_from(total).or_else(|_| {
            self.at = from;
            self.wrong("a duration over 49 days 17 h, the longest that a word holds (4294967295 ms)".to_string(), "")
        })
    }

    /// Event and signed offset.
    fn sun(&mut self) -> Fit<[u32; 2]> {
        let Some(event) = SUN.iter().position(|event| self.take(event)) else {
            return Err(super::matcher::Miss { at: self.at, expected: SUN.map(|event| format!("`{event}`")).to_vec(), fault: None });
        };
        let back = self.sees("-");
        if !self.take("+") && !self.take("-") {
            return Ok([event as u32, 0]);
        }
        let from = self.at;
        let span = i64::from(self.span()?);
        match i32::try_from(if back { -span } else { span }) {
            Ok(offset) => Ok([event as u32, offset as u32]),
            Err(_) => {
                self.at = from;
                self.wrong("an offset from the sun is at most 24 days 20 h (2147483647 ms)".to_string(), "")
            }
        }
    }

    /// Hour and minute.
    pub fn clock(&mut self) -> Fit<[u32; 2]> {
        match self.clock_seconds()? {
            [hour, minute, 0] => Ok([hour, minute]),
            _ => {
                self.at -= 1;
                self.wrong("a trigger or a bound has hours and minutes, no seconds".to_string(), "put a `wait` behind it for seconds")
            }
        }
    }

    /// Hour, minute, second.
    pub fn clock_seconds(&mut self) -> Fit<[u32; 3]> {
        let Some(token) = self.token().filter(|token| token.kind == Kind::Clock) else {
            return self.miss("a time of day");
        };
        let parts: Vec<u32> = token.text.split(':').filter_map(|part| part.parse().ok()).collect();
        let time = match parts.as_slice() {
            [hour, minute] => [*hour, *minute, 0],
            [hour, minute, second] => [*hour, *minute, *second],
            _ => [99; 3],
        };
        if time[0] > 23 || time[1] > 59 || time[2] > 59 {
            return self.wrong(format!("`{}` is no time of day", token.text), "hours are 00 to 23, minutes 00 to 59");
        }
        self.at += 1;
        Ok(time)
    }

    fn bound(&mut self) -> Fit<Record> {
        if self.token().is_some_and(|token| token.kind == Kind::Clock) {
            return Ok(Record::new(0, &self.clock()?));
        }
        let from = self.at;
        let sun = self.sun().map_err(|mut miss| {
            if miss.at == from {
                miss.expected.push("a time of day".to_string());
            }
            miss
        })?;
        Ok(Record::new(1, &sun))
    }

    fn on_days(&mut self) -> Fit<u32> {
        if self.token().is_none() {
            return Ok(127);
        }
        if self.sees("every") {
            return self.days();
        }
        match self.take("on") {
            true => self.days(),
            false => {
                let mut miss = self.miss("`on`");
                if let Err(miss) = &mut miss {
                    miss.expected.push("`every day`".to_string());
                }
                miss
            }
        }
    }

    /// Day bits: `every day`, `no day`, `monday to friday, sunday`.
    fn days(&mut self) -> Fit<u32> {
        if self.take("every") {
            return self.word("day").map(|()| 127);
        }
        if self.take("no") {
            return self.word("day").map(|()| 0);
        }
        let mut bits = 0;
        loop {
            let first = self.day()?;
            let last = if self.take("to") { self.day()? } else { first };
            for more in 0..=(last + 7 - first) % 7 {
                bits |= 1 << ((first + more + self.places.monday) % 7);
            }
            if !self.take(",") {
                return Ok(bits);
            }
        }
    }

    fn day(&mut self) -> Fit<u32> {
        match DAYS.iter().position(|day| self.take(day)) {
            Some(day) => Ok(day as u32),
            None => Err(super::matcher::Miss { at: self.at, expected: DAYS.map(|day| format!("`{day}`")).to_vec(), fault: None }),
        }
    }

    /// `NAME`, or the numbers of an address: `0/5`.
    pub fn address(&mut self, what: &'static str) -> Fit<Vec<u32>> {
        let parts = address_words(what);
        if self.token().is_some_and(|token| token.kind == Kind::Word) {
            let name = self.token().map(|token| token.text.clone()).unwrap_or_default();
            let key = (what, name);
            if let Some(Address { words, .. }) = self.places.addresses.get(&key) {
                self.at += 1;
                return Ok(words.clone());
            }
            let known = self.places.addresses.keys().filter(|(found, _)| *found == what).map(|(_, name)| name.as_str());
            let help = match crate::fault::nearest(&key.1, known) {
                Some(near) => format!("is `{near}` meant?"),
                None => format!("declare it: `{what} {} = {}`", key.1, parts.iter().map(|part| part.0).collect::<Vec<_>>().join("/")),
            };
            return self.wrong(format!("no {what} `{}`", key.1), &help);
        }
        let mut words = Vec::new();
        for (place, (part, most)) in parts.iter().enumerate() {
            if place > 0 && !self.take("/") {
                return self.miss("`/`");
            }
            let what = if place == 0 { format!("the name of {} {what}, or its {part}", article(what)) } else { format!("the {part}") };
            words.push(self.number(&what, *most)? as u32);
        }
        Ok(words)
    }

    fn comparison(&mut self) -> Fit<u32> {
        match COMPARISONS.iter().position(|sign| self.take(sign)) {
            Some(place) => Ok(place as u32),
            None => Err(super::matcher::Miss { at: self.at, expected: COMPARISONS.map(|sign| format!("`{sign}`")).to_vec(), fault: None }),
        }
    }

    /// 1 `hold`, 0 `no hold`, 2 as the rule has it.
    fn hold(&mut self) -> Fit<u32> {
        if self.take("hold") {
            return Ok(1);
        }
        if self.take("no") {
            return self.word("hold").map(|()| 0);
        }
        Ok(2)
    }

    /// The length of the text before it: as said, or that of its words.
    fn bytes(&mut self) -> Fit<u32> {
        if self.token().is_some() {
            let length = self.number("a number of bytes", u64::from(u32::MAX))?;
            self.word("bytes")?;
            return Ok(length as u32);
        }
        let text = self.uses.last().map_or("", |used| &used.name);
        match self.places.texts.get(text) {
            Some(length) => Ok(*length),
            None => self.wrong(
                format!("the length of text `{text}` is not known"),
                "declare the text with its words, `text NAME \"words\"`, or write its length behind it: `5 bytes`",
            ),
        }
    }

    fn scene(&mut self) -> Fit<u32> {
        let known = self.token().filter(|token| token.kind == Kind::Word).map(|token| token.text.clone());
        let Some(name) = known else {
            return self.number("a scene", 255).map(|scene| scene as u32);
        };
        match self.places.scenes.get(&name) {
            Some(scene) => {
                self.at += 1;
                Ok(*scene)
            }
            None => {
                let near = crate::fault::nearest(&name, self.places.scenes.keys().map(String::as_str));
                let help = near.map_or(format!("declare it: `scene {name} = NUMBER`"), |near| format!("is `{near}` meant?"));
                self.wrong(format!("no scene `{name}`"), &help)
            }
        }
    }

    fn scenes(&mut self) -> Fit<Vec<u32>> {
        if self.take("nothing") {
            return Ok(Vec::new());
        }
        let mut scenes = vec![self.scene()?];
        while self.take(",") {
            if scenes.len() == 16 {
                return self.wrong("a cycle has at most 16 scenes".to_string(), "");
            }
            scenes.push(self.scene()?);
        }
        Ok(scenes)
    }

    fn times(&mut self) -> Fit<u32> {
        let times = self.number("how often", 255)?;
        self.take("times");
        Ok(times as u32)
    }
}

const UNIT_HELP: &str = "write h, min, s or ms, the largest first: `10 min`, `1 h 30 min`";

fn article(what: &str) -> &'static str {
    if what.starts_with('i') {
        "an"
    } else {
        "a"
    }
}

fn one(record: Record) -> Part {
    Part::One(Box::new(record))
}
