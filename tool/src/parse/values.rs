//! Numbers and values: literals, readings, percentages.

use crate::lex::Kind;
use crate::schema::Table;
use crate::tree::{pair, Record};

use super::matcher::{Fit, Matcher};

/// Parts per million in a percent.
const PERCENT: u64 = 10_000;

impl Matcher<'_> {
    pub fn integer(&mut self, what: &str) -> Fit<i64> {
        let from = self.at;
        let minus = self.take("-");
        let Some(token) = self.token().filter(|token| token.kind == Kind::Number) else {
            self.at = if minus { self.at } else { from };
            return self.miss(what);
        };
        let signed = format!("{}{}", if minus { "-" } else { "" }, token.text);
        match signed.parse::<i64>() {
            Ok(number) => {
                self.at += 1;
                Ok(number)
            }
            Err(_) => self.wrong(format!("{signed} is no integer of 64 bits"), ""),
        }
    }

    pub(super) fn value(&mut self) -> Fit<Record> {
        let spot = self.spot();
        self.bare_value().map(|value| Record { spot, ..value })
    }

    fn bare_value(&mut self) -> Fit<Record> {
        if self.sees("-") || self.token().is_some_and(|token| token.kind == Kind::Number) {
            return Ok(Record::new(0, &pair(self.integer("a number")? as u64)));
        }
        let from = self.at;
        let reading = self.record(Table::Values, false).map_err(|mut miss| {
            if miss.at == from && miss.fault.is_none() {
                miss.expected = vec!["a number".to_string(), "a reading".to_string()];
            }
            miss
        })?;
        let mut words = vec![reading.kind, reading.word(0), reading.word(1), reading.word(2)];
        let minus = self.sees("-");
        if !self.take("+") && !self.take("-") {
            return Ok(Record::new(1, &words));
        }
        let from = self.at;
        let delta = self.number("a number", 1 << 31)? as i64;
        match i32::try_from(if minus { -delta } else { delta }) {
            Ok(delta) => {
                words.push(delta as u32);
                Ok(Record::new(2, &words))
            }
            Err(_) => {
                self.at = from;
                self.wrong("the number added to a reading is -2147483648 to 2147483647".to_string(), "")
            }
        }
    }

    /// `40 %`, with up to four digits behind the point, as a literal in parts per million.
    pub(super) fn percent(&mut self) -> Fit<Record> {
        let from = self.at;
        let ppm = self.parts_per_million()?;
        if ppm > 100 * PERCENT || (1..1_000).contains(&ppm) {
            self.at = from;
            return self.wrong("this light has no level on the bus: it is 0 %, or 0.1 % to 100 %".to_string(), "write `0 %` for off");
        }
        Ok(Record::new(0, &pair(ppm)))
    }

    pub fn parts_per_million(&mut self) -> Fit<u64> {
        let Some(token) = self.token().filter(|token| token.kind == Kind::Number) else {
            return self.miss("a percentage");
        };
        let (whole, part) = token.text.split_once('.').unwrap_or((&token.text, ""));
        let parsed = format!("{whole}{part:0<4}").parse::<u64>();
        if part.len() > 4 || parsed.is_err() {
            return self.wrong(format!("`{}` is no percentage", token.text), "at most four digits behind the point");
        }
        self.at += 1;
        self.word("%")?;
        Ok(parsed.unwrap_or(0))
    }
}
