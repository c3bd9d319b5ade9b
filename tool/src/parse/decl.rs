//! Declarations: what a file says outside of its rules, blocks and expectations.

use std::collections::BTreeMap;

use crate::fault::Fault;
use crate::lex::{Kind, Line};
use crate::names::check_name;
use crate::schema::Sort;
use crate::tree::{Limits, Spot, LIMITS};

use super::matcher::{fault_of, Fit, Matcher};

/// A name that a declaration, a rule or a block has given.
#[derive(Clone, Debug)]
pub struct Def {
    pub sort: Sort,
    pub name: String,
    pub spot: Spot,
    pub number: Option<u32>,
    pub words: Option<String>,
    pub bright: Option<u32>,
    /// `missing rule` or `missing block`: mentioned, and no part of this set.
    pub missing: bool,
}

#[derive(Clone, Debug)]
pub struct Address {
    pub words: Vec<u32>,
    pub spot: Spot,
}

/// What matching must know of a file before it reads its rules.
#[derive(Clone, Debug, Default)]
pub struct Places {
    pub addresses: BTreeMap<(&'static str, String), Address>,
    pub scenes: BTreeMap<String, u32>,
    /// The length in bytes of each text that has words.
    pub texts: BTreeMap<String, u32>,
    pub monday: u32,
}

const ADDRESSES: [&str; 5] = ["lamp", "group", "input", "device", "panel"];
const NAMED: [Sort; 8] =
    [Sort::Light, Sort::Verb, Sort::Text, Sort::Topic, Sort::Schedule, Sort::Counter, Sort::Timer, Sort::Var];

/// Words that begin a declaration.
pub fn heads() -> Vec<&'static str> {
    let named = NAMED.iter().map(|sort| sort.word());
    named.chain(ADDRESSES).chain(["scene", "weekday", "limits", "missing"]).collect()
}

/// The parts of an address with their highest values.
pub fn address_words(what: &str) -> &'static [(&'static str, u64)] {
    match what {
        "lamp" | "group" => &[("adapter", 255), ("id", 65_535)],
        "device" => &[("adapter", 255), ("address", 255)],
        "panel" => &[("adapter", 255), ("group", 255)],
        _ => &[("adapter", 255), ("address", 255), ("instance", 255)],
    }
}

#[derive(Default)]
pub struct Declared {
    pub places: Places,
    pub defs: Vec<Def>,
    pub limits: Option<Limits>,
    pub monday: bool,
}

impl Declared {
    /// Reads one declaration.
    pub fn line(&mut self, line: &Line) -> Result<(), Fault> {
        let mut uses = Vec::new();
        let places = self.places.clone();
        let mut matcher = Matcher { line, at: 1, uses: &mut uses, places: &places };
        let head = line.tokens[0].text.clone();
        let fit = if let Some(what) = ADDRESSES.into_iter().find(|what| *what == head) {
            self.addresses(&mut matcher, what)
        } else {
            match head.as_str() {
                "weekday" => self.weekday(&mut matcher),
                "limits" => self.limit_list(&mut matcher),
                "scene" => self.scenes(&mut matcher),
                "missing" => self.missing(&mut matcher),
                word => self.names(&mut matcher, Sort::of_word(word).unwrap_or(Sort::Light), false),
            }
        };
        fit.and_then(|()| matcher.end()).map_err(|miss| fault_of(miss, line))
    }

    fn fresh(&self, matcher: &mut Matcher<'_>, what: &str) -> Fit<(String, Spot)> {
        let Some(token) = matcher.token().filter(|token| token.kind == Kind::Word) else {
            return matcher.miss(&format!("the name of a {what}"));
        };
        if let Err(what) = check_name(&token.text) {
            return matcher.wrong(what, "");
        }
        Ok((token.text.clone(), token.spot))
    }

    fn names(&mut self, matcher: &mut Matcher<'_>, sort: Sort, missing: bool) -> Fit<()> {
        loop {
            let (name, spot) = self.fresh(matcher, sort.word())?;
            if let Some(first) = self.defs.iter().find(|def| def.sort == sort && def.name == name) {
                let help = format!("the first stands on line {}", first.spot.line);
                return matcher.wrong(format!("{} `{name}` is declared twice", sort.word()), &help);
            }
            matcher.at += 1;
            let number = match matcher.take("=") {
                true => Some(matcher.number("a number", u64::from(u32::MAX))? as u32),
                false => None,
            };
            let bright = match sort == Sort::Verb && matcher.token().is_some_and(|token| token.kind == Kind::Number) {
                true => Some(self.bright(matcher)?),
                false => None,
            };
            let quoted = matcher.token().filter(|token| token.kind == Kind::Quoted && matches!(sort, Sort::Text | Sort::Topic));
            let words = quoted.map(|token| token.text.clone());
            matcher.at += usize::from(words.is_some());
            if let (Sort::Text, Some(words)) = (sort, &words) {
                self.places.texts.insert(name.clone(), words.len().try_into().unwrap_or(u32::MAX));
            }
            self.defs.push(Def { sort, name, spot, number, words, bright, missing });
            if !matcher.take(",") {
                return Ok(());
            }
        }
    }

    fn bright(&self, matcher: &mut Matcher<'_>) -> Fit<u32> {
        let from = matcher.at;
        match matcher.parts_per_million()? {
            ppm @ 0..=1_000_000 => Ok(ppm as u32),
            _ => {
                matcher.at = from;
                matcher.wrong("the light of a verb is 0 % to 100 %".to_string(), "")
            }
        }
    }

    fn missing(&mut self, matcher: &mut Matcher<'_>) -> Fit<()> {
        for sort in [Sort::Rule, Sort::Block] {
            if matcher.take(sort.word()) {
                return self.names(matcher, sort, true);
            }
        }
        matcher.miss("`rule` or `block`")
    }

    fn addresses(&mut self, matcher: &mut Matcher<'_>, what: &'static str) -> Fit<()> {
        loop {
            let (name, spot) = self.fresh(matcher, what)?;
            let key = (what, name);
            if let Some(first) = self.places.addresses.get(&key) {
                let help = format!("the first stands on line {}", first.spot.line);
                return matcher.wrong(format!("{what} `{}` is declared twice", key.1), &help);
            }
            matcher.at += 1;
            matcher.word("=")?;
            if matcher.token().is_some_and(|token| token.kind == Kind::Word) {
                return matcher.miss(&format!("the {}", address_words(what)[0].0));
            }
            let words = matcher.address(what)?;
            self.places.addresses.insert(key, Address { words, spot });
            if !matcher.take(",") {
                return Ok(());
            }
        }
    }

    fn scenes(&mut self, matcher: &mut Matcher<'_>) -> Fit<()> {
        loop {
            let (name, _) = self.fresh(matcher, "scene")?;
            if self.places.scenes.contains_key(&name) {
                return matcher.wrong(format!("scene `{name}` is declared twice"), "");
            }
            matcher.at += 1;
            matcher.word("=")?;
            let scene = matcher.number("a scene", 255)? as u32;
            self.places.scenes.insert(name, scene);
            if !matcher.take(",") {
                return Ok(());
            }
        }
    }

    fn weekday(&mut self, matcher: &mut Matcher<'_>) -> Fit<()> {
        matcher.word("monday")?;
        matcher.word("=")?;
        self.places.monday = matcher.number("the number that the controller's clock gives Monday", 6)? as u32;
        self.monday = true;
        Ok(())
    }

    fn limit_list(&mut self, matcher: &mut Matcher<'_>) -> Fit<()> {
        let mut words = self.limits.unwrap_or(Limits::LARGEST).words();
        loop {
            let Some(place) = LIMITS.iter().position(|(name, _, _)| matcher.take(name)) else {
                let names = LIMITS.map(|(name, _, _)| format!("`{name}`")).to_vec();
                return Err(super::matcher::Miss { at: matcher.at, expected: names, fault: None });
            };
            let (name, least, most) = LIMITS[place];
            let from = matcher.at;
            words[place] = matcher.number(&format!("the {name} limit"), u64::from(most))? as u32;
            if words[place] < least {
                matcher.at = from;
                return matcher.wrong(format!("the {name} limit is {least} to {most}"), "");
            }
            matcher.take(",");
            if matcher.token().is_none() {
                self.limits = Some(Limits::of(words));
                return Ok(());
            }
        }
    }
}
