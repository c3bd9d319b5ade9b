//! Matches the tokens of a line against the forms of `grammar`. Where no form fits, the message names what the forms that came furthest expected.

use crate::fault::{nearest, or_list, Fault};
use crate::grammar::{forms, Item, Read};
use crate::lex::{Kind, Line, Token};
use crate::schema::{Sort, Table};
use crate::tree::{Part, Record, Spot};

use super::decl::Places;

/// A name where it stands. While a file is read, the word of a name is its place in the list of these.
#[derive(Clone, Debug)]
pub struct Use {
    pub sort: Sort,
    pub name: String,
    pub spot: Spot,
}

/// Why a form does not fit.
pub struct Miss {
    pub at: usize,
    pub expected: Vec<String>,
    /// A fault that is certain, whatever other form was meant.
    pub fault: Option<Box<Fault>>,
}

pub type Fit<T> = Result<T, Miss>;

pub struct Matcher<'a> {
    pub line: &'a Line,
    pub at: usize,
    pub uses: &'a mut Vec<Use>,
    pub places: &'a Places,
}

impl<'a> Matcher<'a> {
    pub fn token(&self) -> Option<&'a Token> {
        self.line.tokens.get(self.at)
    }

    pub fn spot(&self) -> Spot {
        self.token().map_or(self.line.end, |token| token.spot)
    }

    pub fn found(&self) -> String {
        self.token().map_or("the end of the line".to_string(), |token| format!("`{}`", token.text))
    }

    /// Whether the next token is this word or sign.
    pub fn sees(&self, text: &str) -> bool {
        self.token().is_some_and(|token| token.text == text && matches!(token.kind, Kind::Word | Kind::Sign))
    }

    pub fn take(&mut self, text: &str) -> bool {
        let seen = self.sees(text);
        self.at += usize::from(seen);
        seen
    }

    pub fn miss<T>(&self, expected: &str) -> Fit<T> {
        Err(Miss { at: self.at, expected: vec![expected.to_string()], fault: None })
    }

    /// A fault at the next token.
    pub fn wrong<T>(&self, what: String, help: &str) -> Fit<T> {
        let fault = Fault::error(self.spot(), what).help(help);
        Err(Miss { at: self.at, expected: Vec::new(), fault: Some(Box::new(fault)) })
    }

    pub fn word(&mut self, text: &'static str) -> Fit<()> {
        match self.take(text) {
            true => Ok(()),
            false => self.miss(&format!("`{text}`")),
        }
    }

    pub fn end(&self) -> Fit<()> {
        match self.token() {
            None => Ok(()),
            Some(_) => self.miss("the end of the line"),
        }
    }

    /// The record of the first form of a table that fits from here. `whole`: up to the end of the line.
    pub fn record(&mut self, table: Table, whole: bool) -> Fit<Record> {
        let (from, known) = (self.at, self.uses.len());
        let spot = self.spot();
        let mut best: Option<Miss> = None;
        for form in forms(table) {
            self.at = from;
            self.uses.truncate(known);
            match self.form(form, whole) {
                Ok(parts) => return Ok(Record { kind: form.kind, parts, spot }),
                Err(miss) => best = Some(further(best, miss)),
            }
        }
        self.at = from;
        self.uses.truncate(known);
        Err(best.unwrap_or(Miss { at: from, expected: Vec::new(), fault: None }))
    }

    fn form(&mut self, form: &Read, whole: bool) -> Fit<Vec<Part>> {
        let mut parts = Vec::new();
        form.set.iter().for_each(|(place, word)| put(&mut parts, *place, Part::Word(*word)));
        for item in &form.items {
            match item {
                Item::Plain(word) => self.word(word)?,
                Item::Choice(place, phrases) => {
                    let chosen = self.choice(phrases)?;
                    put(&mut parts, *place, Part::Word(chosen));
                }
                Item::Field(place, name) => {
                    let filled = self.field(name)?;
                    for (more, part) in filled.into_iter().enumerate() {
                        put(&mut parts, place + more, part);
                    }
                }
            }
        }
        if whole {
            self.end()?;
        }
        Ok(parts)
    }

    fn choice(&mut self, phrases: &[Vec<&'static str>]) -> Fit<u32> {
        let from = self.at;
        let mut furthest = from;
        for (number, phrase) in phrases.iter().enumerate() {
            self.at = from;
            if phrase.iter().all(|word| self.take(word)) {
                return Ok(number as u32);
            }
            furthest = furthest.max(self.at);
        }
        self.at = furthest;
        let expected = |phrase: &Vec<&str>| format!("`{}`", phrase.join(" "));
        let expected = phrases.iter().filter(|_| furthest == from).map(expected).collect::<Vec<_>>();
        let rest = |phrase: &&Vec<&str>| furthest > from && self.line.tokens[from].text == phrase[0];
        let behind = phrases.iter().filter(rest).map(|phrase| format!("`{}`", phrase[furthest - from]));
        let expected = expected.into_iter().chain(behind).collect();
        Err(Miss { at: furthest, expected, fault: None })
    }
}

fn put(parts: &mut Vec<Part>, place: usize, part: Part) {
    if parts.len() <= place {
        parts.resize(place + 1, Part::Gap);
    }
    parts[place] = part;
}

/// Of two misses the one that came further; of two that came as far, what either expected.
fn further(best: Option<Miss>, miss: Miss) -> Miss {
    let Some(mut best) = best else { return miss };
    if miss.at > best.at {
        return miss;
    }
    if miss.at == best.at {
        for expected in miss.expected {
            if !best.expected.contains(&expected) {
                best.expected.push(expected);
            }
        }
        if best.fault.is_none() {
            best.fault = miss.fault;
        }
    }
    best
}

/// The message of a miss.
pub fn fault_of(miss: Miss, line: &Line) -> Fault {
    if let Some(fault) = miss.fault {
        return *fault;
    }
    let token = line.tokens.get(miss.at);
    let spot = token.map_or(line.end, |token| token.spot);
    let found = token.map_or("the end of the line".to_string(), |token| format!("`{}`", token.text));
    // What is described stands before words of the language.
    let (plain, words): (Vec<String>, Vec<String>) = miss.expected.iter().cloned().partition(|text| !text.starts_with('`'));
    let fault = Fault::error(spot, format!("{} expected, found {found}", or_list(&[plain, words].concat())));
    let words: Vec<&str> = miss.expected.iter().filter_map(|text| text.strip_prefix('`')?.strip_suffix('`')).collect();
    let near = token.and_then(|token| nearest(&token.text, words));
    fault.help(near.map_or(String::new(), |near| format!("is `{near}` meant?")))
}
