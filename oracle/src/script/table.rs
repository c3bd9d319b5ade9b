//! The calls of the script language, a row for each, and the parser over the rows.

use std::cmp::Ordering;

use crate::check;
use crate::crontab;
use crate::house::{Call, House};
use crate::next_start;
use crate::readback;
use crate::rewrite;
use crate::short_lists;
use crate::telegrams;

/// The longest image or snapshot in words.
pub(super) const LIST_WORDS: usize = 8_192;

/// The largest numbers that have a text of their own.
const TIME: u64 = u64::MAX;
const WORD: u64 = u32::MAX as u64;
const MARK: u64 = 1;

/// A parameter: its name, and the largest number.
pub struct Param(pub &'static str, pub u64);

const AT: Param = Param("time", TIME);
const RULE: Param = Param("rule", WORD);
const PLACE: Param = Param("place", 16_383);
const ROOM: Param = Param("room", 8_192);

/// What stands behind the numbers of a call: nothing, a list of words, as many words as its numbers behind the first say, or the rest of the line behind one
/// blank, as it stands.
#[derive(Clone, Copy, PartialEq, Eq)]
pub enum Tail {
    Nothing,
    Words,
    Parts,
    Text,
}

/// What a line gives its call.
#[derive(Clone, Debug, Default, PartialEq)]
pub struct Given {
    pub numbers: Vec<u64>,
    pub list: Vec<u32>,
    pub text: Vec<u8>,
}

/// What a call is to the oracle.
pub enum Meaning {
    /// A call of the house.
    House(fn(Given) -> Call),
    /// A call that the published engine has not, answered by code of the oracle's own: the lines that it prints, or the number of its refusal.
    Own(fn(&House, &Given) -> Result<String, u32>),
}

pub struct Row {
    pub name: &'static str,
    pub params: &'static [Param],
    pub tail: Tail,
    pub meaning: Meaning,
}

const fn row(name: &'static str, params: &'static [Param], tail: Tail, call: fn(Given) -> Call) -> Row {
    Row { name, params, tail, meaning: Meaning::House(call) }
}

pub const ROWS: &[Row] = &[
    row("new", &[AT], Tail::Nothing, |given| Call::New { time: given.numbers[0] }),
    row("load", &[AT], Tail::Words, |given| Call::Load { time: given.numbers[0], image: given.list }),
    row("unload", &[AT], Tail::Nothing, |given| Call::Unload { time: given.numbers[0] }),
    row("enable", &[RULE, Param("mark", MARK)], Tail::Nothing, |given| Call::Enable {
        rule: given.word(0),
        on: given.numbers[1] == 1,
    }),
    row("tick", &[], Tail::Words, |given| Call::Tick { snapshot: given.list }),
    row("run", &[RULE, Param("dry mark", MARK)], Tail::Words, |given| Call::Run {
        rule: given.word(0),
        dry: given.numbers[1] == 1,
        snapshot: given.list,
    }),
    row("deadline", &[], Tail::Nothing, |_| Call::Deadline),
    row("counters", &[], Tail::Nothing, |_| Call::Counters),
    row(
        "lend",
        &[Param("number of outcome words", 24_576), Param("number of effect words", 327_680)],
        Tail::Nothing,
        |given| Call::Lend { outcomes: given.word(0), effects: given.word(1) },
    ),
    row("size", &[Param("number of words", WORD)], Tail::Nothing, |given| Call::Size { words: given.word(0) }),
    row("poke", &[PLACE, Param("word", WORD)], Tail::Nothing, |given| Call::Poke {
        place: given.word(0),
        word: given.word(1),
    }),
    row("peek", &[PLACE], Tail::Nothing, |given| Call::Peek { place: given.word(0) }),
    Row {
        name: "telegrams",
        params: &[ROOM],
        tail: Tail::Words,
        meaning: Meaning::Own(|_, given| telegrams::lines(given.word(0) as usize, &given.list)),
    },
    Row {
        name: "crontab",
        params: &[Param("Sunday", WORD), Param("number of trigger words", 16_384)],
        tail: Tail::Text,
        meaning: Meaning::Own(|_, given| crontab::answer(given)),
    },
    Row {
        name: "start",
        params: &[],
        tail: Tail::Words,
        meaning: Meaning::Own(|house, given| {
            next_start::next_start(house, &given.list).map(|start| next_start::line(&start))
        }),
    },
    Row {
        name: "room",
        params: &[],
        tail: Tail::Words,
        meaning: Meaning::Own(|_, given| room(&given.list)),
    },
    Row {
        name: "shortlist",
        params: &[
            Param("list number", WORD),
            Param("number of action words", LIST_WORDS as u64),
            Param("number of value words", LIST_WORDS as u64),
            Param("number of pool words", LIST_WORDS as u64),
        ],
        tail: Tail::Parts,
        meaning: Meaning::Own(|_, given| short_lists::answer(given)),
    },
    Row {
        name: "rewrite",
        params: &[ROOM],
        tail: Tail::Words,
        meaning: Meaning::Own(|_, given| rewrite::line(given.word(0) as usize, &given.list)),
    },
    Row {
        name: "readback",
        params: &[RULE, Param("number of start words", 16_384)],
        tail: Tail::Words,
        meaning: Meaning::Own(readback::answer),
    },
];

/// What a player prints for the room that an image needs.
fn room(image: &[u32]) -> Result<String, u32> {
    check::room(image).map(|room| format!("room {} {}\n", room.outcomes, room.effects))
}

impl Given {
    /// A number whose largest is a word.
    #[must_use]
    pub fn word(&self, at: usize) -> u32 {
        self.numbers[at] as u32
    }
}

/// A call, and what a script gives it.
pub(super) fn apart(call: &Call) -> (&'static str, Given) {
    let given = |numbers: &[u64], list: &[u32]| Given { numbers: numbers.to_vec(), list: list.to_vec(), text: Vec::new() };
    let word = |word: &u32| u64::from(*word);
    match call {
        Call::New { time } => ("new", given(&[*time], &[])),
        Call::Load { time, image } => ("load", given(&[*time], image)),
        Call::Unload { time } => ("unload", given(&[*time], &[])),
        Call::Enable { rule, on } => ("enable", given(&[word(rule), u64::from(*on)], &[])),
        Call::Tick { snapshot } => ("tick", given(&[], snapshot)),
        Call::Run { rule, dry, snapshot } => ("run", given(&[word(rule), u64::from(*dry)], snapshot)),
        Call::Deadline => ("deadline", Given::default()),
        Call::Counters => ("counters", Given::default()),
        Call::Lend { outcomes, effects } => ("lend", given(&[word(outcomes), word(effects)], &[])),
        Call::Size { words } => ("size", given(&[word(words)], &[])),
        Call::Poke { place, word: to } => ("poke", given(&[word(place), word(to)], &[])),
        Call::Peek { place } => ("peek", given(&[word(place)], &[])),
        Call::Own { name, given } => (name, given.clone()),
    }
}

/// What the oracle's own code answers to a call of this name.
pub(crate) fn own(name: &str) -> Option<fn(&House, &Given) -> Result<String, u32>> {
    ROWS.iter().find(|row| row.name == name).and_then(|row| match row.meaning {
        Meaning::House(_) => None,
        Meaning::Own(answer) => Some(answer),
    })
}

/// A line as a call of these rows; None for a blank line or a comment.
pub(super) fn parse(rows: &'static [Row], line: &[u8]) -> Result<Option<Call>, String> {
    let comment = line.iter().position(|byte| *byte == b'#').unwrap_or(line.len());
    let mut rest = &line[..comment];
    let Some(name) = word(&mut rest) else {
        return Ok(None);
    };
    let row = rows.iter().find(|row| row.name.as_bytes() == name).ok_or("no such call")?;
    if row.tail == Tail::Text {
        // What is a comment elsewhere belongs to the text.
        rest = &line[comment - rest.len()..];
    }
    let given = given(row, rest).map_err(|what| format!("{}: {what}", row.name))?;
    Ok(Some(match row.meaning {
        Meaning::House(call) => call(given),
        Meaning::Own(_) => Call::Own { name: row.name, given },
    }))
}

/// The next word, which is taken off.
fn word<'a>(rest: &mut &'a [u8]) -> Option<&'a [u8]> {
    let from = rest.iter().position(|byte| !byte.is_ascii_whitespace())?;
    let left = &rest[from..];
    let length = left.iter().position(u8::is_ascii_whitespace).unwrap_or(left.len());
    let (word, behind) = left.split_at(length);
    *rest = behind;
    Some(word)
}

fn given(row: &Row, mut rest: &[u8]) -> Result<Given, String> {
    let mut given = Given::default();
    for Param(name, most) in row.params {
        let word = word(&mut rest).ok_or_else(|| format!("{name} is missing"))?;
        given.numbers.push(number(word, *most).map_err(|why| format!("{name} {why}"))?);
    }
    match row.tail {
        Tail::Nothing if word(&mut rest).is_some() => return Err("a word too many".to_owned()),
        Tail::Nothing => {}
        Tail::Words => given.list = list(rest)?,
        Tail::Parts => given.list = parts(rest, given.numbers[1..].iter().sum())?,
        Tail::Text => given.text = rest.get(1..).unwrap_or_default().to_vec(),
    }
    Ok(given)
}

/// All words that are left, numbered from 0: an image or a snapshot, which may be empty (and is then refused).
fn list(mut rest: &[u8]) -> Result<Vec<u32>, String> {
    let mut words = Vec::new();
    while let Some(word) = word(&mut rest) {
        let i = words.len();
        if i == LIST_WORDS {
            return Err(format!("more than {LIST_WORDS} words"));
        }
        words.push(number(word, WORD).map_err(|why| format!("word {i} {why}"))? as u32);
    }
    Ok(words)
}

/// All words that are left, which must be so many.
fn parts(rest: &[u8], wanted: u64) -> Result<Vec<u32>, String> {
    let words = list(rest)?;
    match (words.len() as u64).cmp(&wanted) {
        Ordering::Less => Err("a word too few".to_owned()),
        Ordering::Equal => Ok(words),
        Ordering::Greater => Err("a word too many".to_owned()),
    }
}

/// Decimal digits and nothing else, or what is wrong with them.
fn number(word: &[u8], most: u64) -> Result<u64, String> {
    if !word.iter().all(u8::is_ascii_digit) {
        return Err("is no decimal number".to_owned());
    }
    let digits = std::str::from_utf8(word).unwrap_or_default();
    match digits.parse() {
        Ok(number) if number <= most => Ok(number),
        _ => Err(match most {
            TIME => "does not fit into 64 bits".to_owned(),
            WORD => "does not fit into 32 bits".to_owned(),
            MARK => "is neither 0 nor 1".to_owned(),
            _ => format!("is over {most}"),
        }),
    }
}
