//! A set for the bench, as people write it: a line for each record, `#` starts a comment.
//!
//! ```text
//! action Wait 1000        a kind of action, by its name in document 01 or by its number, and its fields; words past them are 0
//! value reading 0 1 4     a value: literal LOW HIGH, reading CODE A B C, offset CODE A B C DELTA; the first is value 0
//! pool 4 5 6              words of the pool, behind those before
//! ```
//!
//! A number is decimal; a negative one is written as the two's complement that a signed word has.

use oracle::short_lists;

const PERCENT: u32 = 28;
const RECORD: usize = 8;
const ACTIONS: [&str; 29] = [
    "Light", "Recall", "Apply", "Cycle", "HclResume", "HclHold", "HclEnable", "HclDisable", "FeedbackOn", "FeedbackOff", "PanelSelect",
    "CancelHold", "CatchMovement", "TimerStart", "TimerRestart", "TimerCancel", "VarSet", "VarAdd", "RuleEnable", "RuleDisable",
    "MqttPublish", "Log", "StatCount", "Wait", "After", "Call", "Repeat", "Conditional", "Percent",
];
const VALUES: [&str; 3] = ["literal", "reading", "offset"];

#[derive(Clone, Debug, Default, PartialEq)]
pub struct Set {
    pub actions: Vec<u32>,
    pub values: Vec<u32>,
    pub pool: Vec<u32>,
}

impl Set {
    /// The set of a file, or the line that is none and why.
    pub fn read(text: &str) -> Result<Set, String> {
        let mut set = Set::default();
        for (at, line) in text.lines().enumerate() {
            let mut words = line.split('#').next().unwrap_or_default().split_whitespace();
            let Some(what) = words.next() else {
                continue;
            };
            set.line(what, &words.collect::<Vec<_>>()).map_err(|why| format!("line {}: {why}", at + 1))?;
        }
        Ok(set)
    }

    fn line(&mut self, what: &str, rest: &[&str]) -> Result<(), String> {
        match what {
            "action" => self.actions.extend(record(&ACTIONS, rest)?),
            "value" => self.values.extend(record(&VALUES, rest)?),
            "pool" => self.pool.extend(numbers(rest)?),
            _ => return Err(format!("no action, value or pool: {what}")),
        }
        Ok(())
    }

    pub fn words(&self) -> short_lists::Set<'_> {
        short_lists::Set { actions: &self.actions, values: &self.values, pool: &self.pool }
    }

    pub fn kinds(&self) -> impl Iterator<Item = u32> + '_ {
        self.actions.chunks(RECORD).map(|record| record[0])
    }

    /// Whether the record at a place is of kind 28.
    pub fn is_percent(&self, place: usize) -> bool {
        self.kinds().nth(place) == Some(PERCENT)
    }
}

/// A kind and its fields, with zeros behind them.
fn record(kinds: &[&str], words: &[&str]) -> Result<[u32; RECORD], String> {
    let (kind, fields) = words.split_first().ok_or("a kind is missing")?;
    let place = kinds.iter().position(|name| name == kind);
    let kind = place.map_or_else(|| number(kind).map_err(|_| format!("no kind: {kind}")), |place| Ok(place as u32))?;
    let fields = numbers(fields)?;
    if fields.len() >= RECORD {
        return Err(format!("more than {} fields", RECORD - 1));
    }
    let mut record = [0; RECORD];
    record[0] = kind;
    record[1..=fields.len()].copy_from_slice(&fields);
    Ok(record)
}

fn numbers(words: &[&str]) -> Result<Vec<u32>, String> {
    words.iter().map(|word| number(word)).collect()
}

fn number(word: &str) -> Result<u32, String> {
    let signed = || word.parse().map(|number: i32| number as u32);
    word.parse().or_else(|_| signed()).map_err(|_| format!("no number of 32 bits: {word}"))
}

#[cfg(test)]
mod tests {
    use super::Set;

    #[test]
    fn names_numbers_and_comments() {
        let set = Set::read("action Log 7 # a log\n\naction 23 1000\nvalue offset 18 1 0 0 -1\npool 1 2\npool 3\n").expect("a set");
        assert_eq!(set.actions, [21, 7, 0, 0, 0, 0, 0, 0, 23, 1000, 0, 0, 0, 0, 0, 0]);
        assert_eq!(set.values, [2, 18, 1, 0, 0, u32::MAX, 0, 0]);
        assert_eq!(set.pool, [1, 2, 3]);
    }

    #[test]
    fn a_line_that_is_none_is_named() {
        for (text, why) in [
            ("pool 1\nlog 7", "line 2: no action, value or pool: log"),
            ("action", "line 1: a kind is missing"),
            ("action Fly 1", "line 1: no kind: Fly"),
            ("action Log x", "line 1: no number of 32 bits: x"),
            ("action Log 1 2 3 4 5 6 7 8", "line 1: more than 7 fields"),
        ] {
            assert_eq!(Set::read(text), Err(why.to_owned()));
        }
    }
}
