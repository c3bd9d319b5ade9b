//! Which refusal applies, and why: down to table, record, word and field. Document 01, "Who can cause a refusal": lowest number wins.
//!
//! `explain` reads the words by itself; the tests hold its number to that of the proved calls.

mod content;
pub mod image;
pub mod reach;
pub mod snapshot;
pub mod store;

/// One place where words break what a refusal asks.
#[derive(Clone, Debug, PartialEq, Eq)]
pub struct Finding {
    pub what: String,
    /// The record, and how it is reached.
    pub more: Vec<String>,
}

impl Finding {
    pub fn new(what: impl Into<String>) -> Finding {
        Finding { what: what.into(), more: Vec::new() }
    }
}

/// The refusal and all places that break it.
#[derive(Clone, Debug, PartialEq, Eq)]
pub struct Refusal {
    pub number: u32,
    pub findings: Vec<Finding>,
}

impl Refusal {
    fn of(number: u32, findings: Vec<Finding>) -> Option<Refusal> {
        (!findings.is_empty()).then_some(Refusal { number, findings })
    }
}

/// Findings that are shown beside the first.
const MOST_SHOWN: usize = 12;

/// A refusal in words. `by` is the call, `later` the refusals that were not reached.
pub fn text(refusal: &Refusal, by: &str, later: &[u32]) -> String {
    let mut text = String::new();
    let mut line = |words: String| {
        text.push_str(&words);
        text.push('\n');
    };
    let number = refusal.number;
    for (place, finding) in refusal.findings.iter().take(MOST_SHOWN).enumerate() {
        match place {
            0 => line(format!("refused {number} by {by}: {}", finding.what)),
            _ => line(format!("also {number}: {}", finding.what)),
        }
        finding.more.iter().for_each(|more| line(format!("  {more}")));
    }
    let left = refusal.findings.len().saturating_sub(MOST_SHOWN);
    if left > 0 {
        line(format!("and {left} further places break {number}"));
    } else if refusal.findings.len() == 1 {
        line(format!("nothing else breaks {number}"));
    }
    let later: Vec<String> = later.iter().filter(|other| **other > number).map(u32::to_string).collect();
    match later.len() {
        0 => {}
        1 => line(format!("{} was not reached", later[0])),
        _ => line(format!("{} were not reached", later.join(", "))),
    }
    text
}
