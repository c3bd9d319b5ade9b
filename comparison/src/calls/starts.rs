//! What starts next by the wall clock (document 02, request 7): the proved call beside the oracle's own code, which asks the published due test minute by minute.

use oracle::access::NextStart;
use oracle::house::{Answer, Call};
use oracle::next_start;

pub const CELLS: [&str; 7] = ["none", "unknown", "in 1 minute", "in 10,080 minutes", "in others", "AtTime", "AtSolar"];

#[derive(Default)]
pub struct Starts {
    pub counts: [u64; 7],
}

impl Starts {
    pub fn see(&mut self, start: &NextStart) {
        let cell = match start {
            NextStart::None => 0,
            NextStart::ClockUnknown => 1,
            NextStart::Start { minutes: 1, .. } => 2,
            NextStart::Start { minutes: 10_080, .. } => 3,
            NextStart::Start { .. } => 4,
        };
        self.counts[cell] += 1;
        if let Some(solar) = next_start::is_solar(start) {
            self.counts[5 + usize::from(solar)] += 1;
        }
    }
}

/// The snapshot of the call.
pub fn snapshot(call: &Call) -> Option<&[u32]> {
    match call {
        Call::Own { name: "start", given } => Some(&given.list),
        _ => None,
    }
}

/// The answer as the oracle's player gives it.
pub fn answer(start: &Result<NextStart, u32>) -> Answer {
    match start {
        Ok(start) => Answer::Own(next_start::line(start)),
        Err(number) => Answer::Refused(*number),
    }
}

/// The three values of a line that a player prints: mark, minutes, rule.
pub fn values(line: &str) -> Vec<u32> {
    let words: Vec<&str> = line.split_whitespace().collect();
    match words[..] {
        ["start", "none"] => vec![0, 0, 0],
        ["start", "unknown"] => vec![2, 0, 0],
        ["start", minutes, rule] => [1].into_iter().chain([minutes, rule].map(|word| word.parse().unwrap_or(u32::MAX))).collect(),
        _ => Vec::new(),
    }
}
