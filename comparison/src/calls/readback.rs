//! The readback of solar starts (document 02, request 4): the proved call beside the oracle's own code, with minutes of the published `solar_minute` and remainders of
//! Rust's `%` on i32.

use oracle::house::Answer;
use oracle::readback::{self, Start, START_WORDS};

pub const CELLS: [&str; 8] = ["no start", "one", "more", "unknown rule", "without a sun", "left before", "left after", "whole minutes"];

/// The starts that rules had.
#[derive(Default)]
pub struct Readbacks {
    pub counts: [u64; 8],
}

impl Readbacks {
    /// Of a rule that is loaded, or of one that is not.
    pub fn see(&mut self, loaded: bool, starts: &[Start]) {
        self.counts[if loaded { starts.len().min(2) } else { 3 }] += 1;
        for start in starts {
            let cell = match start {
                None => 4,
                Some((_, remainder)) if *remainder < 0 => 5,
                Some((_, remainder)) if *remainder > 0 => 6,
                Some(_) => 7,
            };
            self.counts[cell] += 1;
        }
    }

    /// How many were accepted, and how many starts they gave.
    pub fn sums(&self) -> [u64; 2] {
        let [rules, starts] = [&self.counts[..4], &self.counts[4..]].map(|counts| counts.iter().sum());
        [rules, starts]
    }
}

/// The answer as the oracle's player gives it.
pub fn answer(starts: &Result<Vec<Start>, u32>) -> Answer {
    match starts {
        Ok(starts) => Answer::Own(readback::lines(starts)),
        Err(number) => Answer::Refused(*number),
    }
}

/// The words that so many starts take.
pub fn needed(starts: &[Start]) -> usize {
    starts.len() * START_WORDS
}

/// The value of the lines that a player prints, and the words of their starts: the remainder's is two's complement.
pub fn words(lines: &str) -> (Vec<u32>, Vec<u32>) {
    let word = |text: &str| text.parse().or_else(|_| text.parse().map(i32::cast_unsigned)).unwrap_or(u32::MAX);
    let mut rows = lines.lines().map(|line| line.split_whitespace().skip(1).map(word).collect::<Vec<u32>>());
    (rows.next().unwrap_or_default(), rows.flatten().collect())
}
