//! A history twice, on the proved calls: with its images, and with each image that is written replaced by its written one. Every answer is the same.

use oracle::generate;
use oracle::house::Call;

use crate::calls::house::{House, Lent, Seen};

/// What is lent to a tick or run, if the history does not lend less.
const MOST: Lent = Lent { answer: 20, outcomes: cerambiu::OUTCOME_WORDS * 256, effects: cerambiu::EFFECT_WORDS * 2_048 };

struct Unit {
    house: House,
    lent: Lent,
}

impl Default for Unit {
    fn default() -> Unit {
        Unit { house: House::default(), lent: MOST }
    }
}

impl Unit {
    /// What a line of a history answers; behind each call also the deadline and the counters. Words of the store itself are not looked at: they have the image.
    fn line(&mut self, call: &Call) -> Vec<Seen> {
        match call {
            Call::Lend { outcomes, effects } => {
                let (outcomes, effects) = (MOST.outcomes.min(*outcomes as usize), MOST.effects.min(*effects as usize));
                self.lent = Lent { outcomes, effects, ..MOST };
            }
            Call::Size { words } => self.house.size = *words as usize,
            Call::Poke { place, word } => self.house.store[*place as usize] = *word,
            Call::Peek { .. } => {}
            Call::Own { name, .. } if *name != "start" => {}
            _ => return [call, &Call::Deadline, &Call::Counters].map(|call| self.house.call(call, self.lent)).to_vec(),
        }
        Vec::new()
    }
}

/// How many answers were compared, and the first call whose answers differ.
pub fn compare(history: &[Call], mut written: impl FnMut(&[u32]) -> Option<Vec<u32>>) -> (u64, Option<usize>) {
    let (mut given, mut anew) = (Unit::default(), Unit::default());
    let mut answers = 0;
    for (at, call) in history.iter().enumerate() {
        let before = given.line(call);
        let behind = match call {
            Call::Load { time, image } => {
                let image = written(image).unwrap_or_else(|| image.clone());
                anew.line(&Call::Load { time: *time, image })
            }
            other => anew.line(other),
        };
        answers += before.len() as u64;
        if before != behind {
            return (answers, Some(at));
        }
    }
    (answers, None)
}

/// The generated histories of a seed.
pub fn of(seed: u64) -> [Vec<Call>; 5] {
    [
        generate::history(seed),
        generate::set_back::history(seed),
        generate::sharing::history(seed),
        generate::starts::history(seed),
        generate::due::history(seed),
    ]
}
