//! The room that an image needs: the proved call beside the oracle's count, and what ticks and runs give beside what their set was told.

use cerambiu::{words, EFFECT_WORDS, OUTCOME_WORDS};
use oracle::check;
use oracle::house::{Answer, Call};

use crate::calls::house::{filled, zeros_behind, Lent};

const ANSWER_WORDS: usize = 3;
/// No room is lent for more effects than this, so that a call stays short.
const MOST_LENT: usize = 2_048;

pub const CELLS: [&str; 6] = [
    "images told", "images refused", "ticks and runs within", "as many outcomes as told", "as many effects as told", "lent exactly that",
];
pub const WITHIN: usize = 2;
pub const LENT: usize = 5;

/// Outcomes and effects, in records.
type Records = [usize; 2];

/// What the image is told: the refusal's number, or the room.
///
/// # Errors
/// Where the proved call and the oracle's count differ in number, values, or the words behind them.
pub fn told(image: &[u32]) -> Result<Result<Records, u32>, String> {
    let mut answer = filled(ANSWER_WORDS);
    let number = words::room(image, &mut answer);
    let counted = check::room(image);
    let (wanted, values) = match counted {
        Ok(room) => (0, vec![room.outcomes as u32, room.effects as u32]),
        Err(number) => (number, Vec::new()),
    };
    if number != wanted || answer != zeros_behind(values, ANSWER_WORDS) {
        return Err(format!("room: proved {number} {answer:?}, oracle {counted:?}"));
    }
    Ok(counted.map(|room| [room.outcomes as usize, room.effects as usize]))
}

/// What the loaded set was told: nothing without a set.
#[derive(Default)]
pub struct Room {
    loaded: Records,
}

impl Room {
    /// A call and the Rust's answer, which the proved call's is held to elsewhere.
    ///
    /// # Errors
    /// Where two rooms differ, or a tick or a run gives more than its set was told.
    pub fn see(&mut self, call: &Call, answer: &Answer, counts: &mut [u64; CELLS.len()]) -> Result<(), String> {
        match (call, answer) {
            (Call::Load { image, .. }, _) => {
                let room = told(image)?;
                counts[usize::from(room.is_err())] += 1;
                if let (Ok(room), Answer::Silent) = (room, answer) {
                    self.loaded = room;
                }
            }
            (Call::New { .. } | Call::Unload { .. }, Answer::Silent) => self.loaded = [0, 0],
            (_, Answer::Outcomes { list, .. }) => {
                let given = [list.len(), list.iter().map(|outcome| outcome.effects.len()).sum()];
                if (0..2).any(|part| given[part] > self.loaded[part]) {
                    return Err(format!("{call:?}: gives {given:?}, told {:?}", self.loaded));
                }
                counts[WITHIN] += 1;
                for part in 0..2 {
                    counts[WITHIN + 1 + part] += u64::from(given[part] > 0 && given[part] == self.loaded[part]);
                }
            }
            _ => {}
        }
        Ok(())
    }

    /// Exactly the words that the loaded set was told to need, if they are not very many.
    pub fn lent(&self, answer: usize) -> Option<Lent> {
        let [outcomes, effects] = self.loaded;
        let lent = Lent { answer, outcomes: outcomes * OUTCOME_WORDS, effects: effects * EFFECT_WORDS };
        (effects <= MOST_LENT).then_some(lent)
    }
}
