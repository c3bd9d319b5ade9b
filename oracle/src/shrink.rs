//! Cuts a history on which two engines differ to a small one on which they still
//! differ: fewer calls, then fewer records and rows, then smaller numbers.

mod command;
mod records;

pub use command::command;

use crate::check::{image_refusal, snapshot_refusal};
use crate::house::{Answer, Call, House};

/// More rounds than a history needs; lists that share records could go in circles.
const MAX_ROUNDS: usize = 20;
const STORE_WORDS: u32 = 16_384;
/// Places of the next sequence number and of the last activation number in the store, low word first (docs/STORE.md).
const NUMBERS: [u32; 2] = [13_723, 13_725];

/// The smallest history found for which `differs` holds; the history itself if it
/// does not hold of it. Images and snapshots stay accepted, or keep their refusal.
pub fn shrink(history: &[Call], differs: &dyn Fn(&[Call]) -> bool) -> Vec<Call> {
    let mut work = Work { history: history.to_vec(), differs };
    if !differs(history) {
        return work.history;
    }
    for _ in 0..MAX_ROUNDS {
        let before = work.history.clone();
        work.drop_calls();
        work.try_parts(hoisted);
        work.try_parts(without_part);
        work.shift_times();
        work.lower_numbers();
        if work.history == before {
            break;
        }
    }
    work.history
}

struct Work<'a> {
    history: Vec<Call>,
    differs: &'a dyn Fn(&[Call]) -> bool,
}

impl Work<'_> {
    fn keep_if_differs(&mut self, candidate: Vec<Call>) -> bool {
        let kept = pokes_are_sound(&candidate) && (self.differs)(&candidate);
        if kept {
            self.history = candidate;
        }
        kept
    }

    /// Puts another call in a place, if its words get the same refusal.
    fn replace(&mut self, place: usize, call: Call) -> bool {
        if call == self.history[place] || refusal(&call) != refusal(&self.history[place]) {
            return false;
        }
        let mut candidate = self.history.clone();
        candidate[place] = call;
        self.keep_if_differs(candidate)
    }

    /// Drops runs of calls, long runs first.
    fn drop_calls(&mut self) {
        let mut size = self.history.len();
        while size > 0 {
            let mut place = 0;
            while place < self.history.len() {
                let mut candidate = self.history.clone();
                candidate.drain(place..(place + size).min(self.history.len()));
                if !self.keep_if_differs(candidate) {
                    place += size;
                }
            }
            size /= 2;
        }
    }

    /// Tries the variants of each call in turn.
    fn try_parts(&mut self, variant: fn(&Call, usize) -> Option<Call>) {
        for place in 0..self.history.len() {
            let mut part = 0;
            while let Some(smaller) = variant(&self.history[place], part) {
                if !self.replace(place, smaller) {
                    part += 1;
                }
            }
        }
    }

    /// Makes all times earlier together, so that the differences between them stay.
    fn shift_times(&mut self) {
        let times: Vec<u64> = self.history.iter().filter_map(now).collect();
        for by in times.into_iter().filter(|time| *time > 0) {
            let candidate: Vec<Call> = self.history.iter().map(|call| earlier(call, by)).collect();
            self.keep_if_differs(candidate);
        }
    }

    fn lower_numbers(&mut self) {
        for place in 0..self.history.len() {
            for number in 0..numbers(&mut self.history[place].clone()).len() {
                self.lower_number(place, number);
            }
            self.lower_time(place);
        }
    }

    fn lower_number(&mut self, place: usize, number: usize) {
        loop {
            let old = numbers(&mut self.history[place].clone()).get(number).map_or(0, |word| **word);
            let lowered = smaller(u64::from(old)).into_iter().any(|new| {
                let mut call = self.history[place].clone();
                if let Some(word) = numbers(&mut call).get_mut(number) {
                    **word = new as u32;
                }
                self.replace(place, call)
            });
            if !lowered {
                return;
            }
        }
    }

    fn lower_time(&mut self, place: usize) {
        loop {
            let old = time(&mut self.history[place].clone()).map_or(0, |time| *time);
            let lowered = smaller(old).into_iter().any(|new| {
                let mut call = self.history[place].clone();
                if let Some(time) = time(&mut call) {
                    *time = new;
                }
                self.replace(place, call)
            });
            if !lowered {
                return;
            }
        }
    }
}

/// Numbers to try in the place of a larger one.
fn smaller(number: u64) -> Vec<u64> {
    let mut tries = vec![0, 1, number / 2, number.saturating_sub(1)];
    tries.retain(|new| *new < number);
    tries
}

/// The words of a call that may be made smaller. Poked words stay as they are.
fn numbers(call: &mut Call) -> Vec<&mut u32> {
    match call {
        Call::Load { image, .. } => image.iter_mut().collect(),
        Call::Tick { snapshot } => snapshot.iter_mut().collect(),
        Call::Run { rule, snapshot, .. } => std::iter::once(rule).chain(snapshot).collect(),
        Call::Enable { rule, .. } => vec![rule],
        Call::Lend { outcomes, effects } => vec![outcomes, effects],
        _ => Vec::new(),
    }
}

fn time(call: &mut Call) -> Option<&mut u64> {
    match call {
        Call::New { time } | Call::Load { time, .. } | Call::Unload { time } => Some(time),
        _ => None,
    }
}

/// The time that a call carries, in words of its own or in its snapshot.
fn now(call: &Call) -> Option<u64> {
    match call {
        Call::New { time } | Call::Load { time, .. } | Call::Unload { time } => Some(*time),
        Call::Tick { snapshot } | Call::Run { snapshot, .. } => match snapshot.as_slice() {
            [low, high, ..] => Some(u64::from(*low) | u64::from(*high) << 32),
            _ => None,
        },
        _ => None,
    }
}

fn earlier(call: &Call, by: u64) -> Call {
    let mut call = call.clone();
    let Some(old) = now(&call) else {
        return call;
    };
    let new = old.saturating_sub(by);
    match &mut call {
        Call::New { time } | Call::Load { time, .. } | Call::Unload { time } => *time = new,
        Call::Tick { snapshot } | Call::Run { snapshot, .. } => {
            for (word, half) in snapshot.iter_mut().zip(crate::build::pair(new)) {
                *word = half;
            }
        }
        _ => {}
    }
    call
}

fn refusal(call: &Call) -> Option<u32> {
    match call {
        Call::Load { image, .. } => image_refusal(image),
        Call::Tick { snapshot } | Call::Run { snapshot, .. } => snapshot_refusal(snapshot),
        _ => None,
    }
}

/// The call without one record, row or word; None when there is none left to drop.
fn without_part(call: &Call, part: usize) -> Option<Call> {
    match call {
        Call::Load { time, image } => {
            let image = records::image_without(image, part)?;
            Some(Call::Load { time: *time, image })
        }
        Call::Tick { snapshot } => {
            Some(Call::Tick { snapshot: records::snapshot_without(snapshot, part)? })
        }
        Call::Run { rule, dry, snapshot } => {
            let snapshot = records::snapshot_without(snapshot, part)?;
            Some(Call::Run { rule: *rule, dry: *dry, snapshot })
        }
        _ => None,
    }
}

/// The call with the list around a nested list replaced by the nested one.
fn hoisted(call: &Call, part: usize) -> Option<Call> {
    match call {
        Call::Load { time, image } => {
            let image = records::image_hoisted(image, part)?;
            Some(Call::Load { time: *time, image })
        }
        _ => None,
    }
}

/// A next sequence number, or a last activation number, below that of a pending record breaks a
/// store rule, and a store of another size may lack the word. The oracle tests neither, so such
/// histories are left out.
fn pokes_are_sound(history: &[Call]) -> bool {
    let mut house = House::new();
    let mut full = true;
    history.iter().all(|call| {
        let before = poked_numbers(&mut house);
        house.call(call);
        match call {
            Call::Size { words } => {
                full = *words == STORE_WORDS;
                true
            }
            Call::Poke { .. } => full && poked_numbers(&mut house).iter().zip(before).all(|(new, old)| *new >= old),
            Call::Peek { .. } => full,
            _ => true,
        }
    })
}

/// High word first.
fn poked_numbers(house: &mut House) -> [(u32, u32); 2] {
    let mut word = |place| match house.call(&Call::Peek { place }) {
        Answer::Word(word) => word,
        _ => 0,
    };
    NUMBERS.map(|place| (word(place + 1), word(place)))
}

#[cfg(test)]
mod tests;
