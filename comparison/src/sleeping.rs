//! `comparison sleeping HISTORIES SEED`: document 02's request 12. Histories whose sets have no AtTime or AtSolar trigger, with ticks put in that come before every due time
//! then in the store, beside the same histories without them; on the proved calls and on the Rust.
//!
//! Of each given call: the same number, values, outcomes and effects, word by word; of each added tick: no outcome. Of the stores at the end: the same words but those of the last
//! time and of the previous week minute. Prints each difference and the counts; its status is 1 if there is a difference or something was never met.

use std::process::ExitCode;

use oracle::generate::{self, evaluation};
use oracle::house::{Answer, Call};
use oracle::random::Random;

use crate::calls::house::{House, Lent, Seen};
use crate::kept::Player;
use crate::store::pair;
use crate::store_reader;

const LENT: Lent = Lent { answer: 20, outcomes: 24_576, effects: 327_680 };
/// Where the previous week minute stands: docs/STORE.md.
const WEEK_MINUTE: usize = 13_721;
const TRAILER: usize = 13;
const RECORD: usize = 8;
/// Kinds of a trigger: AtTime and AtSolar become one that is never due.
const WALL: [u32; 2] = [2, 3];
const OTHER: u32 = 4;
/// Ticks put in before a given call, at most.
const MOST_ADDED: u32 = 3;

/// The status of the command; None for another command.
pub fn command() -> Option<ExitCode> {
    let args: Vec<String> = std::env::args().skip(1).collect();
    let (first, numbers) = args.split_first()?;
    if first != "sleeping" {
        return None;
    }
    let numbers: Vec<u64> = numbers.iter().map_while(|word| word.parse().ok()).collect();
    let [histories, seed] = numbers[..] else {
        eprintln!("usage: comparison sleeping HISTORIES SEED");
        return Some(ExitCode::from(2));
    };
    let mut tally = Tally::default();
    (seed..seed + histories).for_each(|seed| tally.history(seed));
    Some(ExitCode::from(u8::from(!tally.report(histories))))
}

#[derive(Default)]
struct Tally {
    given: u64,
    outcomes: u64,
    added: u64,
    without_due: u64,
    just_before: u64,
    back: u64,
    without_room: u64,
    differences: u64,
}

/// A store behind both engines.
#[derive(Default)]
struct Unit {
    house: House,
    player: Player,
}

impl Unit {
    fn call(&mut self, call: &Call, lent: Lent) -> (Seen, Answer) {
        (self.house.call(call, lent), self.player.call(call))
    }
}

impl Tally {
    fn ask(&mut self, holds: bool, text: impl FnOnce() -> String) {
        if !holds {
            self.differences += 1;
            if self.differences <= 10 {
                println!("{}", text().chars().take(400).collect::<String>());
            }
        }
    }

    fn history(&mut self, seed: u64) {
        let (mut awake, mut asleep) = (Unit::default(), Unit::default());
        let mut random = Random::new(seed);
        let mut last = 0;
        for call in given_calls(seed) {
            for _ in 0..random.below(MOST_ADDED + 1) {
                last = self.add(&mut awake, &mut random, seed, last);
            }
            let (with, without) = (awake.call(&call, LENT), asleep.call(&call, LENT));
            self.given += 1;
            if let Answer::Outcomes { list, .. } = &with.1 {
                self.outcomes += list.len() as u64;
            }
            self.ask(with == without, || format!("history {seed}: {call:?}: {with:?}, without the added ticks {without:?}"));
        }
        let apart = |place: &usize| awake.house.store[*place] != asleep.house.store[*place] && !is_time_word(*place);
        let place = (0..awake.house.store.len()).find(apart);
        self.ask(place.is_none(), || format!("history {seed}: word {place:?} of the stores at the end differs"));
    }

    /// A tick before every due time of the store; gives its time.
    fn add(&mut self, unit: &mut Unit, random: &mut Random, seed: u64, last: u64) -> u64 {
        let Ok(store) = store_reader::read(&unit.house.store) else {
            self.ask(false, || format!("history {seed}: the store breaks a rule"));
            return last;
        };
        let pending = store.pending.iter().map(|held| held.due);
        let due = pending.chain(store.timers.iter().map(|timer| timer.due)).chain(store.slots.iter().map(|slot| slot.due)).min();
        let time = match due {
            Some(0) => return last,
            Some(due) if random.bit() == 0 => due - 1,
            Some(due) => random.next() % due,
            None => random.next(),
        };
        let mut snapshot = evaluation::snapshot(random).words();
        snapshot[..2].copy_from_slice(&pair(time));
        let lent = if random.bit() == 0 { Lent { answer: 2, outcomes: 0, effects: 0 } } else { LENT };
        let (seen, answer) = unit.call(&Call::Tick { snapshot }, lent);
        self.added += 1;
        self.without_due += u64::from(due.is_none());
        self.just_before += u64::from(due == Some(time.wrapping_add(1)));
        self.back += u64::from(time < last);
        self.without_room += u64::from(lent.outcomes == 0);
        let empty = matches!(&answer, Answer::Outcomes { list, .. } if list.is_empty());
        self.ask(empty && seen.number == 0, || format!("history {seed}: an added tick at {time}: {seen:?}, {answer:?}"));
        let words = [&seen.answer, &seen.outcomes, &seen.effects];
        self.ask(words.iter().all(|words| words.iter().all(|word| *word == 0)), || format!("history {seed}: an added tick at {time} leaves words"));
        time
    }

    fn report(&self, histories: u64) -> bool {
        let Tally { given, outcomes, added, without_due, just_before, back, without_room, differences } = self;
        println!("sleeping: {histories} histories, {given} given calls with {outcomes} outcomes, {added} added ticks ({without_due} with nothing due, {just_before} a millisecond before it, {back} with a time that goes back, {without_room} without room), {differences} differences");
        *differences == 0 && [given, outcomes, added, without_due, just_before, back, without_room].iter().all(|count| **count > 0)
    }
}

fn is_time_word(place: usize) -> bool {
    place < 2 || (WEEK_MINUTE..WEEK_MINUTE + 2).contains(&place)
}

/// A generated history without lines that are no calls, its sets without wall triggers.
fn given_calls(seed: u64) -> Vec<Call> {
    let eight = |call: &Call| !matches!(call, Call::Lend { .. } | Call::Size { .. } | Call::Poke { .. } | Call::Peek { .. } | Call::Own { .. });
    generate::history(seed).into_iter().filter(eight).map(without_wall).collect()
}

fn without_wall(call: Call) -> Call {
    match call {
        Call::Load { time, mut image } => {
            if oracle::check::image_refusal(&image).is_none() {
                let at = image.len() - TRAILER;
                let (first, end) = (image[at + 7] as usize, image[at + 8] as usize);
                for record in image[first..end].chunks_exact_mut(RECORD).filter(|record| WALL.contains(&record[0])) {
                    record.fill(0);
                    record[0] = OTHER;
                }
            }
            Call::Load { time, image }
        }
        call => call,
    }
}
