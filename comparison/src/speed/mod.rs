//! `comparison speed TIMES`: the time of each call, proved and in Rust, from the same state and on the same words.
//!
//! Each call is made so many times from one state, and the least processor time of the thread counts. Bringing the state back is not timed. The Rust is
//! timed twice: with all that a call on words asks of it (the oracle: checks, decoding, a copy of the engine for the transaction), and the published
//! engine alone, on values that are decoded already. Each check also stands by itself, beside a plain sum over the store's 16,384 words (`checks`).

mod checks;
mod clock;
mod engine;
mod houses;
mod percent;

use std::hint::black_box;
use std::process::ExitCode;
use std::time::Duration;

use cerambiu::{EFFECT_WORDS, OUTCOME_WORDS};
use oracle::house::{Answer, Call};

use crate::calls::house::{expected, made, number, Lent};
use crate::store::WORDS;
use crate::worst;
use checks::Words;
use clock::Clock;
use engine::Bare;
use houses::House;

/// How often a history is played.
const TURNS: u32 = 5;

/// The status of the command; None for another command.
pub fn command() -> Option<ExitCode> {
    let args: Vec<String> = std::env::args().skip(1).collect();
    let [first, times] = args.as_slice() else {
        return None;
    };
    if first == "once" {
        return Some(checks::once(times));
    }
    if first != "speed" {
        return None;
    }
    let Some(times) = times.parse().ok().filter(|times| *times > 0) else {
        eprintln!("usage: comparison speed TIMES");
        return Some(ExitCode::from(2));
    };
    let houses = [
        houses::typical(),
        houses::large(),
        houses::timers(),
        houses::triggers(),
        houses::solar_starts(),
        houses::due(),
        houses::flattening("worst case of flattening: 40,430 actions taken, no step", worst::accepted_actions()),
    ];
    let clock = Clock::new();
    let alike = houses.iter().fold(true, |alike, house| time_house(house, &clock, times) && alike);
    let short = percent::report(&clock, times);
    Some(ExitCode::from(u8::from(!(alike && short))))
}

/// A house in its three forms, each in the same state.
struct Three {
    store: Vec<u32>,
    oracle: oracle::house::House,
    bare: Bare,
    lent: Lent,
}

impl Three {
    /// None where a call on the way is refused.
    fn of(house: &House) -> Option<Three> {
        let [outcomes, effects] = house.room;
        let lent = Lent { answer: 16, outcomes: outcomes * OUTCOME_WORDS, effects: effects * EFFECT_WORDS };
        let (oracle, bare) = (oracle::house::House::new(), Bare::default());
        let mut three = Three { store: vec![0; WORDS], oracle, bare, lent };
        made(&mut three.store, &Call::New { time: 0 }, lent);
        for call in &house.before {
            three.bare.call(call);
            let number = made(&mut three.store, call, lent).number;
            if number != 0 || matches!(three.oracle.call(call), Answer::Refused(_)) {
                println!("{}: refused {number} on the way", house.name);
                return None;
            }
        }
        Some(three)
    }

    /// Whether the proved call and the Rust answer alike.
    fn alike(&self, name: &str, call: &Call) -> bool {
        let answer = self.oracle.clone().call(call);
        let alike = made(&mut self.store.clone(), call, self.lent).without_numbers() == expected(call, &answer, self.lent);
        if !alike {
            println!("{name}: the answers differ");
        }
        alike
    }

    fn time(&mut self, name: &str, call: &Call, clock: &Clock, times: usize) {
        let mut lent = Lending::of(self.lent);
        let proved = clock.least(times, || self.store.clone(), |store| lent.call(store, call));
        let rust = clock.least(times, || self.oracle.clone(), |oracle| oracle.call(call));
        print_line(name, proved, rust, self.bare.time(call, clock, times));
    }

    /// The calls one after the other: the time of one of them, on the average, in the quickest of some turns.
    fn time_history(&mut self, calls: &[Call], clock: &Clock) {
        let mut lent = Lending::of(self.lent);
        let turns = |turn: &mut dyn FnMut() -> Duration| (0..TURNS).map(|_| turn()).min().unwrap_or_default();
        let proved = turns(&mut || {
            let mut store = self.store.clone();
            average(calls, clock, |call| lent.call(&mut store, call))
        });
        let rust = turns(&mut || {
            let mut oracle = self.oracle.clone();
            average(calls, clock, |call| oracle.call(call))
        });
        let engine = turns(&mut || self.bare.average(calls, clock));
        print_line("a call of a quarter of an hour", proved, rust, engine);
    }
}

/// The words that are lent to one call after the other.
struct Lending {
    answer: Vec<u32>,
    outcomes: Vec<u32>,
    effects: Vec<u32>,
}

impl Lending {
    fn of(lent: Lent) -> Lending {
        Lending { answer: vec![0; lent.answer], outcomes: vec![0; lent.outcomes], effects: vec![0; lent.effects] }
    }

    fn call(&mut self, store: &mut [u32], call: &Call) -> u32 {
        number(store, call, &mut self.answer, &mut self.outcomes, &mut self.effects)
    }
}

/// Prints a line for each timed call; whether both answered alike.
fn time_house(house: &House, clock: &Clock, times: usize) -> bool {
    let Some(mut three) = Three::of(house) else {
        return false;
    };
    let sum = clock.least_of_batch(times, || checks::comparison_sum(black_box(&three.store)));
    println!("{}; a sum over the store's words takes {}", house.name, micros(sum));
    let mut alike = Words::of(house, &three.store).is_none_or(|words| words.time(clock, times));
    println!("{:42} {:>10} {:>16} {:>7} {:>12} {:>7}", "", "proved", "Rust from words", "ratio", "Rust engine", "ratio");
    for (name, call) in &house.calls {
        alike &= three.alike(name, call);
        three.time(name, call, clock, times);
    }
    if !house.history.is_empty() {
        three.time_history(&house.history, clock);
    }
    println!();
    alike
}

fn average<R>(calls: &[Call], clock: &Clock, mut make: impl FnMut(&Call) -> R) -> Duration {
    let all = || {
        for call in calls {
            black_box(make(call));
        }
    };
    clock.time(all) / calls.len() as u32
}

fn print_line(name: &str, proved: Duration, rust: Duration, engine: Duration) {
    let ratio = |other: Duration| proved.as_secs_f64() / other.as_secs_f64().max(1e-9);
    println!(
        "{name:42} {:>10} {:>16} {:>7.1} {:>12} {:>7.1}",
        micros(proved),
        micros(rust),
        ratio(rust),
        micros(engine),
        ratio(engine)
    );
}

fn micros(time: Duration) -> String {
    format!("{:.1} us", time.as_secs_f64() * 1e6)
}
