//! Each check by itself, beside a plain sum over the store's words in the same run.
//!
//! `comparison once HOUSE` makes each of them once, for a tool that counts instructions (docs/PERFORMANCE.md).

use std::hint::black_box;
use std::process::ExitCode;

use oracle::house::Call;

use super::clock::Clock;
use super::houses::{self, House};
use super::{micros, Three};
use crate::proved;

/// What is checked: the words of one house.
pub struct Words<'a> {
    image: &'a [u32],
    snapshot: &'a [u32],
    store: &'a [u32],
}

/// A check with its name, how many words it is given, and whether it passes.
struct Check<'a> {
    name: &'static str,
    words: &'a [u32],
    passes: fn(&[u32]) -> bool,
}

/// Not inlined, and with a name that a tool finds.
#[no_mangle]
#[inline(never)]
pub fn comparison_sum(words: &[u32]) -> u32 {
    words.iter().fold(0, |sum, word| sum.wrapping_add(*word))
}

impl<'a> Words<'a> {
    /// None for a house that is given no image or no snapshot.
    pub fn of(house: &'a House, store: &'a [u32]) -> Option<Words<'a>> {
        let image = house.before.iter().find_map(|call| match call {
            Call::Load { image, .. } => Some(image.as_slice()),
            _ => None,
        })?;
        let snapshot = house.before.iter().find_map(|call| match call {
            Call::Tick { snapshot } => Some(snapshot.as_slice()),
            _ => None,
        })?;
        Some(Words { image, snapshot, store })
    }

    fn checks(&self) -> [Check<'a>; 6] {
        let check = |name, words, passes| Check { name, words, passes };
        [
            check("image, 10 to 15", self.image, |words| proved::tables_refusal(words) == 0),
            check("image, 10 to 17 (flattens)", self.image, |words| proved::image_refusal(words) == 0),
            check("room of the image (flattens)", self.image, |words| cerambiu::words::room(words, &mut [0; 2]) == 0),
            check("snapshot, 20 to 22", self.snapshot, |words| proved::snapshot_refusal(words) == 0),
            check("shape of the store", self.store, proved::store_shaped),
            check("whole store (flattens)", self.store, proved::store_check),
        ]
    }

    /// Prints a line for each check; whether all of them passed.
    pub fn time(&self, clock: &Clock, times: usize) -> bool {
        let sum = clock.least_of_batch(times, || comparison_sum(black_box(self.store)));
        println!("{:42} {:>10} {:>16} {:>7}", "a check by itself", "proved", "words", "sums");
        self.checks().iter().fold(true, |fine, check| {
            let took = clock.least_of_batch(times, || (check.passes)(black_box(check.words)));
            let sums = took.as_secs_f64() / sum.as_secs_f64().max(1e-9);
            println!("{:42} {:>10} {:>16} {sums:>7.1}", check.name, micros(took), check.words.len());
            (check.passes)(check.words) && fine
        })
    }
}

/// Makes each check once; the status of the command.
pub fn once(name: &str) -> ExitCode {
    let house = match name {
        "typical" => houses::typical(),
        "large" => houses::large(),
        _ => {
            eprintln!("usage: comparison once typical|large");
            return ExitCode::from(2);
        }
    };
    let Some(three) = Three::of(&house) else {
        return ExitCode::FAILURE;
    };
    let Some(words) = Words::of(&house, &three.store) else {
        return ExitCode::FAILURE;
    };
    println!("a sum: {}", comparison_sum(black_box(words.store)));
    let failed = words.checks().iter().filter(|check| !(check.passes)(black_box(check.words))).count();
    println!("{failed} checks failed");
    ExitCode::from(u8::from(failed > 0))
}
