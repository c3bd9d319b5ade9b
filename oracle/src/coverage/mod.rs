//! A table of what random histories and probes have reached, seen from outside:
//! every kind of action, condition, reading, trigger, Fail, effect, counter,
//! refusal and limit.

mod cells;
mod look;
mod set_back;
mod sharing;
mod table;

use std::io::Write;

use crate::generate::{self, probe};
use crate::house::{Call, House};
use crate::random::Random;
pub use table::Coverage;

/// Probes drawn for each history.
const PROBES: u32 = 4;

/// Plays the histories of these seeds, and probes beside them.
pub fn measure(seed: u64, count: u64) -> Coverage {
    let mut coverage = Coverage::new();
    for number in 0..count {
        let seed = seed.wrapping_add(number);
        play(&mut coverage, &generate::history(seed));
        play(&mut coverage, &generate::set_back::history(seed));
        play(&mut coverage, &generate::sharing::history(seed));
        let mut random = Random::new(!seed);
        for _ in 0..PROBES {
            let probe = probe::draw(&mut random);
            let answers = play(&mut coverage, &probe.calls);
            look::probe(&mut coverage, &probe, &answers);
        }
    }
    coverage
}

fn play(coverage: &mut Coverage, calls: &[Call]) -> Vec<crate::house::Answer> {
    let mut house = House::new();
    let mut watcher = look::Watcher::default();
    let mut sharing = sharing::Watcher::default();
    let mut answers = Vec::new();
    for call in calls {
        let clock = set_back::Clock::of(&mut house, call);
        let answer = house.call(call);
        clock.see(coverage, &answer, &mut house);
        sharing.see(coverage, call, &answer, &mut house);
        watcher.see(coverage, call, &answer, &mut house);
        answers.push(answer);
    }
    answers
}

/// `oracle coverage SEED COUNT`: prints the table. Exit status 1 if a reachable cell
/// is empty, or one is reached that is listed as unreachable.
pub fn command(args: &[String]) -> u8 {
    let Some((seed, count)) = seed_and_count(args) else {
        let _ = writeln!(std::io::stderr(), "coverage needs a seed and a count, both decimal");
        return 2;
    };
    let coverage = measure(seed, count);
    let written = std::io::stdout().write_all(coverage.text().as_bytes());
    u8::from(written.is_err() || !coverage.empty().is_empty() || !coverage.surprises().is_empty())
}

fn seed_and_count(args: &[String]) -> Option<(u64, u64)> {
    match args {
        [seed, count] => Some((seed.parse().ok()?, count.parse().ok()?)),
        _ => None,
    }
}

#[cfg(test)]
mod tests {
    use super::measure;

    #[test]
    fn no_reachable_cell_is_empty() {
        let coverage = measure(1, 3_000);
        assert_eq!(coverage.empty(), Vec::<String>::new());
        assert_eq!(coverage.surprises(), Vec::<String>::new());
    }
}
