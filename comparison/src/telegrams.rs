//! `comparison telegrams LISTS SEED`: the proved list of telegrams beside the oracle's own code, which is written from the request alone: the
//! published engine has no such list.
//!
//! - Every list of up to six records over a small alphabet, with exactly enough room, with more, and with a word too few. On each list every
//!   selection by places is tried: none that keeps the other effects and sets the same lamps is shorter than the kept list.
//! - So many long random lists, some of them no effects, with any room.
//! - The time of 60,000 effects over 500 targets.

use std::process::ExitCode;
use std::time::Instant;

use cerambiu::words;
use oracle::random::Random;
use oracle::telegrams::{cuts, target, telegrams, NO_ROOM};

use crate::calls::house::{filled, zeros_behind};

type Effect = [u32; 5];

const LONGEST: u32 = 6;
/// Two levels and another hold for one lamp, a level for a second one, a Log, a Light, an MqttPublish.
const ALPHABET: [Effect; 7] = [
    [12, 1, 10, 0, 0],
    [12, 1, 20, 0, 0],
    [12, 1, 20, 1, 0],
    [12, 2, 10, 0, 0],
    [11, 7, 0, 0, 0],
    [0, 1, 3, 0, 0],
    [10, 5, 6, 0, 0],
];
const MOST_RECORDS: u32 = 2_000;
const TIMED: usize = 60_000;
const TARGETS: u32 = 500;

/// The status of the command; None for another command.
pub fn command() -> Option<ExitCode> {
    let args: Vec<String> = std::env::args().skip(1).collect();
    let (first, numbers) = args.split_first()?;
    if first != "telegrams" {
        return None;
    }
    let numbers: Vec<u64> = numbers.iter().map_while(|word| word.parse().ok()).collect();
    let [lists, seed] = numbers[..] else {
        eprintln!("usage: comparison telegrams LISTS SEED");
        return Some(ExitCode::from(2));
    };
    let mut tally = Tally::default();
    tally.small();
    tally.random(lists, seed);
    Some(ExitCode::from(u8::from(!tally.report())))
}

#[derive(Default)]
struct Tally {
    small: u64,
    selections: u64,
    fitting: u64,
    random: u64,
    calls: u64,
    refused: [u64; 2],
    left_out: u64,
    differences: u64,
}

impl Tally {
    fn ask(&mut self, holds: bool, what: &str, list: &[u32]) {
        if !holds {
            self.differences += 1;
            if self.differences <= 10 {
                println!("{what}: {:?}", &list[..list.len().min(60)]);
            }
        }
    }

    /// One call of both: the number, the count and every lent word.
    fn call(&mut self, effects: &[u32], room: usize, answer_words: usize) {
        let (mut list, mut answer) = (filled(room), filled(answer_words));
        let number = words::telegrams(effects, &mut list, &mut answer);
        let wanted = telegrams(room, effects);
        let (wanted_number, kept) = match wanted {
            Ok(kept) => (0, kept),
            Err(number) => (number, Vec::new()),
        };
        self.calls += 1;
        match wanted_number {
            0 => self.left_out += (effects.len() / 5 - kept.len()) as u64,
            NO_ROOM => self.refused[1] += 1,
            _ => self.refused[0] += 1,
        }
        let same = number == wanted_number
            && list == zeros_behind(kept.concat(), room)
            && answer == zeros_behind(vec![kept.len() as u32], answer_words);
        self.ask(same, &format!("room {room}: proved {number}, wanted {wanted_number}"), effects);
    }

    fn small(&mut self) {
        for length in 0..=LONGEST {
            for code in 0..ALPHABET.len().pow(length) {
                let list: Vec<Effect> =
                    (0..length).map(|at| ALPHABET[code / ALPHABET.len().pow(at) % ALPHABET.len()]).collect();
                self.small_list(&list);
            }
        }
    }

    fn small_list(&mut self, effects: &[Effect]) {
        self.small += 1;
        let flat = effects.concat();
        let kept = by_places(effects);
        let room = kept.len() * 5;
        for room in [room, room + 7] {
            self.call(&flat, room, 3);
        }
        if room > 0 {
            self.call(&flat, room - 1, 1);
        }
        let mut list = filled(room);
        let number = words::telegrams(&flat, &mut list, &mut []);
        self.ask(number == 0 && list == kept.concat(), "not those that no later record supersedes", &flat);
        let mut again = filled(room);
        words::telegrams(&list, &mut again, &mut []);
        self.ask(again == list, "kept again it is another list", &flat);
        let cutting = |list: &[Effect]| -> Vec<Effect> { list.iter().copied().filter(cuts).collect() };
        self.ask(cutting(&kept) == cutting(effects), "other cuts", &flat);
        let lamps = lamps(effects);
        self.ask(self::lamps(&kept) == lamps, "other lamps", &flat);
        self.shortest(effects, kept.len(), &lamps, &flat);
    }

    /// Every selection that keeps the effects of other kinds and sets the same lamps has at least as many records.
    fn shortest(&mut self, effects: &[Effect], least: usize, lamps: &Lamps, flat: &[u32]) {
        for selection in 0..1u32 << effects.len() {
            self.selections += 1;
            let taken = |at: usize| selection >> at & 1 == 1;
            if !(0..effects.len()).all(|at| taken(at) || target(&effects[at]).is_some()) {
                continue;
            }
            let chosen: Vec<Effect> = (0..effects.len()).filter(|at| taken(*at)).map(|at| effects[at]).collect();
            if self::lamps(&chosen) == *lamps {
                self.fitting += 1;
                self.ask(chosen.len() >= least, "a shorter selection", flat);
            }
        }
    }

    fn random(&mut self, lists: u64, seed: u64) {
        let mut random = Random::new(seed);
        for _ in 0..lists {
            self.random += 1;
            let mut words = random_effects(&mut random);
            if random.once_in(8) {
                words.truncate(random.below(words.len() as u32 + 1) as usize);
            }
            let room = if random.once_in(3) {
                random.below(words.len() as u32 + 20) as usize
            } else {
                telegrams(words.len(), &words).map_or(words.len(), |kept| kept.len() * 5)
            };
            self.call(&words, room, 2);
        }
    }

    fn report(&self) -> bool {
        println!("telegrams: {} lists of up to {LONGEST} records, {} selections of them, {} keep the other effects and set the same lamps: none is shorter", self.small, self.selections, self.fitting);
        println!("telegrams: {} random lists of up to {MOST_RECORDS} records", self.random);
        println!("telegrams: {} calls: {} refused with 60, {} with 61; {} records left out", self.calls, self.refused[0], self.refused[1], self.left_out);
        println!("telegrams: {TIMED} effects over {TARGETS} targets: {:.1} ms", timed());
        let met = self.refused.iter().all(|count| *count > 0) && self.left_out > 0;
        println!("telegrams: {} differences", self.differences);
        self.differences == 0 && met
    }
}

/// The request's rule read word by word: a record goes if a later level has its target and all between are levels or Logs.
fn by_places(effects: &[Effect]) -> Vec<Effect> {
    let superseded = |i: usize| {
        (i + 1..effects.len()).any(|j| {
            target(&effects[i]).is_some()
                && target(&effects[j]) == target(&effects[i])
                && effects[i + 1..j].iter().all(|between| between[0] == 11 || between[0] == 12)
        })
    };
    (0..effects.len()).filter(|i| !superseded(*i)).map(|i| effects[i]).collect()
}

/// Of each stretch the lamps that it sets, with the last level and hold.
type Lamps = Vec<Vec<(u32, u32, u32)>>;

fn lamps(list: &[Effect]) -> Lamps {
    let mut stretches = vec![Vec::new()];
    for effect in list {
        let Some(stretch) = stretches.last_mut() else { continue };
        if let Some(lamp) = target(effect) {
            stretch.retain(|(other, _, _)| *other != lamp);
            stretch.push((lamp, effect[2], effect[3]));
        } else if cuts(effect) {
            stretches.push(Vec::new());
        }
    }
    stretches.iter_mut().for_each(|stretch| stretch.sort_unstable());
    stretches
}

fn random_effects(random: &mut Random) -> Vec<u32> {
    let (records, targets) = (random.below(MOST_RECORDS + 1), random.pick([1, 3, 40, 4_000]));
    let (cut, unknown) = (random.pick([2, 20, 4_000]), random.pick([100, 20_000]));
    let mut words = Vec::new();
    for _ in 0..records {
        let kind = match () {
            () if random.once_in(unknown) => random.pick([13, 14, u32::MAX]),
            () if random.once_in(cut) => random.below(11),
            () => random.pick([12, 12, 12, 11]),
        };
        words.extend([kind, random.below(targets), random.below(255), random.bit(), random.word()]);
    }
    words
}

/// Milliseconds of the processor's clock, the least of ten.
fn timed() -> f64 {
    let effects: Vec<u32> = (0..TIMED as u32).flat_map(|at| [12, at % TARGETS, at % 255, 0, 0]).collect();
    let mut list = vec![0; TIMED * 5];
    let mut once = || {
        let began = Instant::now();
        words::telegrams(&effects, &mut list, &mut []);
        began.elapsed().as_secs_f64() * 1e3
    };
    (0..10).map(|_| once()).fold(f64::INFINITY, f64::min)
}
