//! Images and snapshots through the proved refusals and the oracle's checker.

use std::collections::BTreeMap;
use std::time::{Duration, Instant};

use oracle::check;
use oracle::generate;
use oracle::house::Call;

use crate::flat_form;
use crate::proved;
use crate::room;
use crate::worst;

/// What is put in the place of each word of an accepted image or snapshot, beside its neighbours.
const WORDS: [u32; 16] = [
    0, 1, 2, 3, 4, 5, 6, 7, 16, 24, 59, 127, 255, 256, 65_536, u32::MAX,
];
const MOST_SHOWN: usize = 10;

#[derive(Default)]
pub struct Tally {
    answers: BTreeMap<(&'static str, u32), u64>,
    differences: u64,
    slowest_accepted: Duration,
    slowest_refused: Duration,
}

impl Tally {
    fn count(&mut self, what: &'static str, proved: u32, oracle: u32, words: &[u32]) {
        *self.answers.entry((what, proved)).or_insert(0) += 1;
        if proved != oracle {
            self.differences += 1;
            if self.differences <= MOST_SHOWN as u64 {
                println!("{what}: proved {proved}, oracle {oracle}: {words:?}");
            }
        }
    }

    fn image(&mut self, image: &[u32]) -> u32 {
        let start = Instant::now();
        let proved = proved::image_refusal(image);
        let took = start.elapsed();
        let slowest = if proved == 0 {
            &mut self.slowest_accepted
        } else {
            &mut self.slowest_refused
        };
        *slowest = took.max(*slowest);
        self.count("image", proved, check::image_refusal(image).unwrap_or(0), image);
        *self.answers.entry(("room", proved)).or_insert(0) += 1;
        if let Err(text) = room::told(image) {
            self.differences += 1;
            println!("{text}: {image:?}");
        }
        if proved == 0 {
            let oracle = check::flat_size(image).map_or(u32::MAX, |size| size.stored as u32);
            let stored = proved::flat_steps(image) as u32;
            let written: u32 = flat_form::lists(image).iter().map(|lists| lists.stored().count() as u32).sum();
            *self.answers.entry(("flat steps", 0)).or_insert(0) += 1;
            if stored != written || stored != oracle {
                self.differences += 1;
                println!("flat steps: proved {stored}, flat form {written}, oracle {oracle}: {image:?}");
            }
        }
        proved
    }

    fn snapshot(&mut self, snapshot: &[u32]) -> u32 {
        let proved = proved::snapshot_refusal(snapshot);
        self.count("snapshot", proved, check::snapshot_refusal(snapshot).unwrap_or(0), snapshot);
        proved
    }
}

/// Every word changed to each of `WORDS` and to its neighbours, one at a time; and every length, cut or filled up with zeros.
fn sweep(words: &[u32], mut each: impl FnMut(&[u32])) {
    let mut varied = words.to_vec();
    for place in 0..words.len() {
        let was = words[place];
        for word in WORDS.into_iter().chain([was.wrapping_add(1), was.wrapping_sub(1)]) {
            varied[place] = word;
            each(&varied);
        }
        varied[place] = was;
    }
    for length in 0..words.len() + 20 {
        let mut other = words.to_vec();
        other.resize(length, 0);
        each(&other);
    }
}

impl Tally {
    /// Images that make load work hardest.
    pub fn worst(&mut self) {
        for (name, image) in [
            ("deepest", worst::deepest()),
            ("most actions", worst::most_actions()),
            ("accepted actions", worst::accepted_actions()),
        ] {
            let start = Instant::now();
            let answer = self.image(&image);
            println!("{name}: {} words, answer {answer}, {:?}", image.len(), start.elapsed());
        }
    }

    /// Images and snapshots of so many generated histories, and so many of the accepted ones varied word by word.
    pub fn histories(&mut self, histories: u64, sweeps: u64, seed: u64) {
        let (mut images, mut snapshots) = (Vec::new(), Vec::new());
        let calls = |seed| [generate::history(seed), generate::sharing::history(seed)].concat();
        for call in (seed..seed + histories).flat_map(calls) {
            match call {
                Call::Load { image, .. } if self.image(&image) == 0 => images.push(image),
                Call::Tick { snapshot } | Call::Run { snapshot, .. } if self.snapshot(&snapshot) == 0 => {
                    snapshots.push(snapshot);
                }
                _ => {}
            }
        }
        for image in spread(images, sweeps) {
            sweep(&image, |words| {
                self.image(words);
            });
        }
        for snapshot in spread(snapshots, sweeps) {
            sweep(&snapshot, |words| {
                self.snapshot(words);
            });
        }
    }

    pub fn report(&self) -> bool {
        for ((what, answer), count) in &self.answers {
            println!("{what} {answer}: {count}");
        }
        println!(
            "slowest image: accepted {:?}, refused {:?}",
            self.slowest_accepted, self.slowest_refused
        );
        let calls: u64 = self.answers.values().sum();
        println!("refusals: {calls} calls, {} differences", self.differences);
        self.differences == 0 && calls > 0
    }
}

/// So many of a list, from the longest to the shortest.
fn spread(mut words: Vec<Vec<u32>>, count: u64) -> impl Iterator<Item = Vec<u32>> {
    words.sort_by_key(|words| std::cmp::Reverse(words.len()));
    let stride = (words.len() / count.max(1) as usize).max(1);
    words.into_iter().step_by(stride).take(count as usize)
}
