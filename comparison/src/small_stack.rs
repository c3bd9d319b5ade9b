//! `comparison small-stack FOLDER..`: every call of the scripts of these folders, made by the proved library on a thread that has 64 KB of stack, with
//! a page below it that must not be touched: a call that needs more ends the program. Then, for each script, with each image that it loaded (none, if it
//! loaded none) in a store made new: a tick, and a wet and a dry run of every rule of it. What they answer is compared by `comparison calls`.

use std::fs;
use std::path::Path;
use std::process::ExitCode;
use std::thread;

use oracle::house::Call;
use oracle::script;

use crate::calls::house::{House, Lent};

const STACK_BYTES: usize = 64 << 10;
const LENT: Lent = Lent { answer: 32, outcomes: 24_576, effects: 327_680 };
/// A snapshot without rows: time 0, no clock, no sun, five counts of 0.
const EMPTY_SNAPSHOT: [u32; 14] = [0; 14];
const TRAILER_WORDS: usize = 13;
const RULE_WORDS: usize = 16;

/// The status of the command; None for another command.
pub fn command() -> Option<ExitCode> {
    let args: Vec<String> = std::env::args().skip(1).collect();
    let [first, folders @ ..] = args.as_slice() else {
        return None;
    };
    if first != "small-stack" {
        return None;
    }
    let mut played = Played::default();
    folders.iter().for_each(|folder| played.folder(Path::new(folder)));
    println!("small stack: {} scripts, {} ticks, {} runs and {} other calls on 64 KB of stack", played.scripts, played.ticks, played.runs, played.others);
    for script in &played.without {
        println!("small stack: {script} has no tick, or no run, that is not refused");
    }
    Some(ExitCode::from(u8::from(played.scripts == 0 || !played.without.is_empty())))
}

/// Ticks, runs and other calls are those that were made; `without` are scripts with which none of them was accepted.
#[derive(Default)]
struct Played {
    scripts: u64,
    ticks: u64,
    runs: u64,
    others: u64,
    without: Vec<String>,
}

impl Played {
    fn folder(&mut self, folder: &Path) {
        let entries = fs::read_dir(folder).into_iter().flatten().flatten();
        for path in entries.map(|entry| entry.path()).filter(|path| path.extension().is_some_and(|end| end == "script")) {
            let text = fs::read_to_string(&path).unwrap_or_default();
            if !self.script(&text) {
                self.without.push(path.display().to_string());
            }
            self.scripts += 1;
        }
    }

    /// Whether a tick and a run were accepted.
    fn script(&mut self, text: &str) -> bool {
        let (mut house, mut images, mut seen) = (House::default(), Vec::new(), EMPTY_SNAPSHOT.to_vec());
        for call in text.lines().filter_map(|line| script::parse(line).ok().flatten()) {
            let accepted = self.play(&mut house, &call) == 0;
            match call {
                Call::Load { image, .. } if accepted => images.push(image),
                Call::Tick { snapshot } | Call::Run { snapshot, .. } if accepted => seen = snapshot,
                _ => {}
            }
        }
        if images.is_empty() {
            return self.each_rule(&mut House::default(), &[0], &seen);
        }
        images.into_iter().all(|image| {
            let (mut house, rules) = (House::default(), rules(&image));
            self.play(&mut house, &Call::Load { time: 0, image });
            self.each_rule(&mut house, &rules, &seen)
        })
    }

    /// Whether a tick, and the runs of these rules, wet and dry, are accepted.
    fn each_rule(&mut self, house: &mut House, rules: &[u32], snapshot: &[u32]) -> bool {
        let mut accepted = self.play(house, &Call::Tick { snapshot: snapshot.to_vec() }) == 0;
        for (&rule, dry) in rules.iter().flat_map(|rule| [(rule, false), (rule, true)]) {
            accepted &= self.play(house, &Call::Run { rule, dry, snapshot: snapshot.to_vec() }) == 0;
        }
        accepted
    }

    /// The number that the call returned.
    fn play(&mut self, house: &mut House, call: &Call) -> u32 {
        match call {
            Call::Lend { .. } | Call::Peek { .. } => return 0,
            Call::Own { name, .. } if *name != "start" => return 0,
            Call::Size { words } => {
                house.size = *words as usize;
                return 0;
            }
            Call::Poke { place, word } => {
                house.store[*place as usize] = *word;
                return 0;
            }
            Call::Tick { .. } => self.ticks += 1,
            Call::Run { .. } => self.runs += 1,
            _ => self.others += 1,
        }
        thread::scope(|scope| {
            let made = thread::Builder::new().stack_size(STACK_BYTES).spawn_scoped(scope, || house.call(call, LENT).number);
            made.expect("a thread").join().expect("a call")
        })
    }
}

/// The names of the rules of an image that load accepts.
fn rules(image: &[u32]) -> Vec<u32> {
    let trailer = &image[image.len() - TRAILER_WORDS..];
    image[trailer[5] as usize..trailer[6] as usize].chunks_exact(RULE_WORDS).map(|rule| rule[0]).collect()
}
