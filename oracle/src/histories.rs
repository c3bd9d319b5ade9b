//! The sub-commands over generated histories: history i of COUNT has the seed SEED + i.

use std::io::{self, BufWriter, Write};

use oracle::generate;
use oracle::house::{Answer, Call, House};
use oracle::script;

/// The seeds that the words SEED COUNT stand for.
pub fn seeds(args: &[String]) -> Option<impl Iterator<Item = u64>> {
    let [seed, count] = args else {
        return None;
    };
    let (seed, count): (u64, u64) = (seed.parse().ok()?, count.parse().ok()?);
    Some((0..count).map(move |at| seed.wrapping_add(at)))
}

/// What makes a player's house a fresh one again.
const AFRESH: &str = "size 16384\nlend 24576 327680\nnew 0";

/// Each history as a script, behind a comment with its seed and the calls for a fresh house.
pub fn print_scripts(seeds: impl Iterator<Item = u64>) -> io::Result<()> {
    let mut output = BufWriter::new(io::stdout().lock());
    for seed in seeds {
        writeln!(output, "# history {seed}\n{AFRESH}")?;
        for call in generate::history(seed) {
            writeln!(output, "{}", script::line(&call))?;
        }
    }
    output.flush()
}

/// One line a history: its seed, its number of calls, a digest of what the player prints for it.
pub fn print_digests(seeds: impl Iterator<Item = u64>) -> io::Result<()> {
    let mut output = BufWriter::new(io::stdout().lock());
    for seed in seeds {
        let history = generate::history(seed);
        let mut tally = Tally::default();
        tally.run(&history);
        writeln!(output, "{seed} {} {:016x}", history.len(), tally.digest)?;
    }
    output.flush()
}

/// One line for all histories.
pub fn print_summary(seeds: impl Iterator<Item = u64>) -> io::Result<()> {
    let mut tally = Tally::default();
    for seed in seeds {
        tally.run(&generate::history(seed));
    }
    let Tally { histories, calls, refused, outcomes, effects, digest } = tally;
    let mut output = io::stdout().lock();
    writeln!(
        output,
        "random: {histories} histories, {calls} calls, {refused} refused, {outcomes} outcomes, \
         {effects} effects, digest {digest:016x}"
    )
}

struct Tally {
    histories: u64,
    calls: u64,
    refused: u64,
    outcomes: u64,
    effects: u64,
    digest: u64,
}

impl Default for Tally {
    fn default() -> Tally {
        Tally {
            histories: 0,
            calls: 0,
            refused: 0,
            outcomes: 0,
            effects: 0,
            // The offset basis of the 64-bit FNV-1a hash.
            digest: 0xcbf2_9ce4_8422_2325,
        }
    }
}

impl Tally {
    fn run(&mut self, history: &[Call]) {
        let mut house = House::new();
        self.histories += 1;
        for call in history {
            let answer = house.call(call);
            self.calls += 1;
            self.count(&answer);
            self.add(script::write(call, &answer).as_bytes());
        }
    }

    fn count(&mut self, answer: &Answer) {
        match answer {
            Answer::Refused(_) => self.refused += 1,
            Answer::Outcomes { list, .. } => {
                self.outcomes += list.len() as u64;
                self.effects += list.iter().map(|one| one.effects.len() as u64).sum::<u64>();
            }
            _ => {}
        }
    }

    /// FNV-1a.
    fn add(&mut self, bytes: &[u8]) {
        for byte in bytes {
            self.digest = (self.digest ^ u64::from(*byte)).wrapping_mul(0x0100_0000_01b3);
        }
    }
}
