//! `comparison crontab LINES SEED PLAY`: the proved reader of crontab lines beside the one that is written from POSIX (`oracle::crontab`).
//!
//! - Short fields: every field of up to three bytes of `0 1 5 9 * , -` in each of the five places, for each Sunday from 0 to 7.
//! - Random: so many random lines, and as many damaged ones, with stores that hold the answer, one word less, and other sizes.
//!
//! Of each call: number, answer, and all words of the lent store. Of each accepted line: that its triggers and the line itself are due in the
//! same of the 10,080 minutes of the week. The same lines go through the program PLAY and through the oracle's player as a script. Prints what
//! was met; its status is 1 if there is a difference, or if a refusal was not met.

mod lines;

use std::collections::BTreeMap;
use std::hint::black_box;
use std::io::{Read, Write};
use std::process::{Command, ExitCode, Stdio};
use std::time::Instant;

use cerambiu::words;
use oracle::crontab::{triggers, Line, Trigger, Wrong, RECORD, WEEK};
use oracle::random::Random;
use oracle::script::Player;

use crate::calls::house::{filled, zeros_behind};

const MOST_SHOWN: u64 = 10;
const DAY: usize = 1_440;
/// The most words that a script can lend.
const SCRIPT_ROOM: usize = 16_384;
const REFUSALS: [(Wrong, &str); 11] = [
    (Wrong::Sunday, "50, Sunday above 6"),
    (Wrong::BlankFirst, "50, a blank first"),
    (Wrong::FewFields, "50, fewer than five fields"),
    (Wrong::Field(0), "50, minute"),
    (Wrong::Field(1), "50, hour"),
    (Wrong::Field(2), "50, day of month"),
    (Wrong::Field(3), "50, month"),
    (Wrong::Field(4), "50, weekday"),
    (Wrong::DayOfMonth, "51, day of month"),
    (Wrong::Month, "51, month"),
    (Wrong::Room, "52"),
];

/// The status of the command; None for another command.
pub fn command() -> Option<ExitCode> {
    let args: Vec<String> = std::env::args().skip(1).collect();
    let [first, numbers @ .., play] = args.as_slice() else {
        return None;
    };
    if first != "crontab" {
        return None;
    }
    let numbers: Vec<u64> = numbers.iter().map_while(|word| word.parse().ok()).collect();
    let [count, seed] = numbers[..] else {
        eprintln!("usage: comparison crontab LINES SEED PLAY");
        return Some(ExitCode::from(2));
    };
    let mut both = Both::default();
    both.short_fields();
    both.random(count, seed);
    both.play(play);
    timed();
    Some(ExitCode::from(u8::from(!both.report())))
}

#[derive(Default)]
struct Both {
    calls: u64,
    accepted: u64,
    triggers: u64,
    refused: BTreeMap<Wrong, u64>,
    script: Vec<u8>,
    differences: u64,
}

impl Both {
    fn differs(&mut self, line: &[u8], text: &str) {
        self.differences += 1;
        if self.differences <= MOST_SHOWN {
            println!("{:?}: {text}", String::from_utf8_lossy(line));
        }
    }

    fn short_fields(&mut self) {
        for line in lines::short_fields() {
            for sunday in 0..8 {
                self.line(&line, sunday, 1);
            }
        }
        self.part("short fields");
    }

    fn random(&mut self, count: u64, seed: u64) {
        for seed in seed..seed + count {
            let mut random = Random::new(seed);
            let line = lines::random(&mut random);
            let sunday = if random.once_in(32) { random.word() } else { random.below(7) };
            let answer_words = random.below(4) as usize;
            self.line(&line, sunday, answer_words);
            let damaged = lines::damaged(&mut random, line);
            self.line(&damaged, sunday, answer_words);
        }
        self.part("random and damaged lines");
    }

    fn part(&self, what: &str) {
        println!("{what}: {} calls, {} accepted, {} differences so far", self.calls, self.accepted, self.differences);
    }

    /// A line with room for all, with just the room that it takes, and with one word less.
    fn line(&mut self, line: &[u8], sunday: u32, answer_words: usize) {
        let all = DAY * RECORD;
        let taken = self.call(line, sunday, all + answer_words, answer_words);
        if let Some(taken) = taken {
            self.call(line, sunday, taken, answer_words);
            self.call(line, sunday, taken - 1, answer_words);
        }
        self.call(line, sunday, 0, answer_words);
    }

    /// One call: the words that the answer takes, if the line is accepted.
    fn call(&mut self, line: &[u8], sunday: u32, room: usize, answer_words: usize) -> Option<usize> {
        let wanted = triggers(line, sunday, room);
        let (mut store, mut answer) = (filled(room), filled(answer_words));
        let number = words::crontab(line, sunday, &mut store, &mut answer);
        let (wanted_number, list) = match &wanted {
            Ok(list) => (0, list.clone()),
            Err(wrong) => (wrong.number(), Vec::new()),
        };
        let value = if number == 0 { vec![list.len() as u32] } else { Vec::new() };
        let records = list.iter().flat_map(|at| [2, at.hour, at.minute, at.days, 0, 0, 0, 0]).collect();
        if number != wanted_number {
            self.differs(line, &format!("Sunday {sunday}, {room} words: proved {number}, POSIX {wanted:?}"));
        } else if store != zeros_behind(records, room) {
            self.differs(line, &format!("Sunday {sunday}, {room} words: other triggers than {list:?}"));
        } else if !zeros_behind(value, answer_words.max(1)).starts_with(&answer) {
            self.differs(line, &format!("Sunday {sunday}, {room} words: answer {answer:?}"));
        }
        self.count(line, sunday, room, &wanted);
        let list = wanted.ok()?;
        self.calendar(line, sunday, &store[..list.len() * RECORD]);
        Some(list.len() * RECORD)
    }

    fn count(&mut self, line: &[u8], sunday: u32, room: usize, wanted: &Result<Vec<Trigger>, Wrong>) {
        self.calls += 1;
        match wanted {
            Ok(list) => {
                self.accepted += 1;
                self.triggers += list.len() as u64;
            }
            Err(wrong) => *self.refused.entry(*wrong).or_default() += 1,
        }
        if room <= SCRIPT_ROOM {
            self.script.extend(format!("crontab {sunday} {room} ").bytes().chain(line.iter().copied()).chain([b'\n']));
        }
    }

    /// The records are due in the minutes of the week in which the line is.
    fn calendar(&mut self, line: &[u8], sunday: u32, records: &[u32]) {
        let mut due = vec![false; WEEK as usize];
        for record in records.chunks(RECORD) {
            for day in (0..7).filter(|day| record[3] >> day & 1 == 1) {
                due[day * DAY + (record[1] * 60 + record[2]) as usize] = true;
            }
        }
        let Ok(read) = Line::read(line) else {
            return;
        };
        if let Some(minute) = (0..WEEK).find(|minute| read.at(sunday, *minute) != due[*minute as usize]) {
            self.differs(line, &format!("Sunday {sunday}: line and triggers differ at week minute {minute}"));
        }
    }

    /// All calls as a script, through the proved player and the oracle's.
    fn play(&mut self, program: &str) {
        let mut player = Player::default();
        let wanted: Vec<Vec<u8>> =
            self.script.split_inclusive(|byte| *byte == b'\n').map(|line| player.feed_bytes(line).into_bytes()).collect();
        let printed = match piped(program, self.script.clone()) {
            Ok(printed) => printed,
            Err(why) => return self.differs(program.as_bytes(), &why.to_string()),
        };
        let mut left = printed.as_slice();
        for (line, wanted) in self.script.clone().split_inclusive(|byte| *byte == b'\n').zip(&wanted) {
            let Some(behind) = left.strip_prefix(wanted.as_slice()) else {
                return self.differs(line, "the player prints something else");
            };
            left = behind;
        }
        if !left.is_empty() {
            self.differs(program.as_bytes(), "the player prints more");
        }
        println!("scripts: {} lines, {} bytes printed alike", wanted.len(), printed.len());
    }

    fn report(&self) -> bool {
        let met: Vec<u64> = REFUSALS.iter().map(|(wrong, _)| self.refused.get(wrong).copied().unwrap_or(0)).collect();
        for ((_, name), met) in REFUSALS.iter().zip(&met) {
            println!("{name}: {met}");
        }
        let empty = met.iter().filter(|met| **met == 0).count();
        println!(
            "crontab: {} calls, {} accepted with {} triggers, {} refused, {empty} kinds of refusal not met, {} differences",
            self.calls,
            self.accepted,
            self.triggers,
            met.iter().sum::<u64>(),
            self.differences
        );
        self.differences == 0 && empty == 0 && self.accepted > 0
    }
}

/// The least wall time of some lines, in microseconds.
fn timed() {
    let mut long = b"0-59,".repeat(2_000);
    long.extend(b"5 4 * * *");
    let lines: [&[u8]; 4] = [b"30 5 * * 1-5", b"* * * * *", b"0-16 0-9,10,11-14,15-23,20-22 * * 0,1,2-4,3,1-6", &long];
    for line in lines {
        let (mut store, mut answer) = (filled(DAY * RECORD), [0]);
        let mut least = f64::MAX;
        for _ in 0..20 {
            let from = Instant::now();
            words::crontab(black_box(line), 6, &mut store, &mut answer);
            least = least.min(from.elapsed().as_secs_f64());
        }
        println!("{} bytes, {} triggers: {:.1} us", line.len(), answer[0], least * 1e6);
    }
}

/// What a program prints when it is fed with a text; it is fed beside, since it prints before it has read all.
fn piped(program: &str, text: Vec<u8>) -> std::io::Result<Vec<u8>> {
    let mut child = Command::new(program).stdin(Stdio::piped()).stdout(Stdio::piped()).spawn()?;
    let mut input = child.stdin.take();
    let feeding = std::thread::spawn(move || input.as_mut().map_or(Ok(()), |input| input.write_all(&text)));
    let mut printed = Vec::new();
    if let Some(output) = child.stdout.as_mut() {
        output.read_to_end(&mut printed)?;
    }
    child.wait()?;
    feeding.join().unwrap_or(Ok(()))?;
    Ok(printed)
}
