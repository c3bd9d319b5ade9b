//! The script language: one line of text is one call.
//!
//! ```text
//! new TIME | load TIME WORD.. | unload TIME | enable RULE 0|1 | tick WORD..
//! run RULE DRY WORD.. | deadline | counters
//! lend OUTCOME_WORDS EFFECT_WORDS | size WORDS | poke PLACE WORD | peek PLACE
//! telegrams ROOM WORD.. | crontab SUNDAY ROOM TEXT | start WORD.. | room WORD.. | shortlist K A V P WORD..
//! rewrite ROOM WORD.. | readback RULE ROOM WORD..
//! ```
//!
//! A `#` starts a comment, but in a TEXT, which is the rest of the line behind one blank. Bad text gets one line that names the line number and what is wrong, and
//! play goes on. The proved player prints the same texts. The calls are one table (`table`).

mod table;

use std::fmt::Write;

use crate::house::{Answer, Call, House, Outcome};

pub use table::{Given, Meaning, Param, Row, Tail, ROWS};
pub(crate) use table::own;

/// The longest line in bytes, its end not counted.
const LINE_BYTES: usize = 262_144;

/// A line as a call; None for a blank line or a comment.
pub fn parse(line: &str) -> Result<Option<Call>, String> {
    table::parse(ROWS, line.as_bytes())
}

/// The call as a line of a script, without a line end.
#[must_use]
pub fn line(call: &Call) -> String {
    let (name, given) = table::apart(call);
    let mut text = name.to_owned();
    given.numbers.iter().for_each(|number| push(&mut text, *number));
    push_all(&mut text, &given.list);
    if !given.text.is_empty() {
        text.push(' ');
        text.push_str(&String::from_utf8_lossy(&given.text));
    }
    text
}

/// Writing to a String cannot fail, so the results are dropped here and below.
fn push(text: &mut String, number: u64) {
    let _ = write!(text, " {number}");
}

fn push_all(text: &mut String, words: &[u32]) {
    for word in words {
        push(text, u64::from(*word));
    }
}

/// What the player prints for a call and its answer: no line or more, each ended.
#[must_use]
pub fn write(call: &Call, answer: &Answer) -> String {
    let (word, _) = table::apart(call);
    let mut text = String::new();
    match (answer, call) {
        (Answer::Silent, _) => {}
        (Answer::Outcomes { time, list }, _) => {
            let _ = writeln!(text, "{word} {time} {}", list.len());
            list.iter().for_each(|outcome| write_outcome(&mut text, outcome));
        }
        (Answer::Enabled(yes), Call::Enable { rule, .. }) => {
            let _ = writeln!(text, "{word} {rule} {}", if *yes { "yes" } else { "no" });
        }
        (Answer::Deadline(None), _) => text.push_str("deadline none\n"),
        (Answer::Deadline(Some(time)), _) => {
            let _ = writeln!(text, "deadline {time}");
        }
        (Answer::Counters(counters), _) => {
            text.push_str(word);
            push_all(&mut text, counters);
            text.push('\n');
        }
        (Answer::Word(found), Call::Peek { place }) => {
            let _ = writeln!(text, "{word} {place} {found}");
        }
        (Answer::Refused(number), _) => {
            let _ = writeln!(text, "{word} refused {number}");
        }
        (Answer::Own(lines), _) => text.push_str(lines),
        (Answer::Unsupported(what), _) => {
            let _ = writeln!(text, "{what} unsupported");
        }
        // A house gives these two answers to their own calls only.
        (Answer::Enabled(_) | Answer::Word(_), _) => {}
    }
    text
}

fn write_outcome(text: &mut String, outcome: &Outcome) {
    let Outcome { rule, dry, trigger, reason, effects } = outcome;
    let _ = writeln!(text, "rule {rule} {dry} {trigger} {reason} {}", effects.len());
    write_effects(text, effects);
}

/// A line for each effect.
pub(crate) fn write_effects(text: &mut String, effects: &[[u32; 5]]) {
    for effect in effects {
        text.push_str("effect");
        push_all(text, effect);
        text.push('\n');
    }
}

/// Plays a script line by line on a fresh house.
#[derive(Default)]
pub struct Player {
    house: House,
    line: u64,
}

impl Player {
    /// What the next line of the script prints. The line comes with its end or without.
    pub fn feed(&mut self, line: &str) -> String {
        self.feed_bytes(line.as_bytes())
    }

    /// The same of a line that may be no UTF-8.
    pub fn feed_bytes(&mut self, line: &[u8]) -> String {
        self.line += 1;
        let text = line.strip_suffix(b"\n").unwrap_or(line);
        let parsed = if text.len() > LINE_BYTES {
            Err("line too long".to_owned())
        } else {
            table::parse(ROWS, text)
        };
        match parsed {
            Ok(None) => String::new(),
            Ok(Some(call)) => write(&call, &self.house.call(&call)),
            Err(wrong) => format!("line {}: {wrong}\n", self.line),
        }
    }
}

/// The whole output of a script.
#[must_use]
pub fn play(text: &str) -> String {
    let mut player = Player::default();
    text.split_inclusive('\n').map(|line| player.feed(line)).collect()
}

#[cfg(test)]
mod tests;
