//! Recorded answers: short histories with the oracle's answers, in one text file.
//!
//! The file is a script. `# history N` starts a history, whose first calls make the store, its
//! size and the lent stores as a player has them at the start; a line `#= TEXT` is a line that
//! the calls before it print. So the file can be played whole or history by history.

use std::fmt::Write as _;
use std::fs;
use std::io::{self, Write as _};
use std::path::Path;

use crate::edges::{differences, scripts, Tally};
use crate::generate;
use crate::house::{Call, House};
use crate::script;

const START: &str = "# history ";
/// What makes a player's house a fresh one again.
const AFRESH: [&str; 3] = ["size 16384", "lend 24576 327680", "new 0"];
/// Longer histories are left out, so that the file stays small.
const LONGEST: usize = 5_000;
/// Seeds that are tried for each history that is wanted.
const TRIES: u64 = 100;
const STORE_WORDS: u32 = 16_384;

/// The calls of a script, each followed by what the oracle prints for it.
fn answered<'a>(lines: impl Iterator<Item = &'a str>) -> String {
    let mut house = House::new();
    let mut text = String::new();
    for line in AFRESH.into_iter().chain(lines) {
        if let Ok(Some(call)) = script::parse(line) {
            let answer = house.call(&call);
            let _ = writeln!(text, "{}", script::line(&call));
            for printed in script::write(&call, &answer).lines() {
                let _ = writeln!(text, "#= {printed}");
            }
        }
    }
    text
}

/// Whether a history writes and reads store words of whole stores only: what they are while a
/// store of another size is given is no question for other programs.
fn pokes_whole_stores(history: &[Call]) -> bool {
    let mut whole = true;
    history.iter().all(|call| match call {
        Call::Size { words } => {
            whole = *words == STORE_WORDS;
            true
        }
        Call::Poke { .. } | Call::Peek { .. } => whole,
        _ => true,
    })
}

/// COUNT short generated histories, the first ones from SEED on.
fn generated(seed: u64, count: u64) -> Vec<(String, String)> {
    let mut list = Vec::new();
    for at in 0..count.saturating_mul(TRIES) {
        if list.len() as u64 >= count {
            break;
        }
        let number = seed.wrapping_add(at);
        let history = generate::history(number);
        let lines: Vec<String> = history.iter().map(script::line).collect();
        let text = answered(lines.iter().map(String::as_str));
        if text.len() <= LONGEST && pokes_whole_stores(&history) {
            list.push((format!("seed {number}"), text));
        }
    }
    list
}

/// The edges of a folder that are short enough.
fn short_edges(folder: &Path) -> Result<Vec<(String, String)>, String> {
    let recorded = scripts(folder)?
        .into_iter()
        .map(|(name, text)| (format!("edge {name}"), answered(text.lines())))
        .filter(|(_, text)| text.len() <= LONGEST)
        .collect();
    Ok(recorded)
}

/// The whole file.
fn record(seed: u64, count: u64, folder: Option<&Path>) -> Result<String, String> {
    let mut histories = generated(seed, count);
    let tail = if folder.is_some() { " EDGES" } else { "" };
    if let Some(folder) = folder {
        histories.extend(short_edges(folder)?);
    }
    let mut text = format!(
        "# Recorded answers of the oracle, made by: oracle vectors-write {seed} {count} FILE{tail}\n\
         # Histories of at most {LONGEST} bytes: {count} generated ones from seed {seed} on, then the edges.\n\
         # A line that begins with `#= ` is what the call before it prints.\n"
    );
    for (number, (origin, history)) in histories.iter().enumerate() {
        let _ = write!(text, "{START}{}\n# {origin}\n{history}", number + 1);
    }
    Ok(text)
}

/// The histories of a file: each from its `# history` line to the next.
fn histories(text: &str) -> Vec<(String, String)> {
    let mut list: Vec<(String, String)> = Vec::new();
    for line in text.lines() {
        if let Some(number) = line.strip_prefix(START) {
            list.push((number.to_owned(), String::new()));
        } else if let Some((_, history)) = list.last_mut() {
            history.push_str(line);
            history.push('\n');
        }
    }
    list
}

/// Replays a file; the report ends with `vectors: N agree, M differ`.
#[must_use]
pub fn check(text: &str) -> (Tally, String) {
    let mut tally = Tally::default();
    let mut report = String::new();
    for (number, history) in histories(text) {
        let found = differences(&history);
        tally.add(found.is_empty());
        for line in &found {
            let _ = writeln!(report, "history {number}: {line}");
        }
    }
    let _ = writeln!(report, "vectors: {} agree, {} differ", tally.agree, tally.differ);
    (tally, report)
}

fn complain(text: &str) -> u8 {
    let _ = writeln!(io::stderr(), "{text}");
    1
}

/// `oracle vectors-write SEED COUNT FILE [EDGES]`.
#[must_use]
pub fn write_command(args: &[String]) -> u8 {
    let (seed, count, file, folder) = match args {
        [seed, count, file] => (seed, count, file, None),
        [seed, count, file, folder] => (seed, count, file, Some(Path::new(folder))),
        _ => return complain("usage: oracle vectors-write SEED COUNT FILE [EDGES]"),
    };
    let (Ok(seed), Ok(count)) = (seed.parse(), count.parse()) else {
        return complain("oracle vectors-write: SEED and COUNT are decimal numbers of 64 bits");
    };
    let written = record(seed, count, folder)
        .and_then(|text| fs::write(file, text).map_err(|error| error.to_string()));
    match written {
        Ok(()) => 0,
        Err(error) => complain(&format!("oracle vectors-write: {error}")),
    }
}

/// `oracle vectors-check FILE`.
#[must_use]
pub fn check_command(args: &[String]) -> u8 {
    let [file] = args else {
        return complain("usage: oracle vectors-check FILE");
    };
    match fs::read_to_string(file) {
        Ok(text) => {
            let (tally, report) = check(&text);
            let _ = io::stdout().write_all(report.as_bytes());
            u8::from(!tally.passes())
        }
        Err(error) => complain(&format!("oracle vectors-check: {file}: {error}")),
    }
}

#[cfg(test)]
mod tests {
    use super::{check, histories, record};
    use crate::edges::expected;
    use crate::script;

    #[test]
    fn what_is_recorded_agrees() {
        let text = record(1, 20, None).expect("no folder is read");
        let (tally, report) = check(&text);
        assert_eq!((tally.agree, tally.differ), (20, 0), "{report}");
    }

    /// A program that only knows the script language may play the whole file.
    #[test]
    fn the_file_is_one_script() {
        let text = record(1, 20, None).expect("no folder is read");
        let output = script::play(&text);
        assert_eq!(output.lines().collect::<Vec<_>>(), expected(&text));
    }

    #[test]
    fn a_changed_answer_is_noticed() {
        let text = "# a remark\n# history 1\nnew 0\ndeadline\n#= deadline 7\n# history 2\ndeadline\n#= deadline none\n";
        assert_eq!(histories(text).len(), 2);
        let (tally, report) = check(text);
        assert_eq!((tally.agree, tally.differ), (1, 1));
        assert!(report.starts_with("history 1: line 2: expected deadline 7, got deadline none\n"));
        assert!(!check("").0.passes());
    }
}
