//! The edges: scripts that carry their answers, derived by hand from document 01.
//!
//! A line `#= TEXT` is a line that the player must print; all other lines are the script.

use std::fs;
use std::io::{self, Write};
use std::path::Path;

use crate::script::Player;

const MARK: &str = "#= ";
/// Calls of a file whose disagreement is shown.
const SHOWN: usize = 6;

/// How many files agreed and how many did not.
#[derive(Clone, Copy, Debug, Default, PartialEq, Eq)]
pub struct Tally {
    pub agree: usize,
    pub differ: usize,
}

impl Tally {
    pub fn add(&mut self, agrees: bool) {
        if agrees {
            self.agree += 1;
        } else {
            self.differ += 1;
        }
    }

    /// No file at all is a failure too: a wrong folder must not pass.
    #[must_use]
    pub fn passes(&self) -> bool {
        self.differ == 0 && self.agree > 0
    }
}

/// The answers that stand in a script.
#[must_use]
pub fn expected(text: &str) -> Vec<&str> {
    text.lines().filter_map(|line| line.strip_prefix(MARK)).collect()
}

/// The calls whose answers and those that stand behind them differ; none if they agree. An
/// accepted load prints nothing, so the answers are compared call by call.
#[must_use]
pub fn differences(text: &str) -> Vec<String> {
    let mut player = Player::default();
    let mut found = Vec::new();
    let mut lines = text.lines().enumerate().peekable();
    while let Some((at, line)) = lines.next() {
        let printed = player.feed(line);
        let mut want = String::new();
        while let Some((_, answer)) = lines.next_if(|(_, next)| next.starts_with(MARK)) {
            // The line number of the script counts answers too.
            player.feed(answer);
            want.push_str(&answer[MARK.len()..]);
            want.push('\n');
        }
        if printed != want {
            found.push(format!("line {}: expected {}, got {}", at + 1, shown(&want), shown(&printed)));
        }
    }
    found
}

/// The lines of an answer in one line.
fn shown(lines: &str) -> String {
    if lines.is_empty() {
        return "nothing".to_owned();
    }
    lines.trim_end().replace('\n', " / ")
}

/// The scripts of a folder by file name.
pub(crate) fn scripts(folder: &Path) -> Result<Vec<(String, String)>, String> {
    let entries = fs::read_dir(folder).map_err(|error| error.to_string())?;
    let mut list = Vec::new();
    for entry in entries {
        let path = entry.map_err(|error| error.to_string())?.path();
        if path.extension().is_some_and(|end| end == "script") {
            let name = path.file_name().unwrap_or_default().to_string_lossy().into_owned();
            let text = fs::read_to_string(&path).map_err(|error| format!("{name}: {error}"))?;
            list.push((name, text));
        }
    }
    list.sort();
    Ok(list)
}

/// Plays every script of a folder; the report ends with `edges: N agree, M differ`.
pub fn check(folder: &Path) -> Result<(Tally, String), String> {
    let mut tally = Tally::default();
    let mut report = String::new();
    for (name, text) in scripts(folder)? {
        let found = differences(&text);
        tally.add(found.is_empty());
        for line in found.iter().take(SHOWN) {
            report.push_str(&format!("{name}: {line}\n"));
        }
        if found.len() > SHOWN {
            report.push_str(&format!("{name}: {} further calls differ\n", found.len() - SHOWN));
        }
    }
    report.push_str(&format!("edges: {} agree, {} differ\n", tally.agree, tally.differ));
    Ok((tally, report))
}

/// The sub-command: prints the report and gives the exit status.
#[must_use]
pub fn command(folder: &str) -> u8 {
    match check(Path::new(folder)) {
        Ok((tally, report)) => {
            let _ = io::stdout().write_all(report.as_bytes());
            u8::from(!tally.passes())
        }
        Err(error) => {
            let _ = writeln!(io::stderr(), "oracle edges: {folder}: {error}");
            1
        }
    }
}

#[cfg(test)]
mod tests {
    use super::{check, differences, expected, Tally};
    use std::path::Path;

    #[test]
    fn marked_lines_are_the_answers() {
        assert_eq!(expected("new 0\n# a remark\ndeadline\n#= deadline none\n"), ["deadline none"]);
    }

    #[test]
    fn agreement_and_difference() {
        assert!(differences("new 0\ndeadline\n#= deadline none\n").is_empty());
        assert_eq!(
            differences("new 0\ndeadline\n#= deadline 5\n"),
            ["line 2: expected deadline 5, got deadline none"]
        );
        assert_eq!(
            differences("new 0\ndeadline\n"),
            ["line 2: expected nothing, got deadline none"]
        );
        assert_eq!(differences("new 0\n#= deadline none\n").len(), 1);
    }

    /// The same lines in the same order, but not from the calls that they stand behind.
    #[test]
    fn an_answer_belongs_to_its_call() {
        assert_eq!(differences("load 0 1\nload 0 1\n#= load refused 10\n#= load refused 10\n").len(), 2);
    }

    #[test]
    fn no_script_is_no_success() {
        assert!(!Tally::default().passes());
        assert!(check(Path::new("no such folder")).is_err());
    }

    #[test]
    fn all_edges_agree() {
        let folder = Path::new(env!("CARGO_MANIFEST_DIR")).join("edges");
        let (tally, report) = check(&folder).expect("the folder of edges");
        assert!(tally.passes(), "{report}");
    }
}
