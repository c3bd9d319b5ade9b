//! Errors and warnings as a compiler gives them: file, line, column, the text, a caret, and what would help.

use std::fmt::Write as _;

use crate::tree::Spot;

#[derive(Clone, Copy, Debug, PartialEq, Eq)]
pub enum Weight {
    Error,
    Warning,
}

#[derive(Clone, Debug)]
pub struct Fault {
    pub weight: Weight,
    pub spot: Spot,
    pub what: String,
    pub help: Vec<String>,
}

impl Fault {
    pub fn error(spot: Spot, what: impl Into<String>) -> Fault {
        Fault { weight: Weight::Error, spot, what: what.into(), help: Vec::new() }
    }

    pub fn warning(spot: Spot, what: impl Into<String>) -> Fault {
        Fault { weight: Weight::Warning, spot, what: what.into(), help: Vec::new() }
    }

    pub fn help(mut self, text: impl Into<String>) -> Fault {
        let text = text.into();
        if !text.is_empty() {
            self.help.push(text);
        }
        self
    }
}

/// The faults of a file, with the lines that they point to.
pub fn render(file: &str, source: &str, faults: &[Fault]) -> String {
    let lines: Vec<&str> = source.lines().collect();
    let mut text = String::new();
    for fault in faults {
        let Spot { line, column, length } = fault.spot;
        let word = match fault.weight {
            Weight::Error => "error",
            Weight::Warning => "warning",
        };
        let _ = writeln!(text, "{word}: {}", fault.what);
        if line == 0 {
            let _ = writeln!(text, "  --> {file}");
        } else {
            let _ = writeln!(text, "  --> {file}:{line}:{column}");
            let shown = lines.get(line - 1).copied().unwrap_or("");
            let gutter = line.to_string().len().max(3);
            let _ = writeln!(text, "{:gutter$} |", "");
            let _ = writeln!(text, "{line:gutter$} | {}", printable(shown));
            let carets = "^".repeat(length.max(1));
            let _ = writeln!(text, "{:gutter$} | {}{carets}", "", " ".repeat(column.saturating_sub(1)));
        }
        for help in &fault.help {
            let _ = writeln!(text, "    = {help}");
        }
    }
    text
}

/// Tabs become one blank, so that the caret stands below its text; control characters become a dot.
fn printable(line: &str) -> String {
    let shown = |c: char| match c {
        '\t' => ' ',
        c if c.is_control() => '.',
        c => c,
    };
    line.chars().map(shown).collect()
}

/// The name that lies nearest to a word, if one lies near.
pub fn nearest<'n>(word: &str, names: impl IntoIterator<Item = &'n str>) -> Option<&'n str> {
    let near = |name: &&str| {
        let far = distance(word, name);
        (far <= name.chars().count().max(word.chars().count()).div_ceil(3), far)
    };
    let mut best: Option<(usize, &str)> = None;
    for name in names {
        let (is_near, far) = near(&name);
        if is_near && best.is_none_or(|(least, _)| far < least) {
            best = Some((far, name));
        }
    }
    best.map(|(_, name)| name)
}

/// How many letters must be changed, put in, left out or exchanged with their neighbour.
fn distance(a: &str, b: &str) -> usize {
    let (a, b): (Vec<char>, Vec<char>) = (a.chars().take(64).collect(), b.chars().take(64).collect());
    let mut rows = vec![vec![0; b.len() + 1]; a.len() + 1];
    for i in 0..=a.len() {
        for j in 0..=b.len() {
            rows[i][j] = if i == 0 || j == 0 {
                i + j
            } else {
                let change = rows[i - 1][j - 1] + usize::from(a[i - 1] != b[j - 1]);
                let mut least = change.min(rows[i - 1][j] + 1).min(rows[i][j - 1] + 1);
                if i > 1 && j > 1 && a[i - 1] == b[j - 2] && a[i - 2] == b[j - 1] {
                    least = least.min(rows[i - 2][j - 2] + 1);
                }
                least
            };
        }
    }
    rows[a.len()][b.len()]
}

/// "a, b or c".
pub fn or_list(items: &[String]) -> String {
    match items {
        [] => String::new(),
        [one] => one.clone(),
        [first @ .., last] => format!("{} or {last}", first.join(", ")),
    }
}

#[cfg(test)]
mod tests {
    use super::{distance, nearest, or_list, render, Fault};
    use crate::tree::Spot;

    #[test]
    fn distances() {
        assert_eq!(distance("huose", "house"), 1);
        assert_eq!(distance("", "abc"), 3);
        assert_eq!(distance("light", "lihgt"), 1);
    }

    #[test]
    fn the_nearest_name_is_near() {
        assert_eq!(nearest("huose", ["barn", "house", "hose"]), Some("house"));
        assert_eq!(nearest("x", ["house"]), None);
    }

    #[test]
    fn a_fault_points_to_its_text() {
        let fault = Fault::error(Spot { line: 2, column: 7, length: 5 }, "no light `huose`").help("is `house` meant?");
        let shown = render("a.rules", "rule a\nlight huose full\n", &[fault]);
        let wanted = "error: no light `huose`\n  --> a.rules:2:7\n    |\n  2 | light huose full\n    |       ^^^^^\n    = is `house` meant?\n";
        assert_eq!(shown, wanted);
    }

    #[test]
    fn lists_in_words() {
        let list = |items: &[&str]| or_list(&items.iter().map(|item| item.to_string()).collect::<Vec<_>>());
        assert_eq!(list(&["a"]), "a");
        assert_eq!(list(&["a", "b", "c"]), "a, b or c");
    }
}
