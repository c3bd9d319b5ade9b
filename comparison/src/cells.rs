//! How often each condition, reading and value kind gave each answer, and the cells that nothing can reach.

use std::fmt::Write;

pub struct Part {
    name: &'static str,
    rows: &'static [&'static str],
    columns: &'static [&'static str],
}

pub const CONDITIONS: usize = 0;
pub const READINGS: usize = 1;
pub const VALUES: usize = 2;

const PARTS: [Part; 3] = [
    Part {
        name: "condition",
        rows: &[
            "TimeInRange", "DayIn", "SunIs", "LampIs", "LampLevel", "LampCct", "GroupState", "InputOccupancy",
            "InputLight", "HclState", "DeviceOnline", "RuleEnabled", "LastFiredOlderThan", "TimerRunning",
            "ControllerActive", "VarCompare value", "VarCompare text",
        ],
        columns: &["false", "true", "unevaluable"],
    },
    Part {
        name: "reading",
        rows: &[
            "LampLevel", "LampCct", "LampIsOn", "LampLastLevel", "GroupAnyOn", "GroupAllOff", "GroupMemberCount",
            "InputOccupied", "InputLight", "InputPosition", "InputLastEventAge", "TimeNow", "TimeHour", "TimeMinute",
            "TimeWeekday", "SunRise", "SunSet", "SunIsUp", "Var", "EventValue", "EventDevice", "EventInstance",
            "EventOption",
        ],
        columns: &["value", "unevaluable"],
    },
    Part { name: "value", rows: &["literal", "reading", "offset"], columns: &["value", "unevaluable"] },
];

/// Part, row, column, and why nothing reaches the cell.
const UNREACHABLE: &[(usize, &str, &str, &str)] = &[
    (CONDITIONS, "HclState", "unevaluable", "an absent row is false"),
    (CONDITIONS, "DeviceOnline", "unevaluable", "an absent device is false"),
    (CONDITIONS, "RuleEnabled", "unevaluable", "an unknown rule is false"),
    (CONDITIONS, "LastFiredOlderThan", "unevaluable", "a rule that never fired is older than anything"),
    (CONDITIONS, "TimerRunning", "unevaluable", "true or false"),
    (CONDITIONS, "ControllerActive", "unevaluable", "true or false"),
    (CONDITIONS, "VarCompare text", "unevaluable", "any other pairing is decided by the comparison"),
    (READINGS, "EventValue", "value", "ticks and runs carry no event"),
    (READINGS, "EventDevice", "value", "ticks and runs carry no event"),
    (READINGS, "EventInstance", "value", "ticks and runs carry no event"),
    (READINGS, "EventOption", "value", "ticks and runs carry no event"),
    (VALUES, "literal", "unevaluable", "a literal is a value"),
];

pub struct Cells {
    counts: Vec<Vec<u64>>,
}

impl Default for Cells {
    fn default() -> Cells {
        Cells { counts: PARTS.iter().map(|part| vec![0; part.rows.len() * part.columns.len()]).collect() }
    }
}

impl Cells {
    pub fn count(&mut self, part: usize, row: usize, column: usize) {
        self.counts[part][row * PARTS[part].columns.len() + column] += 1;
    }

    /// Cells that are empty though they can be reached, and cells that are reached though nothing should.
    pub fn wrong(&self) -> Vec<String> {
        let mut found = Vec::new();
        for (number, part) in PARTS.iter().enumerate() {
            for (place, count) in self.counts[number].iter().enumerate() {
                let (row, column) = (part.rows[place / part.columns.len()], part.columns[place % part.columns.len()]);
                if (*count == 0) != why(number, row, column).is_some() {
                    found.push(format!("{} {row}, {column}: {count}", part.name));
                }
            }
        }
        found
    }

    /// The table; a cell that nothing can reach is shown as `-`, with its reason below.
    pub fn text(&self) -> String {
        let mut text = String::new();
        for (number, part) in PARTS.iter().enumerate() {
            let _ = write!(text, "{:18}", part.name);
            for column in part.columns {
                let _ = write!(text, " {column:>12}");
            }
            for (row, counts) in part.rows.iter().zip(self.counts[number].chunks(part.columns.len())) {
                let _ = write!(text, "\n{row:18}");
                for (column, count) in part.columns.iter().zip(counts) {
                    let shown = match (count, why(number, row, column)) {
                        (0, Some(_)) => "-".to_owned(),
                        (count, _) => count.to_string(),
                    };
                    let _ = write!(text, " {shown:>12}");
                }
            }
            text.push_str("\n\n");
        }
        for (part, row, column, why) in UNREACHABLE {
            let _ = writeln!(text, "unreachable: {} {row}, {column}: {why}", PARTS[*part].name);
        }
        text
    }
}

fn why(part: usize, row: &str, column: &str) -> Option<&'static str> {
    let found = UNREACHABLE.iter().find(|(p, r, c, _)| *p == part && *r == row && *c == column);
    found.map(|(.., why)| *why)
}
