//! The counts of the table and how it is printed.

use std::fmt::Write;

use super::cells::{unreachable, Part, PARTS};

/// How often each cell was reached.
pub struct Coverage {
    counts: Vec<Vec<u64>>,
}

impl Default for Coverage {
    fn default() -> Coverage {
        Coverage::new()
    }
}

impl Coverage {
    pub fn new() -> Coverage {
        let cells = |part: &Part| vec![0; part.rows.len() * part.columns.len()];
        Coverage { counts: PARTS.iter().map(cells).collect() }
    }

    pub(super) fn count(&mut self, part: usize, row: usize, column: usize) {
        let columns = PARTS.get(part).map_or(0, |part| part.columns.len());
        let cell = self.counts.get_mut(part).and_then(|cells| cells.get_mut(row * columns + column));
        if let Some(cell) = cell {
            *cell += 1;
        }
    }

    /// The same by the name of the row.
    pub(super) fn count_named(&mut self, part: usize, row: &str, column: usize) {
        let found = PARTS.get(part).and_then(|part| part.rows.iter().position(|name| *name == row));
        if let Some(row) = found {
            self.count(part, row, column);
        }
    }

    fn cells(&self) -> impl Iterator<Item = Cell> + '_ {
        PARTS.iter().enumerate().flat_map(move |(number, part)| {
            let cells = self.counts[number].iter().enumerate();
            cells.map(move |(place, count)| {
                let row = part.rows[place / part.columns.len()];
                let column = part.columns[place % part.columns.len()];
                let why = unreachable(number, row, column);
                Cell { name: format!("{}: {row}, {column}", part.name), count: *count, why }
            })
        })
    }

    /// Cells that can be reached and were not.
    pub fn empty(&self) -> Vec<String> {
        let empty = self.cells().filter(|cell| cell.count == 0 && cell.why.is_none());
        empty.map(|cell| cell.name).collect()
    }

    /// Cells that were reached though they are listed as unreachable.
    pub fn surprises(&self) -> Vec<String> {
        let found = self.cells().filter(|cell| cell.count > 0 && cell.why.is_some());
        found.map(|cell| cell.name).collect()
    }

    /// The whole table. A cell that nothing can reach is shown as `-`.
    pub fn text(&self) -> String {
        let mut text = String::new();
        for (number, part) in PARTS.iter().enumerate() {
            self.write_part(&mut text, number, part);
        }
        text.push_str("unreachable cells\n");
        for cell in self.cells() {
            if let Some(why) = cell.why {
                let _ = writeln!(text, "  {}: {why}", cell.name);
            }
        }
        for name in self.surprises() {
            let _ = writeln!(text, "reached though listed as unreachable: {name}");
        }
        let empty = self.empty();
        for name in &empty {
            let _ = writeln!(text, "empty: {name}");
        }
        let _ = writeln!(text, "empty cells: {}", empty.len());
        text
    }

    fn write_part(&self, text: &mut String, number: usize, part: &Part) {
        let widest = part.rows.iter().chain([&part.name]).map(|row| row.len()).max().unwrap_or(0);
        let _ = write!(text, "{:widest$}", part.name);
        for column in part.columns {
            let _ = write!(text, " {column:>12}");
        }
        text.push('\n');
        for (row, counts) in part.rows.iter().zip(self.counts[number].chunks(part.columns.len())) {
            let _ = write!(text, "{row:widest$}");
            for (column, count) in part.columns.iter().zip(counts) {
                let shown = match (count, unreachable(number, row, column)) {
                    (0, Some(_)) => "-".to_owned(),
                    (count, _) => count.to_string(),
                };
                let _ = write!(text, " {shown:>12}");
            }
            text.push('\n');
        }
        text.push('\n');
    }
}

struct Cell {
    name: String,
    count: u64,
    why: Option<&'static str>,
}
