//! Refusals 20 to 22 of snapshots.

use super::{Finding, Refusal};

pub const NUMBERS: [u32; 3] = [20, 21, 22];
const HEAD: usize = 14;
const COUNTS: usize = 9;

/// A field of a row: name, highest value, and whether a present word stands before it.
struct Cell(&'static str, u32, bool);

struct Rows {
    name: &'static str,
    most: u32,
    /// Words of the address.
    address: usize,
    cells: &'static [Cell],
}

const FREE: u32 = u32::MAX;

static TABLES: [Rows; 5] = [
    Rows {
        name: "lamps",
        most: 256,
        address: 2,
        cells: &[
            Cell("adapter", 255, false),
            Cell("id", 65_535, false),
            Cell("level", 255, true),
            Cell("cct", 65_535, true),
            Cell("on", 1, false),
            Cell("last level", 255, true),
        ],
    },
    Rows {
        name: "groups",
        most: 64,
        address: 2,
        cells: &[
            Cell("adapter", 255, false),
            Cell("id", 65_535, false),
            Cell("any on", 1, false),
            Cell("all off", 1, false),
            Cell("member count", 255, false),
        ],
    },
    Rows {
        name: "devices",
        most: 64,
        address: 2,
        cells: &[Cell("adapter", 255, false), Cell("address", 255, false), Cell("online", 1, false)],
    },
    Rows {
        name: "inputs",
        most: 128,
        address: 3,
        cells: &[
            Cell("adapter", 255, false),
            Cell("address", 255, false),
            Cell("instance", 255, false),
            Cell("occupied", 1, true),
            Cell("light", 1_023, true),
            Cell("position", 1_023, true),
            Cell("age", FREE, true),
        ],
    },
    Rows {
        name: "hcl rows",
        most: 64,
        address: 1,
        cells: &[Cell("target", FREE, false), Cell("enabled", 1, false), Cell("overridden", 1, false)],
    },
];

impl Rows {
    fn width(&self) -> usize {
        self.cells.iter().map(|cell| if cell.2 { 2 } else { 1 }).sum()
    }
}

/// The refusal of a snapshot by tick and run; None if it is accepted.
pub fn refusal(snapshot: &[u32]) -> Option<Refusal> {
    Refusal::of(20, length(snapshot))
        .or_else(|| {
            let mut findings = header(snapshot);
            each_row(snapshot, |table, row, at, words| findings.extend(cells(table, row, at, words)));
            Refusal::of(21, findings)
        })
        .or_else(|| Refusal::of(22, addresses(snapshot)))
}

fn length(snapshot: &[u32]) -> Vec<Finding> {
    if snapshot.len() < HEAD {
        return vec![Finding::new(format!("the snapshot has {} words, and {HEAD} stand before the rows", snapshot.len()))];
    }
    let rows: u64 = TABLES.iter().zip(&snapshot[COUNTS..]).map(|(table, count)| table.width() as u64 * u64::from(*count)).sum();
    let wanted = HEAD as u64 + rows;
    if snapshot.len() as u64 == wanted {
        return Vec::new();
    }
    let mut finding = Finding::new(format!("the snapshot has {} words, and its counts ask for {wanted}", snapshot.len()));
    for (place, table) in TABLES.iter().enumerate() {
        let count = snapshot[COUNTS + place];
        finding.more.push(format!("word {}: {count} {} of {} words", COUNTS + place, table.name, table.width()));
    }
    vec![finding]
}

fn header(snapshot: &[u32]) -> Vec<Finding> {
    let mut findings = Vec::new();
    let mut say = |place: usize, name: &str, wrong: String| findings.push(Finding::new(format!("word {place} ({name}): {wrong}")));
    let pairs = [(2, "wall clock", ["weekday", "minute"], [6, 1_439]), (5, "sun", ["sunrise", "sunset"], [1_439, 1_439])];
    for (place, what, names, most) in pairs {
        let mark = snapshot[place];
        if mark > 1 {
            say(place, &format!("{what} present"), format!("{mark}, allowed 0 or 1"));
        }
        for (more, (name, most)) in names.iter().zip(most).enumerate() {
            let word = snapshot[place + 1 + more];
            match mark {
                0 if word != 0 => say(place + 1 + more, name, format!("{word}, allowed 0, since there is no {what}")),
                1 if word > most => say(place + 1 + more, name, format!("{word}, allowed 0 to {most}")),
                _ => {}
            }
        }
    }
    if snapshot[8] > 1 {
        say(8, "controller active", format!("{}, allowed 0 or 1", snapshot[8]));
    }
    for (place, table) in TABLES.iter().enumerate() {
        let count = snapshot[COUNTS + place];
        if count > table.most {
            say(COUNTS + place, &format!("number of {}", table.name), format!("{count}, allowed 0 to {}", table.most));
        }
    }
    findings
}

/// Every row with its table, its number and the place of its first word.
fn each_row(snapshot: &[u32], mut see: impl FnMut(&'static Rows, usize, usize, &[u32])) {
    let mut place = HEAD;
    for (at, table) in TABLES.iter().enumerate() {
        for row in 0..snapshot[COUNTS + at] as usize {
            let Some(words) = snapshot.get(place..place + table.width()) else { return };
            see(table, row, place, words);
            place += table.width();
        }
    }
}

fn cells(table: &Rows, row: usize, at: usize, words: &[u32]) -> Vec<Finding> {
    let mut findings = Vec::new();
    let mut place = 0;
    let mut say = |word: usize, name: &str, wrong: String| {
        findings.push(Finding::new(format!("word {}, {} row {row}, {name}: {wrong}", at + word, table.name)));
    };
    for Cell(name, most, has_mark) in table.cells {
        let range = |word: u32| format!("{word}, allowed 0 to {most}");
        if *has_mark {
            let (mark, word) = (words[place], words[place + 1]);
            match mark {
                0 if word != 0 => say(place + 1, name, format!("{word}, allowed 0, since it is missing")),
                1 if word > *most => say(place + 1, name, range(word)),
                0 | 1 => {}
                _ => say(place, &format!("{name} present"), format!("{mark}, allowed 0 or 1")),
            }
            place += 2;
        } else {
            if words[place] > *most {
                say(place, name, range(words[place]));
            }
            place += 1;
        }
    }
    findings
}

fn addresses(snapshot: &[u32]) -> Vec<Finding> {
    let mut findings = Vec::new();
    let mut seen: std::collections::BTreeMap<(&str, Vec<u32>), usize> = Default::default();
    each_row(snapshot, |table, row, at, words| {
        let address = words[..table.address].to_vec();
        let shown: Vec<String> = address.iter().map(u32::to_string).collect();
        match seen.get(&(table.name, address.clone())) {
            Some(first) => {
                let what = format!("word {at}: {} rows {first} and {row} have one address, {}", table.name, shown.join("/"));
                findings.push(Finding::new(what));
            }
            None => {
                seen.insert((table.name, address), row);
            }
        }
    });
    findings
}
