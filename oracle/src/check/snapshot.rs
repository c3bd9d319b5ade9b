//! Refusals 20 to 22: the snapshot that tick and run are given.

/// "the 14 words before the rows"
const HEADER: usize = 14;
/// Where the five counts stand in the header.
const COUNTS: usize = 9;

/// What one field of a row may hold; a `Maybe` is a present word and a value.
#[derive(Clone, Copy)]
enum Cell {
    UpTo(u32),
    Maybe(u32),
}

use Cell::{Maybe, UpTo};

const BIT: Cell = UpTo(1);
const BYTE: Cell = UpTo(255);
const ID: Cell = UpTo(65_535);
const FREE: u32 = u32::MAX;

/// A table of rows: its highest count, how many words are the address, its cells.
struct Rows {
    most: u32,
    address: usize,
    cells: &'static [Cell],
}

/// Lamps, groups, devices, inputs, hcl rows.
const TABLES: [Rows; 5] = [
    Rows { most: 256, address: 2, cells: &[BYTE, ID, Maybe(255), Maybe(65_535), BIT, Maybe(255)] },
    Rows { most: 64, address: 2, cells: &[BYTE, ID, BIT, BIT, BYTE] },
    Rows { most: 64, address: 2, cells: &[BYTE, BYTE, BIT] },
    Rows {
        most: 128,
        address: 3,
        cells: &[BYTE, BYTE, BYTE, Maybe(1), Maybe(1_023), Maybe(1_023), Maybe(FREE)],
    },
    Rows { most: 64, address: 1, cells: &[UpTo(FREE), BIT, BIT] },
];

impl Rows {
    fn row_words(&self) -> usize {
        let words = |cell: &Cell| match cell {
            UpTo(_) => 1,
            Maybe(_) => 2,
        };
        self.cells.iter().map(words).sum()
    }
}

/// The refusal of a snapshot by tick and run, None if it is accepted.
pub fn snapshot_refusal(snapshot: &[u32]) -> Option<u32> {
    if snapshot.len() < HEADER || snapshot.len() as u64 != counted_words(snapshot) {
        return Some(20);
    }
    if !header_in_range(snapshot) || !all_tables(snapshot, rows_in_range) {
        return Some(21);
    }
    if !all_tables(snapshot, addresses_differ) {
        return Some(22);
    }
    None
}

/// The length that the counts ask for, as given, even where 21 would refuse them.
fn counted_words(snapshot: &[u32]) -> u64 {
    let rows: u64 = TABLES
        .iter()
        .zip(&snapshot[COUNTS..])
        .map(|(table, count)| table.row_words() as u64 * u64::from(*count))
        .sum();
    HEADER as u64 + rows
}

fn header_in_range(snapshot: &[u32]) -> bool {
    let clock = present_pair(&snapshot[2..5], 6, 1_439);
    let sun = present_pair(&snapshot[5..8], 1_439, 1_439);
    let counts = TABLES.iter().zip(&snapshot[COUNTS..]).all(|(table, count)| *count <= table.most);
    clock && sun && snapshot[8] <= 1 && counts
}

/// A present word and two values, which are 0 where it is 0.
fn present_pair(words: &[u32], first_most: u32, second_most: u32) -> bool {
    match words[0] {
        0 => words[1] == 0 && words[2] == 0,
        1 => words[1] <= first_most && words[2] <= second_most,
        _ => false,
    }
}

type TableTest = fn(&Rows, &[u32]) -> bool;

/// Whether a test holds of every table, given the words of its rows. The counts
/// are those that the length was tested against.
fn all_tables(snapshot: &[u32], test: TableTest) -> bool {
    let mut rest = &snapshot[HEADER..];
    TABLES.iter().zip(&snapshot[COUNTS..]).all(|(table, count)| {
        let size = table.row_words() * *count as usize;
        let (rows, later) = rest.split_at(size.min(rest.len()));
        rest = later;
        test(table, rows)
    })
}

fn rows_in_range(table: &Rows, rows: &[u32]) -> bool {
    rows.chunks_exact(table.row_words()).all(|row| {
        let mut words = row.iter();
        table.cells.iter().all(|cell| cell_in_range(*cell, &mut words))
    })
}

fn cell_in_range(cell: Cell, words: &mut std::slice::Iter<'_, u32>) -> bool {
    let mut next = || words.next().copied().unwrap_or(0);
    match cell {
        UpTo(max) => next() <= max,
        Maybe(max) => match (next(), next()) {
            (0, value) => value == 0,
            (1, value) => value <= max,
            _ => false,
        },
    }
}

fn addresses_differ(table: &Rows, rows: &[u32]) -> bool {
    let mut addresses: Vec<&[u32]> = rows
        .chunks_exact(table.row_words())
        .map(|row| &row[..table.address])
        .collect();
    addresses.sort_unstable();
    addresses.windows(2).all(|pair| pair[0] != pair[1])
}
