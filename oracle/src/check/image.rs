//! Refusals 10 to 17: the trailer, the tables, and the order of the tests.

use super::fields;
use super::flat;

/// "a trailer of 13 words that points back"
const TRAILER: usize = 13;
/// "At most 4,096 words in all."
const MAX_WORDS: usize = 4_096;

/// Table order of document 01.
pub(super) const RULES: usize = 0;
pub(super) const BLOCKS: usize = 1;
pub(super) const TRIGGERS: usize = 2;
pub(super) const CONDITIONS: usize = 3;
pub(super) const ACTIONS: usize = 4;
pub(super) const VALUES: usize = 5;
pub(super) const BOUNDS: usize = 6;
pub(super) const POOL: usize = 7;
pub(super) const TABLES: usize = 8;

/// "rules (16 words a record), blocks, triggers, conditions, actions, values,
/// time bounds (8 words each), pool (1 word)"
const RECORD_WORDS: [usize; TABLES] = [16, 8, 8, 8, 8, 8, 8, 1];

/// Lowest and highest value of budget, call depth, repeat, text and group limit.
const LIMIT_RANGES: [(u32, u32); 5] = [(1, 256), (0, 8), (1, 255), (0, 255), (0, 255)];

/// 17: "over 64 rules, blocks or Every slots"
const MAX_NAMED: usize = 64;
const EVERY: u32 = 1;

/// The words of an image with the places of its tables.
pub(super) struct Tables<'a> {
    words: &'a [u32],
    starts: [usize; TABLES + 1],
}

impl<'a> Tables<'a> {
    /// The tables, or None where refusal 12 applies. "The first table starts at
    /// word 0; each ends where the next begins, the last at the trailer."
    fn find(image: &'a [u32]) -> Option<Tables<'a>> {
        let end = image.len().checked_sub(TRAILER)?;
        let mut starts = [end; TABLES + 1];
        for (start, word) in starts.iter_mut().zip(&image[end + 5..]) {
            *start = usize::try_from(*word).ok()?;
        }
        if starts[0] != 0 {
            return None;
        }
        for (table, words) in RECORD_WORDS.iter().enumerate() {
            let size = starts[table + 1].checked_sub(starts[table])?;
            if size % words != 0 {
                return None;
            }
        }
        Some(Tables { words: image, starts })
    }

    pub(super) fn count(&self, table: usize) -> usize {
        (self.starts[table + 1] - self.starts[table]) / RECORD_WORDS[table]
    }

    pub(super) fn record(&self, table: usize, index: usize) -> &'a [u32] {
        let first = self.starts[table] + index * RECORD_WORDS[table];
        &self.words[first..first + RECORD_WORDS[table]]
    }

    pub(super) fn records(&self, table: usize) -> impl Iterator<Item = &'a [u32]> + '_ {
        (0..self.count(table)).map(move |index| self.record(table, index))
    }
}

/// The limits of the trailer that flattening reads.
pub(super) struct Limits {
    pub call_depth: u64,
    pub repeat: u32,
}

/// The refusal of a rule image by load, None if the image is accepted.
pub fn image_refusal(image: &[u32]) -> Option<u32> {
    if image.len() < TRAILER || image.len() > MAX_WORDS {
        return Some(10);
    }
    let trailer = &image[image.len() - TRAILER..];
    if !limits_in_range(trailer) {
        return Some(11);
    }
    let Some(tables) = Tables::find(image) else {
        return Some(12);
    };
    content_refusal(&tables, trailer)
}

/// Refusals 13 to 17. Each number looks at all tables before the next one
/// is looked for.
fn content_refusal(tables: &Tables<'_>, trailer: &[u32]) -> Option<u32> {
    if !all_records(tables, fields::in_range) {
        return Some(13);
    }
    if !all_records(tables, fields::refers_inside) {
        return Some(14);
    }
    if two_rules_of_one_name(tables) {
        return Some(15);
    }
    if flat::over_limits(tables, &flatten_limits(trailer)) {
        return Some(16);
    }
    if over_64(tables) {
        return Some(17);
    }
    None
}

fn flatten_limits(trailer: &[u32]) -> Limits {
    Limits { call_depth: u64::from(trailer[1]), repeat: trailer[2] }
}

pub(super) fn flat_size(image: &[u32]) -> Option<flat::Size> {
    if image.len() < TRAILER || image_refusal(image).is_some_and(|number| number < 16) {
        return None;
    }
    let tables = Tables::find(image)?;
    let trailer = &image[image.len() - TRAILER..];
    Some(flat::size(&tables, &flatten_limits(trailer)))
}

/// The tables of an image that load accepts, the limits that flattening reads, and its budget.
pub(super) fn accepted(image: &[u32]) -> (Tables<'_>, Limits, u64) {
    let trailer = &image[image.len() - TRAILER..];
    let tables = Tables::find(image).unwrap_or(Tables { words: image, starts: [0; TABLES + 1] });
    (tables, flatten_limits(trailer), u64::from(trailer[0]))
}

fn limits_in_range(trailer: &[u32]) -> bool {
    trailer
        .iter()
        .zip(LIMIT_RANGES)
        .all(|(word, (low, high))| (low..=high).contains(word))
}

type RecordTest = fn(&Tables<'_>, usize, usize) -> bool;

/// Whether a test holds of every record, met by a rule or not.
fn all_records(tables: &Tables<'_>, test: RecordTest) -> bool {
    (0..TABLES).all(|table| (0..tables.count(table)).all(|index| test(tables, table, index)))
}

fn two_rules_of_one_name(tables: &Tables<'_>) -> bool {
    let mut names: Vec<u32> = tables.records(RULES).map(|rule| rule[0]).collect();
    names.sort_unstable();
    names.windows(2).any(|pair| pair[0] == pair[1])
}

fn over_64(tables: &Tables<'_>) -> bool {
    tables.count(RULES) > MAX_NAMED
        || tables.count(BLOCKS) > MAX_NAMED
        || every_slots(tables) > MAX_NAMED
}

/// A rule has one Every slot for each Every trigger of its list, also where two
/// rules name the same records.
fn every_slots(tables: &Tables<'_>) -> usize {
    tables
        .records(RULES)
        .flat_map(|rule| {
            let first = rule[4] as usize;
            first..first + rule[5] as usize
        })
        .filter(|index| tables.record(TRIGGERS, *index)[0] == EVERY)
        .count()
}
