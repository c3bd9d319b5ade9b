//! Images to trees and back. The writer's order is that of document 02, request 11: rules and blocks keep their order, a list is written whole,
//! then record by record what it mentions, each with all inside it before the next; once for each mention; an empty list has first 0.

use crate::schema::{kind_of, kinds, Class, Table};
use crate::tree::{Block, Limits, Part, Record, Rule, Set};

pub const TRAILER: usize = 13;
pub const MOST_WORDS: usize = 4_096;
/// Lists of an image may be shared, so that a short image can be a very large tree.
const MOST_RECORDS: usize = 50_000;

/// Why an image that load accepts is not read.
#[derive(Clone, Copy, Debug, PartialEq, Eq)]
pub enum Unread {
    /// Its tables are not where the trailer says, or an index leads outside them: load refuses it.
    Refused,
    TooLarge,
}

/// The tables of an image, as far as the trailer makes sense.
#[derive(Clone, Copy)]
pub struct Tables<'a> {
    words: &'a [u32],
    starts: [usize; 9],
}

impl<'a> Tables<'a> {
    /// None where refusal 10 or 12 applies.
    pub fn of(image: &'a [u32]) -> Option<Tables<'a>> {
        let end = image.len().checked_sub(TRAILER)?;
        let mut starts = [end; 9];
        for (start, word) in starts.iter_mut().zip(image.get(end + 5..)?) {
            *start = usize::try_from(*word).ok()?;
        }
        let tables = Tables { words: image, starts };
        let whole = Table::ALL.into_iter().all(|table| {
            let (from, to) = (starts[table.place()], starts[table.place() + 1]);
            from <= to && to <= end && (to - from) % table.width() == 0
        });
        (starts[0] == 0 && whole).then_some(tables)
    }

    pub fn count(&self, table: Table) -> usize {
        (self.starts[table.place() + 1] - self.starts[table.place()]) / table.width()
    }

    /// The place of a record's first word in the image.
    pub fn place(&self, table: Table, index: usize) -> usize {
        self.starts[table.place()] + index * table.width()
    }

    pub fn record(&self, table: Table, index: usize) -> Option<&'a [u32]> {
        if index >= self.count(table) {
            return None;
        }
        let place = self.place(table, index);
        self.words.get(place..place + table.width())
    }

    pub fn limits(&self) -> Limits {
        let trailer = &self.words[self.words.len() - TRAILER..];
        Limits::of([trailer[0], trailer[1], trailer[2], trailer[3], trailer[4]])
    }
}

// READING ----------------------------------------------------------------------------------------------------------------------------------

struct Reader<'a> {
    tables: Tables<'a>,
    left: usize,
}

/// The tree of an image.
pub fn read(image: &[u32]) -> Result<Set, Unread> {
    let tables = Tables::of(image).ok_or(Unread::Refused)?;
    let mut reader = Reader { tables, left: MOST_RECORDS };
    let mut set = Set { limits: tables.limits(), rules: Vec::new(), blocks: Vec::new() };
    for index in 0..tables.count(Table::Rules) {
        let words = tables.record(Table::Rules, index).ok_or(Unread::Refused)?;
        set.rules.push(Rule {
            name: words[0],
            enabled: words[1] == 1,
            hold: words[2] == 1,
            cooldown: words[3],
            triggers: reader.list(Table::Triggers, words[4], words[5])?,
            conditions: reader.list(Table::Conditions, words[6], words[7])?,
            steps: reader.list(Table::Actions, words[8], words[9])?,
            spot: Default::default(),
        });
    }
    for index in 0..tables.count(Table::Blocks) {
        let words = tables.record(Table::Blocks, index).ok_or(Unread::Refused)?;
        let steps = reader.list(Table::Actions, words[1], words[2])?;
        set.blocks.push(Block { name: words[0], steps, spot: Default::default() });
    }
    Ok(set)
}

/// One record of an image with what is inside it; None where it cannot be read.
pub fn record(tables: &Tables<'_>, table: Table, index: u32) -> Option<Record> {
    Reader { tables: *tables, left: MOST_RECORDS }.record(table, index).ok()
}

impl Reader<'_> {
    fn list(&mut self, table: Table, first: u32, count: u32) -> Result<Vec<Record>, Unread> {
        let mut records = Vec::new();
        for step in 0..count {
            let index = first.checked_add(step).ok_or(Unread::Refused)?;
            records.push(self.record(table, index)?);
        }
        Ok(records)
    }

    fn record(&mut self, table: Table, index: u32) -> Result<Record, Unread> {
        self.left = self.left.checked_sub(1).ok_or(Unread::TooLarge)?;
        let words = self.tables.record(table, index as usize).ok_or(Unread::Refused)?;
        let (kind, offset) = kind_of(table, words).ok_or(Unread::Refused)?;
        let mut parts = Vec::with_capacity(kind.fields.len());
        for (at, field) in kind.fields.iter().enumerate() {
            let word = words[offset + at];
            let next = words.get(offset + at + 1).copied().unwrap_or(0);
            parts.push(match field.class {
                Class::Index(inner) => self.one(inner, word)?,
                Class::ValueOrText if words[3] == 0 => self.one(Table::Values, word)?,
                Class::First(Table::Pool) => self.scenes(word, next)?,
                // A nested list stands behind its holder: the reading ends.
                Class::Nested if next > 0 && word <= index => return Err(Unread::Refused),
                Class::Nested => Part::List(self.list(Table::Actions, word, next)?),
                Class::Count | Class::Scenes => Part::Gap,
                _ => Part::Word(word),
            });
        }
        Ok(Record { kind: words[0], parts, spot: Default::default() })
    }

    fn one(&mut self, table: Table, index: u32) -> Result<Part, Unread> {
        Ok(Part::One(Box::new(self.record(table, index)?)))
    }

    fn scenes(&mut self, first: u32, count: u32) -> Result<Part, Unread> {
        let word = |step| {
            let index = first.checked_add(step).ok_or(Unread::Refused)?;
            let record = self.tables.record(Table::Pool, index as usize).ok_or(Unread::Refused)?;
            Ok(record[0])
        };
        (0..count).map(word).collect::<Result<Vec<u32>, Unread>>().map(Part::Scenes)
    }
}

// WRITING ----------------------------------------------------------------------------------------------------------------------------------

/// The words of a tree. They may be more than an image may have.
pub fn write(set: &Set) -> Vec<u32> {
    let mut writer = Writer::default();
    for rule in &set.rules {
        let mut words = vec![rule.name, rule.enabled.into(), rule.hold.into(), rule.cooldown];
        words.extend(writer.list(Table::Triggers, &rule.triggers));
        words.extend(writer.list(Table::Conditions, &rule.conditions));
        words.extend(writer.list(Table::Actions, &rule.steps));
        writer.push(Table::Rules, &words);
    }
    for block in &set.blocks {
        let [first, count] = writer.list(Table::Actions, &block.steps);
        writer.push(Table::Blocks, &[block.name, first, count]);
    }
    let mut trailer = set.limits.words().to_vec();
    let mut words = Vec::new();
    for part in writer.tables {
        trailer.push(words.len() as u32);
        words.extend(part);
    }
    words.extend(trailer);
    words
}

#[derive(Default)]
struct Writer {
    tables: [Vec<u32>; 8],
}

impl Writer {
    fn push(&mut self, table: Table, words: &[u32]) -> usize {
        let part = &mut self.tables[table.place()];
        let at = part.len();
        part.extend(words);
        part.resize(at + table.width(), 0);
        at
    }

    fn list(&mut self, table: Table, records: &[Record]) -> [u32; 2] {
        if records.is_empty() {
            return [0, 0];
        }
        let places: Vec<usize> = records.iter().map(|_| self.push(table, &[])).collect();
        for (record, place) in records.iter().zip(&places) {
            self.fill(table, *place, record);
        }
        [(places[0] / table.width()) as u32, records.len() as u32]
    }

    fn one(&mut self, table: Table, record: &Record) -> u32 {
        let place = self.push(table, &[]);
        self.fill(table, place, record);
        (place / table.width()) as u32
    }

    fn fill(&mut self, table: Table, place: usize, record: &Record) {
        let (kinds, _) = kinds(table);
        let fields = kinds.get(record.kind as usize).map_or(&[][..], |kind| kind.fields);
        let mut words = vec![record.kind];
        for (part, field) in record.parts.iter().zip(fields) {
            match part {
                Part::Word(word) => words.push(*word),
                Part::One(inner) => {
                    let table = if let Class::Index(table) = field.class { table } else { Table::Values };
                    words.push(self.one(table, inner));
                }
                Part::List(inner) => words.extend(self.list(Table::Actions, inner)),
                Part::Scenes(scenes) => words.extend(self.scenes(scenes)),
                Part::Gap => {}
            }
        }
        self.tables[table.place()][place..place + words.len()].copy_from_slice(&words);
    }

    fn scenes(&mut self, scenes: &[u32]) -> [u32; 2] {
        if scenes.is_empty() {
            return [0, 0];
        }
        let pool = &mut self.tables[Table::Pool.place()];
        let first = pool.len() as u32;
        pool.extend(scenes);
        [first, scenes.len() as u32]
    }
}
