//! A rule set as a tree: what an image says, without the places of its records.

use crate::schema::Table;

/// Where a statement stands in its file. Two trees are equal wherever they were written.
#[derive(Clone, Copy, Debug, Default)]
pub struct Spot {
    pub line: usize,
    pub column: usize,
    pub length: usize,
}

impl PartialEq for Spot {
    fn eq(&self, _: &Spot) -> bool {
        true
    }
}

/// A field of a record, at the place that it has in the image's record.
#[derive(Clone, Debug, PartialEq)]
pub enum Part {
    Word(u32),
    /// A record of another table.
    One(Box<Record>),
    /// A nested list of actions.
    List(Vec<Record>),
    /// Scenes of the pool.
    Scenes(Vec<u32>),
    /// The place of a list's count.
    Gap,
}

/// A trigger, condition, action, value or time bound.
#[derive(Clone, Debug, Default, PartialEq)]
pub struct Record {
    pub kind: u32,
    pub parts: Vec<Part>,
    pub spot: Spot,
}

impl Record {
    pub fn new(kind: u32, words: &[u32]) -> Record {
        Record { kind, parts: words.iter().map(|word| Part::Word(*word)).collect(), spot: Spot::default() }
    }

    /// The word of a field; 0 for a field that is none.
    pub fn word(&self, field: usize) -> u32 {
        match self.parts.get(field) {
            Some(Part::Word(word)) => *word,
            _ => 0,
        }
    }

    pub fn one(&self, field: usize) -> Option<&Record> {
        match self.parts.get(field) {
            Some(Part::One(record)) => Some(record),
            _ => None,
        }
    }

    pub fn list(&self, field: usize) -> &[Record] {
        match self.parts.get(field) {
            Some(Part::List(records)) => records,
            _ => &[],
        }
    }

    /// The nested lists.
    pub fn lists(&self) -> impl Iterator<Item = &[Record]> {
        self.parts.iter().filter_map(|part| match part {
            Part::List(records) => Some(records.as_slice()),
            _ => None,
        })
    }

    /// The integer of a literal value.
    pub fn literal(&self) -> Option<i64> {
        (self.kind == 0).then(|| wide(self.word(0), self.word(1)) as i64)
    }
}

pub fn wide(low: u32, high: u32) -> u64 {
    u64::from(high) << 32 | u64::from(low)
}

pub fn pair(value: u64) -> [u32; 2] {
    [value as u32, (value >> 32) as u32]
}

/// The five limits of the trailer.
#[derive(Clone, Copy, Debug, PartialEq)]
pub struct Limits {
    pub budget: u32,
    pub depth: u32,
    pub repeat: u32,
    pub text: u32,
    pub group: u32,
}

/// Name, lowest and highest value of each limit, in the trailer's order.
pub const LIMITS: [(&str, u32, u32); 5] =
    [("budget", 1, 256), ("depth", 0, 8), ("repeat", 1, 255), ("text", 0, 255), ("group", 0, 255)];

impl Limits {
    pub const LARGEST: Limits = Limits { budget: 256, depth: 8, repeat: 255, text: 255, group: 255 };

    pub fn words(&self) -> [u32; 5] {
        [self.budget, self.depth, self.repeat, self.text, self.group]
    }

    pub fn of(words: [u32; 5]) -> Limits {
        let [budget, depth, repeat, text, group] = words;
        Limits { budget, depth, repeat, text, group }
    }
}

#[derive(Clone, Debug, Default, PartialEq)]
pub struct Rule {
    pub name: u32,
    pub enabled: bool,
    pub hold: bool,
    pub cooldown: u32,
    pub triggers: Vec<Record>,
    pub conditions: Vec<Record>,
    pub steps: Vec<Record>,
    pub spot: Spot,
}

#[derive(Clone, Debug, Default, PartialEq)]
pub struct Block {
    pub name: u32,
    pub steps: Vec<Record>,
    pub spot: Spot,
}

#[derive(Clone, Debug, PartialEq)]
pub struct Set {
    pub limits: Limits,
    pub rules: Vec<Rule>,
    pub blocks: Vec<Block>,
}

impl Set {
    pub fn rule(&self, name: u32) -> Option<&Rule> {
        self.rules.iter().find(|rule| rule.name == name)
    }

    /// Of two blocks of one name the first counts.
    pub fn block(&self, name: u32) -> Option<&Block> {
        self.blocks.iter().find(|block| block.name == name)
    }

    /// Every record with its table, those inside others too.
    pub fn each<'a>(&'a self, mut see: impl FnMut(Table, &'a Record)) {
        for rule in &self.rules {
            rule.triggers.iter().for_each(|record| each(Table::Triggers, record, &mut see));
            rule.conditions.iter().for_each(|record| each(Table::Conditions, record, &mut see));
            rule.steps.iter().for_each(|record| each(Table::Actions, record, &mut see));
        }
        for block in &self.blocks {
            block.steps.iter().for_each(|record| each(Table::Actions, record, &mut see));
        }
    }
}

/// A record and all inside it.
pub fn each<'a>(table: Table, record: &'a Record, see: &mut impl FnMut(Table, &'a Record)) {
    see(table, record);
    for (field, part) in record.parts.iter().enumerate() {
        match part {
            Part::One(inner) => each(table_of_one(table, record.kind, field), inner, see),
            Part::List(inner) => inner.iter().for_each(|record| each(Table::Actions, record, see)),
            _ => {}
        }
    }
}

/// The table that a field's record stands in.
fn table_of_one(table: Table, kind: u32, field: usize) -> Table {
    match (table, kind, field) {
        (Table::Actions, crate::schema::CONDITIONAL, 0) => Table::Conditions,
        (Table::Conditions, 0, _) => Table::Bounds,
        _ => Table::Values,
    }
}
