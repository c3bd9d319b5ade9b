//! The tables of a rule image that load accepts, read from document 01.

const TRAILER: usize = 13;

pub const RULES: usize = 0;
pub const BLOCKS: usize = 1;
pub const TRIGGERS: usize = 2;
pub const CONDITION_RECORDS: usize = 3;
pub const ACTIONS: usize = 4;
pub const VALUE_RECORDS: usize = 5;

/// Words a record, in table order.
const WIDTHS: [usize; 8] = [16, 8, 8, 8, 8, 8, 8, 1];

#[derive(Clone, Copy)]
pub struct Tables<'a> {
    words: &'a [u32],
    trailer: &'a [u32],
}

impl<'a> Tables<'a> {
    pub fn of(image: &'a [u32]) -> Tables<'a> {
        let (words, trailer) = image.split_at(image.len() - TRAILER);
        Tables { words, trailer }
    }

    pub fn budget(&self) -> u32 {
        self.trailer[0]
    }

    pub fn call_depth(&self) -> u32 {
        self.trailer[1]
    }

    pub fn repeat_limit(&self) -> u32 {
        self.trailer[2]
    }

    pub fn records(&self, table: usize) -> impl Iterator<Item = &'a [u32]> {
        let start = self.trailer[5 + table] as usize;
        let end = self.trailer.get(6 + table).map_or(self.words.len(), |word| *word as usize);
        self.words[start..end].chunks_exact(WIDTHS[table])
    }

    pub fn record(&self, table: usize, index: u32) -> &'a [u32] {
        let start = self.trailer[5 + table] as usize + index as usize * WIDTHS[table];
        &self.words[start..start + WIDTHS[table]]
    }

    pub fn rule_names(&self) -> Vec<u32> {
        self.records(RULES).map(|rule| rule[0]).collect()
    }
}
