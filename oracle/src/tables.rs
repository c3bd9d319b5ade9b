//! The tables of an image and what their records mention, for code that moves records. The checker (`check`) has a reading of its own.

pub const TRAILER: usize = 13;
pub const LIMITS: usize = 5;
/// "rules (16 words a record), blocks, triggers, conditions, actions, values, time bounds (8 words each), pool (1 word)"
pub const WIDTHS: [usize; 8] = [16, 8, 8, 8, 8, 8, 8, 1];

pub const RULES: usize = 0;
pub const BLOCKS: usize = 1;
pub const TRIGGERS: usize = 2;
pub const CONDITIONS: usize = 3;
pub const ACTIONS: usize = 4;
pub const VALUES: usize = 5;
pub const BOUNDS: usize = 6;
pub const POOL: usize = 7;

/// The first words of the tables and of the trailer.
pub type Starts = [usize; 9];

/// Where the tables start, if they are in order.
#[must_use]
pub fn starts(image: &[u32]) -> Option<Starts> {
    let end = image.len().checked_sub(TRAILER)?;
    let mut starts = [end; 9];
    for (start, word) in starts.iter_mut().zip(&image[end + LIMITS..]) {
        *start = *word as usize;
    }
    let ordered = starts.windows(2).zip(WIDTHS);
    let whole = ordered.into_iter().all(|(pair, width)| pair[0] <= pair[1] && (pair[1] - pair[0]) % width == 0);
    (starts[0] == 0 && whole).then_some(starts)
}

/// How many records a table has.
#[must_use]
pub fn count(starts: &Starts, table: usize) -> usize {
    (starts[table + 1] - starts[table]) / WIDTHS[table]
}

/// A word of a record that is an index into a table, or the first record of a list whose count is the next word.
#[derive(Clone, Copy, Debug, PartialEq, Eq)]
pub struct Mention {
    pub word: usize,
    pub table: usize,
    pub is_list: bool,
}

impl Mention {
    /// First record and count.
    #[must_use]
    pub fn of(&self, record: &[u32]) -> [u32; 2] {
        [record[self.word], if self.is_list { record[self.word + 1] } else { 1 }]
    }
}

const fn list(word: usize, table: usize) -> Mention {
    Mention { word, table, is_list: true }
}

const fn one(word: usize, table: usize) -> Mention {
    Mention { word, table, is_list: false }
}

/// What a record of a table mentions, in the order of its fields. A Call has a name, and a comparison with a text the text's number: they mention nothing.
#[must_use]
pub fn mentions(table: usize, record: &[u32]) -> &'static [Mention] {
    match (table, record[0]) {
        (RULES, _) => const { &[list(4, TRIGGERS), list(6, CONDITIONS), list(8, ACTIONS)] },
        (BLOCKS, _) => const { &[list(1, ACTIONS)] },
        (CONDITIONS, 0) => const { &[one(1, BOUNDS), one(2, BOUNDS)] },
        (CONDITIONS, 4 | 5) => const { &[one(4, VALUES)] },
        (CONDITIONS, 8) => const { &[one(5, VALUES)] },
        (CONDITIONS, 15) if record[3] == 0 => const { &[one(4, VALUES)] },
        (ACTIONS, 3) => const { &[list(1, POOL)] },
        (ACTIONS, 10 | 28) => const { &[one(3, VALUES)] },
        (ACTIONS, 17) => const { &[one(2, VALUES)] },
        (ACTIONS, 24 | 26) => const { &[list(2, ACTIONS)] },
        (ACTIONS, 27) => const { &[one(1, CONDITIONS), list(2, ACTIONS), list(4, ACTIONS)] },
        _ => &[],
    }
}
