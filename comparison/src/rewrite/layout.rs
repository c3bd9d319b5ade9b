//! Images that describe one tree: its lists in any order that load accepts, equal ones shared, lists that overlap, records that nothing mentions.

use oracle::random::Random;
use oracle::tables::{mentions, Mention, ACTIONS, BLOCKS, BOUNDS, CONDITIONS, POOL, RULES, TRAILER, TRIGGERS, VALUES, WIDTHS};

use super::tree::{Node, Tree};

const MOST_WORDS: usize = 4_096;

/// How often a list is shared where it can be, laid over the end of its table, or put behind unused records: in 4 cases.
#[derive(Clone, Copy, Debug)]
pub struct Style {
    pub share: u32,
    pub overlap: u32,
    pub unused: u32,
}

/// Shuffled only; shared where possible; overlapping; and all of it.
pub const STYLES: [Style; 4] = [
    Style { share: 0, overlap: 0, unused: 0 },
    Style { share: 4, overlap: 0, unused: 0 },
    Style { share: 1, overlap: 4, unused: 0 },
    Style { share: 2, overlap: 2, unused: 2 },
];

/// What a layout has.
#[derive(Clone, Copy, Debug, Default)]
pub struct Counts {
    pub shared: u64,
    pub overlapping: u64,
    pub unused: u64,
}

/// A record of a table: one of the tree, or one that nothing mentions.
struct Slot<'a> {
    node: Option<&'a Node>,
    words: Vec<u32>,
}

/// A list that has no place yet, and the word that is to say where it is.
#[derive(Clone, Copy)]
struct Open<'a> {
    table: usize,
    place: usize,
    mention: Mention,
    list: &'a [Node],
}

pub struct Layout<'a> {
    random: Random,
    style: Style,
    tables: [Vec<Slot<'a>>; 8],
    open: Vec<Open<'a>>,
    empty: Vec<Open<'a>>,
    /// Words that are left for unused records.
    spare: usize,
    pub counts: Counts,
}

/// An image of the tree, and what it has. It has more than 4,096 words only if the tree has and too little is shared.
pub fn image(tree: &Tree, style: Style, seed: u64) -> (Vec<u32>, Counts) {
    let spare = MOST_WORDS.saturating_sub(tree.size());
    let random = Random::new(seed);
    let (tables, open, empty) = (Default::default(), Vec::new(), Vec::new());
    let mut layout = Layout { random, style, tables, open, empty, spare, counts: Counts::default() };
    layout.append(RULES, &tree.rules);
    layout.append(BLOCKS, &tree.blocks);
    while let Some(open) = layout.next() {
        layout.place(open);
    }
    layout.fill();
    (layout.words(&tree.limits), layout.counts)
}

impl<'a> Layout<'a> {
    fn draw(&mut self, of_four: u32) -> bool {
        self.random.below(4) < of_four
    }

    /// Any of the lists without a place, or one that can be laid over the end of its table.
    fn next(&mut self) -> Option<Open<'a>> {
        let any = self.random.below(self.open.len() as u32) as usize;
        let at = match self.draw(self.style.overlap) {
            true => self.open.iter().position(|open| self.overlap(open).is_some()).unwrap_or(any),
            false => any,
        };
        (at < self.open.len()).then(|| self.open.swap_remove(at))
    }

    fn place(&mut self, open: Open<'a>) {
        let target = open.mention.table;
        let shared = self.shared(&open);
        let overlap = self.overlap(&open);
        let first = if let (Some(first), true) = (shared, self.draw(self.style.share)) {
            self.counts.shared += 1;
            first
        } else if let (Some(common), true) = (overlap, self.draw(self.style.overlap)) {
            self.counts.overlapping += 1;
            self.append(target, &open.list[common..]) - common
        } else {
            self.unused(target);
            self.append(target, open.list)
        };
        self.tables[open.table][open.place].words[open.mention.word] = first as u32;
    }

    /// The lowest place that a list may have: "a non-empty nested list" starts after its holder.
    fn lowest(open: &Open<'a>) -> usize {
        if open.table == ACTIONS && open.mention.table == ACTIONS { open.place + 1 } else { 0 }
    }

    fn stands(&self, table: usize, place: usize, list: &[Node]) -> bool {
        let slots = self.tables[table].get(place..place + list.len());
        slots.is_some_and(|slots| slots.iter().zip(list).all(|(slot, node)| slot.node == Some(node)))
    }

    /// A place where these records stand already.
    fn shared(&mut self, open: &Open<'a>) -> Option<usize> {
        let target = open.mention.table;
        let places: Vec<usize> =
            (Self::lowest(open)..self.tables[target].len()).filter(|place| self.stands(target, *place, open.list)).collect();
        places.get(self.random.below(places.len() as u32) as usize).copied()
    }

    /// How many of its records the end of the table has, if some and not all.
    fn overlap(&self, open: &Open<'a>) -> Option<usize> {
        let (target, most) = (open.mention.table, open.list.len().saturating_sub(1));
        let end = self.tables[target].len();
        let most = most.min(end.saturating_sub(Self::lowest(open)));
        (1..=most).rev().find(|common| self.stands(target, end - common, &open.list[..*common]))
    }

    /// Appends records, and opens what they mention. Their first place.
    fn append(&mut self, table: usize, list: &'a [Node]) -> usize {
        let first = self.tables[table].len();
        for node in list {
            let place = self.tables[table].len();
            for (mention, list) in mentions(table, &node.words).iter().zip(&node.mentioned) {
                let open = Open { table, place, mention: *mention, list };
                if list.is_empty() { self.empty.push(open) } else { self.open.push(open) }
            }
            self.tables[table].push(Slot { node: Some(node), words: node.words.clone() });
        }
        first
    }

    fn unused(&mut self, table: usize) {
        while self.spare >= WIDTHS[table] && self.draw(self.style.unused) {
            self.spare -= WIDTHS[table];
            self.counts.unused += 1;
            self.tables[table].push(Slot { node: None, words: Vec::new() });
        }
    }

    /// What can be said when all tables have their size: where empty lists start, and the words of unused records.
    fn fill(&mut self) {
        (TRIGGERS..=POOL).for_each(|table| self.unused(table));
        for open in std::mem::take(&mut self.empty) {
            let end = self.tables[open.mention.table].len() as u32;
            let first = if self.style.unused == 0 { 0 } else { self.random.from_to(0, end) };
            self.tables[open.table][open.place].words[open.mention.word] = first;
        }
        for table in TRIGGERS..=POOL {
            for place in 0..self.tables[table].len() {
                if self.tables[table][place].node.is_none() {
                    self.tables[table][place].words = self.unmentioned(table, place);
                }
            }
        }
    }

    /// A record that load accepts at this place.
    fn unmentioned(&mut self, table: usize, place: usize) -> Vec<u32> {
        let index = |random: &mut Random, slots: &[Slot<'a>]| random.below(slots.len() as u32);
        let (values, bounds, actions) = (&self.tables[VALUES], &self.tables[BOUNDS], self.tables[ACTIONS].len() as u32);
        let random = &mut self.random;
        let fields = match (table, random.below(3)) {
            (TRIGGERS, 0) => vec![4],
            (TRIGGERS, _) => vec![1, random.word()],
            (CONDITIONS, 0) if !bounds.is_empty() => vec![0, index(random, bounds), index(random, bounds)],
            (CONDITIONS, 1) if !values.is_empty() => vec![15, random.word(), 2, 0, index(random, values)],
            (CONDITIONS, _) => vec![15, random.word(), 2, 1, random.word()],
            (ACTIONS, 0) if !values.is_empty() => vec![17, random.word(), index(random, values)],
            (ACTIONS, 1) => {
                let first = random.from_to(place as u32 + 1, actions);
                vec![24, random.word(), first, random.from_to(0, actions - first)]
            }
            (ACTIONS, _) => vec![21, random.word()],
            (VALUES, _) => vec![0, random.word(), random.word()],
            (BOUNDS, _) => vec![0, random.below(24), random.below(60)],
            _ => vec![random.below(256)],
        };
        let mut words = fields;
        words.resize(WIDTHS[table], 0);
        words
    }

    fn words(&self, limits: &[u32]) -> Vec<u32> {
        let mut trailer = limits.to_vec();
        let mut words: Vec<u32> = Vec::new();
        for table in &self.tables {
            trailer.push(words.len() as u32);
            table.iter().for_each(|slot| words.extend(&slot.words));
        }
        debug_assert_eq!(trailer.len(), TRAILER);
        words.extend(trailer);
        words
    }
}
