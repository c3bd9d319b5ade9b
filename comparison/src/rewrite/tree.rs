//! A set as a tree of records: in place of an index the record, in place of a list its records. Read from an image, and drawn.

use oracle::build::{Action, Block, Condition, Image, Rule, Trigger};
use oracle::random::Random;
use oracle::tables::{self, mentions, BLOCKS, LIMITS, RULES, TRAILER, WIDTHS};

use crate::calls::small_actions;

#[derive(Clone, Debug, PartialEq)]
pub struct Node {
    pub table: usize,
    /// The words of the record, 0 where it mentions others.
    pub words: Vec<u32>,
    /// What it mentions, by its mentions.
    pub mentioned: Vec<Vec<Node>>,
}

#[derive(Clone, Debug, PartialEq)]
pub struct Tree {
    pub limits: Vec<u32>,
    pub rules: Vec<Node>,
    pub blocks: Vec<Node>,
}

impl Node {
    fn size(&self) -> usize {
        let inside: usize = self.mentioned.iter().flatten().map(Node::size).sum();
        WIDTHS[self.table] + inside
    }
}

impl Tree {
    /// The tree of an image that load accepts.
    pub fn of(image: &[u32]) -> Option<Tree> {
        let starts = tables::starts(image)?;
        let all = |table| list(image, &starts, table, [0, tables::count(&starts, table) as u32]);
        let limits = image[image.len() - TRAILER..][..LIMITS].to_vec();
        Some(Tree { limits, rules: all(RULES), blocks: all(BLOCKS) })
    }

    /// The words that it is written in.
    pub fn size(&self) -> usize {
        TRAILER + self.rules.iter().chain(&self.blocks).map(Node::size).sum::<usize>()
    }
}

fn list(image: &[u32], starts: &tables::Starts, table: usize, [first, count]: [u32; 2]) -> Vec<Node> {
    let node = |index: u32| {
        let place = starts[table] + index as usize * WIDTHS[table];
        let mut words = image[place..place + WIDTHS[table]].to_vec();
        let inside = mentions(table, &words);
        let mentioned = inside.iter().map(|mention| list(image, starts, mention.table, mention.of(&words))).collect();
        inside.iter().for_each(|mention| words[mention.word] = 0);
        Node { table, words, mentioned }
    };
    (first..first + count).map(node).collect()
}

/// Lists that occur again and again, so that there is much to share.
struct Author<'a> {
    random: &'a mut Random,
    small: Vec<Action>,
    lists: Vec<Vec<Action>>,
}

impl Author<'_> {
    /// A list: one of before, a piece of one, one behind another, or a new one.
    fn list(&mut self, depth: u32) -> Vec<Action> {
        let before = |author: &mut Self| {
            let at = author.random.below(author.lists.len() as u32) as usize;
            author.lists.get(at).cloned().unwrap_or_default()
        };
        let list = match self.random.below(6) {
            0 => before(self),
            1 => {
                let list = before(self);
                let from = self.random.below(list.len() as u32 + 1) as usize;
                list[from..].to_vec()
            }
            2 => [before(self), self.new_list(depth)].concat(),
            3 => [self.new_list(depth), before(self)].concat(),
            _ => self.new_list(depth),
        };
        self.lists.push(list.clone());
        list
    }

    fn new_list(&mut self, depth: u32) -> Vec<Action> {
        let count = self.random.below(4);
        (0..count).map(|_| self.action(depth)).collect()
    }

    fn action(&mut self, depth: u32) -> Action {
        let Some(less) = depth.checked_sub(1) else {
            let at = self.random.below(self.small.len() as u32) as usize;
            return self.small[at].clone();
        };
        match self.random.below(6) {
            0 => Action::After(self.random.below(3), self.list(less)),
            1 => Action::Repeat(self.random.from_to(1, 2), self.list(less)),
            2 => Action::Conditional(self.condition(), self.list(less), self.list(less)),
            _ => self.action(0),
        }
    }

    fn condition(&mut self) -> Condition {
        Condition::RuleEnabled(self.random.below(3))
    }
}

/// A set over few different lists; its tree is most often short.
pub fn drawn(random: &mut Random) -> Image {
    let mut author = Author { random, small: small_actions(), lists: Vec::new() };
    let depth = author.random.pick([1, 2, 3, 4]);
    let rules = (0..author.random.below(5)).map(|name| {
        let mut rule = Rule::new(name, author.list(depth));
        rule.triggers = (0..author.random.below(3)).map(|at| Trigger::Every(at * 500)).collect();
        rule.conditions = (0..author.random.below(3)).map(|_| author.condition()).collect();
        rule
    });
    let rules = rules.collect();
    let blocks = (0..author.random.below(4)).map(|name| Block { name, actions: author.list(depth) }).collect();
    Image { blocks, ..Image::of(rules) }
}

/// Blocks that no rule calls, each a Conditional that holds the next list as then and as else, so deep.
pub fn doubled(random: &mut Random, depth: u32) -> Image {
    let mut actions = vec![random.pick([Action::Log(1), Action::Wait(1)].each_ref()).clone()];
    for _ in 0..depth {
        actions = vec![Action::Conditional(Condition::ControllerActive, actions.clone(), actions)];
    }
    Image { blocks: vec![Block { name: 9, actions }], ..drawn(random) }
}

/// The set with a block more, so that its tree has these words, if there is room for the block; a Cycle has the words that make no record.
pub fn padded(set: &Image, words: usize) -> Option<Image> {
    let mut set = set.clone();
    let block = Block { name: 8, actions: Vec::new() };
    set.blocks.push(block);
    let left = words.checked_sub(Tree::of(&set.words())?.size())?;
    let cycle = left % 8;
    let logs = (left / 8).checked_sub(usize::from(cycle > 0))?;
    let actions = &mut set.blocks.last_mut()?.actions;
    actions.extend((0..logs).map(|text| Action::Log(text as u32 % 7)));
    if cycle > 0 {
        actions.push(Action::Cycle(vec![5; cycle]));
    }
    Some(set)
}
