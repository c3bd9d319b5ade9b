//! The flat form of an image: document 01, "Flat steps", and document 02, request 8. For refusal 16, for the rules of a store, and to say
//! which step comes next.

use crate::image::Tables;
use crate::schema::{Table, AFTER, CALL, CONDITIONAL, REPEAT, WAIT};
use crate::tree::Limits;

/// Kind (0 primitive, 1 wait, 2 branch, 3 after, 4 fail) and three words.
pub type Step = [u32; 4];

pub const PRIMITIVE: u32 = 0;
pub const WAITS: u32 = 1;
pub const BRANCH: u32 = 2;
pub const PUTS_OFF: u32 = 3;
const FAIL: Step = [4, 0, 0, 0];

pub const MOST_IN_LIST: usize = 256;
pub const MOST_STEPS: usize = 2_048;
pub const MOST_TAKEN: u64 = 65_536;

/// A rule's lists: its own, and the bodies of its afters one behind the other.
#[derive(Clone, Default)]
pub struct Lists {
    pub own: Vec<Step>,
    pub bodies: Vec<Step>,
}

impl Lists {
    /// List 0 is the rule's own; list p + 1 the body of the after at place p of it.
    pub fn named(&self, list: u32) -> Option<&[Step]> {
        let Some(place) = list.checked_sub(1) else { return Some(&self.own) };
        let after = self.own.get(place as usize).filter(|step| step[0] == PUTS_OFF)?;
        let first = after[2] as usize;
        self.bodies.get(first..first + after[3] as usize)
    }

    pub fn len(&self) -> usize {
        self.own.len() + self.bodies.len()
    }

    pub fn is_empty(&self) -> bool {
        self.len() == 0
    }

    /// As they stand in a store.
    pub fn stored(&self) -> impl Iterator<Item = &Step> {
        self.bodies.iter().chain(&self.own)
    }
}

/// The lists of the rules, in the image's order, and how often an action was taken.
pub struct Flat {
    pub rules: Vec<Lists>,
    pub taken: u64,
}

impl Flat {
    pub fn steps(&self) -> usize {
        self.rules.iter().map(Lists::len).sum()
    }

    pub fn is_over(&self) -> bool {
        self.steps() > MOST_STEPS || self.taken > MOST_TAKEN
    }
}

/// The flat form of an image with indices inside its tables. It ends early where refusal 16 is certain.
pub fn flatten(tables: &Tables<'_>) -> Flat {
    let mut writer = Writer { tables, limits: tables.limits(), taken: 0 };
    let mut flat = Flat { rules: Vec::new(), taken: 0 };
    for index in 0..tables.count(Table::Rules) {
        let mut lists = Lists::default();
        if let Some(rule) = tables.record(Table::Rules, index) {
            let mut own = Vec::new();
            writer.list(rule[8], rule[9], &mut own, &mut lists.bodies, Around::default());
            lists.own = own;
        }
        flat.rules.push(lists);
        flat.taken = writer.taken;
        if flat.is_over() {
            break;
        }
    }
    flat
}

/// What is around a list, through calls too.
#[derive(Clone, Copy, Default)]
pub struct Around {
    pub calls: u32,
    pub repeat: bool,
    pub conditional: bool,
    pub after: bool,
}

struct Writer<'a> {
    tables: &'a Tables<'a>,
    limits: Limits,
    taken: u64,
}

impl Writer<'_> {
    fn list(&mut self, first: u32, count: u32, list: &mut Vec<Step>, bodies: &mut Vec<Step>, around: Around) {
        for step in 0..count {
            if self.taken > MOST_TAKEN {
                return;
            }
            if list.len() >= MOST_IN_LIST {
                list.push(FAIL);
                return;
            }
            self.action(first.saturating_add(step), list, bodies, around);
        }
    }

    fn action(&mut self, index: u32, list: &mut Vec<Step>, bodies: &mut Vec<Step>, around: Around) {
        self.taken += 1;
        let Some(action) = self.tables.record(Table::Actions, index as usize) else { return list.push(FAIL) };
        match action[0] {
            WAIT => list.push([WAITS, action[1], 0, 0]),
            AFTER if !around.after => self.after(action, list, bodies, around),
            CALL => self.call(action[1], list, bodies, around),
            REPEAT if !around.repeat && (1..=self.limits.repeat).contains(&action[1]) => self.repeat(action, list, bodies, around),
            CONDITIONAL if !around.conditional => self.branch(action, list, bodies, around),
            AFTER | REPEAT | CONDITIONAL => list.push(FAIL),
            _ => list.push([PRIMITIVE, index, 0, 0]),
        }
    }

    fn after(&mut self, action: &[u32], list: &mut Vec<Step>, bodies: &mut Vec<Step>, around: Around) {
        let mut body = Vec::new();
        self.list(action[2], action[3], &mut body, bodies, Around { after: true, ..around });
        list.push([PUTS_OFF, action[1], bodies.len() as u32, body.len() as u32]);
        bodies.extend(body);
    }

    /// Of two blocks of one name the first counts.
    fn call(&mut self, name: u32, list: &mut Vec<Step>, bodies: &mut Vec<Step>, around: Around) {
        let mut blocks = (0..self.tables.count(Table::Blocks)).filter_map(|index| self.tables.record(Table::Blocks, index));
        match blocks.find(|block| block[0] == name) {
            Some(block) if around.calls < self.limits.depth => {
                self.list(block[1], block[2], list, bodies, Around { calls: around.calls + 1, ..around });
            }
            _ => list.push(FAIL),
        }
    }

    /// The copies share the bodies of the first; those of a repeat of which no copy fits are not kept.
    fn repeat(&mut self, action: &[u32], list: &mut Vec<Step>, bodies: &mut Vec<Step>, around: Around) {
        let kept = bodies.len();
        let mut body = Vec::new();
        self.list(action[2], action[3], &mut body, bodies, Around { repeat: true, ..around });
        for copy in 0..action[1] {
            if list.len() + body.len() > MOST_IN_LIST {
                list.push(FAIL);
                if copy == 0 {
                    bodies.truncate(kept);
                }
                return;
            }
            list.extend(&body);
        }
    }

    fn branch(&mut self, action: &[u32], list: &mut Vec<Step>, bodies: &mut Vec<Step>, around: Around) {
        let inside = Around { conditional: true, ..around };
        let at = list.len();
        list.push([BRANCH, action[1], 0, 0]);
        self.list(action[2], action[3], list, bodies, inside);
        let then = list.len() - at - 1;
        self.list(action[4], action[5], list, bodies, inside);
        let other = list.len() - at - 1 - then;
        list[at][2] = then as u32;
        list[at][3] = other as u32;
    }
}
