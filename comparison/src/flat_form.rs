//! The flat form of an image that load accepts: document 01, "Flat steps", `flatten_rule`, and document 02, request 8. A rule's own list is the
//! Rust's; the bodies of its afters stand apart, and the copies that one repeat makes share theirs.

use crate::tables::{Tables, ACTIONS, BLOCKS, RULES};

/// Kind (0 primitive, 1 wait, 2 branch, 3 after, 4 fail) and three words; of an after its time, and the first step and size of its body.
pub type Step = [u32; 4];

pub const BRANCH: u32 = 2;
pub const AFTER: u32 = 3;
const FAIL: Step = [4, 0, 0, 0];

/// "A list at 256 or more steps with an action left takes one Fail and ends."
const MOST: usize = 256;

/// A rule's lists: its own, and the bodies of its afters one behind the other.
#[derive(Clone, Default)]
pub struct Lists {
    pub own: Vec<Step>,
    pub bodies: Vec<Step>,
}

impl Lists {
    /// List 0 is the rule's own; list p + 1 the body of the after at place p of it.
    pub fn named(&self, list: u32) -> Option<&[Step]> {
        let Some(place) = list.checked_sub(1) else {
            return Some(&self.own);
        };
        let after = self.own.get(place as usize).filter(|step| step[0] == AFTER)?;
        self.bodies.get(after[2] as usize..(after[2] + after[3]) as usize)
    }

    /// As they stand in a store: the bodies, then the own list. Refusal 16 counts these: document 02, request 8.
    pub fn stored(&self) -> impl Iterator<Item = &Step> {
        self.bodies.iter().chain(&self.own)
    }
}

/// What is around a list, through calls too.
#[derive(Clone, Copy, Default)]
struct Around {
    calls: u32,
    repeat: bool,
    conditional: bool,
    after: bool,
}

/// The lists of the rules, in the image's order.
pub fn lists(image: &[u32]) -> Vec<Lists> {
    let tables = Tables::of(image);
    let flat = |rule: &[u32]| {
        let mut lists = Lists::default();
        let mut own = Vec::new();
        write(&tables, rule[8], rule[9], &mut own, &mut lists.bodies, Around::default());
        lists.own = own;
        lists
    };
    tables.records(RULES).map(flat).collect()
}

fn write(tables: &Tables<'_>, first: u32, count: u32, list: &mut Vec<Step>, bodies: &mut Vec<Step>, around: Around) {
    for index in first..first + count {
        if list.len() >= MOST {
            list.push(FAIL);
            return;
        }
        write_action(tables, index, list, bodies, around);
    }
}

fn write_action(tables: &Tables<'_>, index: u32, list: &mut Vec<Step>, bodies: &mut Vec<Step>, around: Around) {
    let action = tables.record(ACTIONS, index);
    match action[0] {
        23 => list.push([1, action[1], 0, 0]),
        24 if !around.after => write_after(tables, action, list, bodies, around),
        25 => write_call(tables, action[1], list, bodies, around),
        26 if !around.repeat && (1..=tables.repeat_limit()).contains(&action[1]) => {
            write_repeat(tables, action, list, bodies, around);
        }
        27 if !around.conditional => write_branch(tables, action, list, bodies, around),
        24 | 26 | 27 => list.push(FAIL),
        _ => list.push([0, index, 0, 0]),
    }
}

fn write_after(tables: &Tables<'_>, action: &[u32], list: &mut Vec<Step>, bodies: &mut Vec<Step>, around: Around) {
    let mut body = Vec::new();
    write(tables, action[2], action[3], &mut body, bodies, Around { after: true, ..around });
    list.push([AFTER, action[1], bodies.len() as u32, body.len() as u32]);
    bodies.extend(body);
}

/// Of two blocks of one name the first counts.
fn write_call(tables: &Tables<'_>, name: u32, list: &mut Vec<Step>, bodies: &mut Vec<Step>, around: Around) {
    match tables.records(BLOCKS).find(|block| block[0] == name) {
        Some(block) if around.calls < tables.call_depth() => {
            write(tables, block[1], block[2], list, bodies, Around { calls: around.calls + 1, ..around });
        }
        _ => list.push(FAIL),
    }
}

/// The bodies of a repeat of which no copy fits are not kept.
fn write_repeat(tables: &Tables<'_>, action: &[u32], list: &mut Vec<Step>, bodies: &mut Vec<Step>, around: Around) {
    let kept = bodies.len();
    let mut body = Vec::new();
    write(tables, action[2], action[3], &mut body, bodies, Around { repeat: true, ..around });
    for copy in 0..action[1] {
        if list.len() + body.len() > MOST {
            list.push(FAIL);
            if copy == 0 {
                bodies.truncate(kept);
            }
            return;
        }
        list.extend(&body);
    }
}

/// Both regions stand behind the branch, in the same list.
fn write_branch(tables: &Tables<'_>, action: &[u32], list: &mut Vec<Step>, bodies: &mut Vec<Step>, around: Around) {
    let inside = Around { conditional: true, ..around };
    let at = list.len();
    list.push([BRANCH, action[1], 0, 0]);
    write(tables, action[2], action[3], list, bodies, inside);
    let then = (list.len() - at - 1) as u32;
    write(tables, action[4], action[5], list, bodies, inside);
    list[at][2] = then;
    list[at][3] = (list.len() - at - 1) as u32 - then;
}
