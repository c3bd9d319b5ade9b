//! Refusal 16: the size of the flat form and the number of times
//! `flatten_action` is taken, counted without making a step.

use super::image::{Limits, Tables, ACTIONS, BLOCKS, RULES};

/// "A list at 256 or more steps with an action left takes one Fail and ends"
const LIST_CAP: u64 = 256;
/// "a loaded set has at most 2,048": request 8 of document 02 says how they are counted.
const MAX_STORED: u64 = 2_048;
/// "`flatten_action` taken over 65,536 times for all rules together"
const MAX_TAKEN: u64 = 65_536;

const AFTER: u32 = 24;
const CALL: u32 = 25;
const REPEAT: u32 = 26;
const CONDITIONAL: u32 = 27;

/// The size of a list of flat steps. An after is one step of the Rust's list; its body is stored apart. Document 02: "Let the copies made by
/// one Repeat, each time it is flattened, share the after bodies of its first copy, each counted once; no others are shared."
#[derive(Clone, Copy, Default)]
struct Steps {
    len: u64,
    bodies: u64,
    /// The same "counted in every copy", as document 01 did.
    every_copy: u64,
}

impl Steps {
    fn push(&mut self) {
        self.len += 1;
    }

    fn push_after(&mut self, body: Steps) {
        self.len += 1;
        self.bodies += body.len;
        self.every_copy += body.len;
    }

    fn append(&mut self, body: Steps, first: bool) {
        self.len += body.len;
        self.every_copy += body.every_copy;
        if first {
            self.bodies += body.bodies;
        }
    }
}

/// What refusal 16 counts of a set: stored flat steps, and how often `flatten_action` is taken; and the flat steps with the bodies of
/// afters counted in every copy.
#[derive(Clone, Copy, Debug, Default, PartialEq, Eq)]
pub struct Size {
    pub stored: u64,
    pub taken: u64,
    pub every_copy: u64,
}

impl Size {
    /// Whether only sharing keeps the set within the limits.
    #[must_use]
    pub fn fits_by_sharing(&self) -> bool {
        !self.over() && self.every_copy > MAX_STORED
    }

    fn over(&self) -> bool {
        self.stored > MAX_STORED || self.taken > MAX_TAKEN
    }
}

/// What surrounds a list, through calls too.
#[derive(Clone, Copy, Default)]
struct Inside {
    calls: u64,
    repeat: bool,
    conditional: bool,
    after: bool,
}

struct Count<'a> {
    tables: &'a Tables<'a>,
    limits: &'a Limits,
    taken: u64,
}

/// Whether the rules together pass one of the two limits of refusal 16.
pub(super) fn over_limits(tables: &Tables<'_>, limits: &Limits) -> bool {
    size(tables, limits).over()
}

/// The sizes of all rules together. The counting ends early once it is certain
/// that a limit is passed, so it ends fast on every image.
pub(super) fn size(tables: &Tables<'_>, limits: &Limits) -> Size {
    let mut count = Count { tables, limits, taken: 0 };
    let mut size = Size::default();
    for rule in tables.records(RULES) {
        let mut steps = Steps::default();
        count.list(rule[8], rule[9], &mut steps, Inside::default());
        size.stored += steps.len + steps.bodies;
        size.every_copy += steps.len + steps.every_copy;
        size.taken = count.taken;
        if size.over() {
            break;
        }
    }
    size
}

/// Of each rule of a set that is within the limits: the steps of its own list, and those stored of its bodies.
pub(super) fn rule_sizes(tables: &Tables<'_>, limits: &Limits) -> Vec<(u64, u64)> {
    let mut count = Count { tables, limits, taken: 0 };
    let size = |rule: &[u32]| {
        let mut steps = Steps::default();
        count.list(rule[8], rule[9], &mut steps, Inside::default());
        (steps.len, steps.bodies)
    };
    tables.records(RULES).map(size).collect()
}

impl Count<'_> {
    fn list(&mut self, first: u32, count: u32, out: &mut Steps, inside: Inside) {
        for index in first..first + count {
            if self.taken > MAX_TAKEN {
                return;
            }
            if out.len >= LIST_CAP {
                out.push();
                return;
            }
            self.action(index, out, inside);
        }
    }

    fn action(&mut self, index: u32, out: &mut Steps, inside: Inside) {
        self.taken += 1;
        let record = self.tables.record(ACTIONS, index as usize);
        match record[0] {
            AFTER => self.after(record, out, inside),
            CALL => self.call(record[1], out, inside),
            REPEAT => self.repeat(record, out, inside),
            CONDITIONAL => self.conditional(record, out, inside),
            _ => out.push(),
        }
    }

    fn after(&mut self, record: &[u32], out: &mut Steps, inside: Inside) {
        if inside.after {
            out.push();
            return;
        }
        let mut body = Steps::default();
        self.list(record[2], record[3], &mut body, Inside { after: true, ..inside });
        out.push_after(body);
    }

    /// Of two blocks of one name the first counts.
    fn call(&mut self, name: u32, out: &mut Steps, inside: Inside) {
        let block = self.tables.records(BLOCKS).find(|block| block[0] == name);
        match block {
            Some(block) if inside.calls < self.limits.call_depth => {
                let inside = Inside { calls: inside.calls + 1, ..inside };
                self.list(block[1], block[2], out, inside);
            }
            _ => out.push(),
        }
    }

    /// The body is taken once; a copy that does not fit under 256 is one Fail,
    /// and the copies before it stay.
    fn repeat(&mut self, record: &[u32], out: &mut Steps, inside: Inside) {
        let times = record[1];
        if inside.repeat || times == 0 || times > self.limits.repeat {
            out.push();
            return;
        }
        let mut body = Steps::default();
        self.list(record[2], record[3], &mut body, Inside { repeat: true, ..inside });
        for copy in 0..times {
            if out.len + body.len > LIST_CAP {
                out.push();
                return;
            }
            out.append(body, copy == 0);
        }
    }

    /// Both regions are written behind the Branch, into the same list.
    fn conditional(&mut self, record: &[u32], out: &mut Steps, inside: Inside) {
        out.push();
        if inside.conditional {
            return;
        }
        let inside = Inside { conditional: true, ..inside };
        self.list(record[2], record[3], out, inside);
        self.list(record[4], record[5], out, inside);
    }
}
