//! Goes through the steps as flattening does, with the reason of each step that will fail; and counts what a run pays.

use crate::fault::Fault;
use crate::flat::{Around, MOST_IN_LIST, MOST_TAKEN};
use crate::names::Book;
use crate::schema::{Sort, AFTER, CALL, CONDITIONAL, REPEAT};
use crate::tree::{Record, Set, Spot};

/// The size of a list, and the most that a run through it can pay; `late` is what a body of an after would need in all.
#[derive(Clone, Copy, Default)]
struct Size {
    steps: u64,
    paid: u64,
    late: u64,
}

struct Walk<'a> {
    set: &'a Set,
    book: &'a Book,
    taken: u64,
    faults: Vec<Fault>,
}

pub fn warnings(set: &Set, book: &Book) -> Vec<Fault> {
    let mut walk = Walk { set, book, taken: 0, faults: Vec::new() };
    for rule in &set.rules {
        let mut size = Size::default();
        walk.list(&rule.steps, &mut size, Around::default());
        let name = book.name(Sort::Rule, rule.name);
        let budget = u64::from(set.limits.budget);
        if size.paid > budget {
            let what = format!("rule `{name}` takes {} steps and the budget is {budget}: what is behind step {budget} never runs (reason 2)", size.paid);
            walk.faults.push(Fault::warning(rule.spot, what).help("a wait does not fill the budget up: raise `limits budget`, or make two rules of it"));
        } else if size.late > budget {
            let what = format!("rule `{name}` with an after takes {} steps and the budget is {budget}: the end of the after never runs (reason 2)", size.late);
            walk.faults.push(Fault::warning(rule.spot, what).help("an after begins with the budget that was left when it was put off"));
        }
    }
    walk.faults
}

impl Walk<'_> {
    fn warn(&mut self, spot: Spot, what: String, help: &str) {
        self.faults.push(Fault::warning(spot, what).help(help));
    }

    fn list(&mut self, steps: &[Record], size: &mut Size, around: Around) {
        for step in steps {
            if self.taken > MOST_TAKEN {
                return;
            }
            if size.steps >= MOST_IN_LIST as u64 {
                let what = format!("a list holds {MOST_IN_LIST} steps: this one and all behind it are left out, and load does not say so");
                self.warn(step.spot, what, "make several rules of it, and have one start the next by a timer");
                size.steps += 1;
                size.paid += 1;
                return;
            }
            self.taken += 1;
            self.step(step, size, around);
        }
    }

    fn one(&self, size: &mut Size) {
        size.steps += 1;
        size.paid += 1;
    }

    fn step(&mut self, step: &Record, size: &mut Size, around: Around) {
        match step.kind {
            AFTER if around.after => self.nested(step, size, "after in an after"),
            REPEAT if around.repeat => self.nested(step, size, "repeat in a repeat"),
            CONDITIONAL if around.conditional => self.nested(step, size, "conditional in a conditional"),
            AFTER => {
                self.one(size);
                let mut body = Size::default();
                self.list(step.list(1), &mut body, Around { after: true, ..around });
                size.late = size.late.max(size.paid + body.paid);
            }
            CALL => self.call(step, size, around),
            REPEAT => self.repeat(step, size, around),
            CONDITIONAL => {
                self.one(size);
                let inside = Around { conditional: true, ..around };
                let before = size.paid;
                self.list(step.list(1), size, inside);
                let then = size.paid;
                size.paid = before;
                self.list(step.list(3), size, inside);
                size.paid = size.paid.max(then);
            }
            _ => self.one(size),
        }
    }

    fn nested(&mut self, step: &Record, size: &mut Size, what: &str) {
        self.warn(step.spot, format!("{what}, through calls too, is a step that fails: nothing inside it runs (reason 1)"), "");
        self.one(size);
    }

    fn call(&mut self, step: &Record, size: &mut Size, around: Around) {
        let (set, name) = (self.set, self.book.name(Sort::Block, step.word(0)));
        match set.block(step.word(0)) {
            None => {
                self.warn(step.spot, format!("no block `{name}` in this set: this step fails each time (reason 1)"), "");
                self.one(size);
            }
            Some(_) if around.calls >= set.limits.depth => {
                let (deep, limit) = (around.calls + 1, set.limits.depth);
                let what = format!("this call of block `{name}` is reached {deep} calls deep, and the depth limit is {limit}: there it fails");
                self.warn(step.spot, what, "");
                self.one(size);
            }
            Some(block) => self.list(&block.steps, size, Around { calls: around.calls + 1, ..around }),
        }
    }

    fn repeat(&mut self, step: &Record, size: &mut Size, around: Around) {
        let times = step.word(0);
        if times == 0 || times > self.set.limits.repeat {
            let what = format!("a repeat of {times}: it is a step that fails (1 to {}, the repeat limit)", self.set.limits.repeat);
            self.warn(step.spot, what, "");
            return self.one(size);
        }
        let mut body = Size::default();
        self.list(step.list(1), &mut body, Around { repeat: true, ..around });
        for copy in 0..times {
            if size.steps + body.steps > MOST_IN_LIST as u64 {
                let fit = format!("of this repeat {copy} of {times} copies fit under {MOST_IN_LIST} steps");
                let what = format!("{fit}: the others are left out, and load does not say so");
                self.warn(step.spot, what, "lower the repeat, or make several rules of it");
                return self.one(size);
            }
            if body.late > 0 {
                size.late = size.late.max(size.paid + body.late);
            }
            size.steps += body.steps;
            size.paid += body.paid;
        }
    }
}
