//! What a run of a rule tells its lights, and when: its steps gone through with calls, repeats and afters.

use crate::schema::{AFTER, CALL, CONDITIONAL, LIGHT, PERCENT, REPEAT, WAIT};
use crate::tree::{Record, Rule, Set};

/// A step that tells a light something.
#[derive(Clone, Copy)]
pub struct Told<'a> {
    /// Milliseconds from the start of the rule; None behind a conditional whose sides take different times.
    pub ms: Option<u64>,
    /// In every run: not inside a conditional.
    pub always: bool,
    /// The after that it stands in, and the last wait before it.
    pub after: Option<&'a Record>,
    pub wait: Option<&'a Record>,
    pub step: &'a Record,
}

/// Steps that are gone through: no run takes more.
const MOST: usize = 4_096;

/// Where the walk is.
#[derive(Clone, Copy)]
struct Place<'a> {
    ms: Option<u64>,
    calls: u32,
    repeat: bool,
    conditional: bool,
    after: Option<&'a Record>,
    wait: Option<&'a Record>,
}

struct Walk<'a> {
    set: &'a Set,
    left: usize,
    found: Vec<Told<'a>>,
}

pub fn of<'a>(set: &'a Set, rule: &'a Rule) -> Vec<Told<'a>> {
    let mut walk = Walk { set, left: MOST, found: Vec::new() };
    walk.list(&rule.steps, Place { ms: Some(0), calls: 0, repeat: false, conditional: false, after: None, wait: None });
    walk.found
}

impl<'a> Walk<'a> {
    /// Where the walk is behind the list.
    fn list(&mut self, steps: &'a [Record], mut place: Place<'a>) -> Place<'a> {
        for step in steps {
            if self.left == 0 {
                break;
            }
            self.left -= 1;
            place = self.step(step, place);
        }
        place
    }

    fn step(&mut self, step: &'a Record, place: Place<'a>) -> Place<'a> {
        match step.kind {
            LIGHT | PERCENT => {
                let Place { ms, conditional, after, wait, .. } = place;
                self.found.push(Told { ms, always: !conditional, after, wait, step });
                place
            }
            WAIT => Place { ms: later(place.ms, step), wait: Some(step), ..place },
            AFTER if place.after.is_none() => {
                self.list(step.list(1), Place { ms: later(place.ms, step), after: Some(step), ..place });
                place
            }
            CALL => match self.set.block(step.word(0)) {
                Some(block) if place.calls < self.set.limits.depth => {
                    let behind = self.list(&block.steps, Place { calls: place.calls + 1, ..place });
                    Place { calls: place.calls, ..behind }
                }
                _ => place,
            },
            REPEAT if !place.repeat && step.word(0) <= self.set.limits.repeat => {
                let inside = Place { repeat: true, ..place };
                let behind = (0..step.word(0)).fold(inside, |place, _| self.list(step.list(1), place));
                Place { repeat: false, ..behind }
            }
            CONDITIONAL if !place.conditional => {
                let inside = Place { conditional: true, ..place };
                let (then, other) = (self.list(step.list(1), inside), self.list(step.list(3), inside));
                let ms = then.ms.filter(|_| then.ms == other.ms);
                Place { ms, wait: then.wait.or(other.wait), ..place }
            }
            _ => place,
        }
    }
}

fn later(ms: Option<u64>, step: &Record) -> Option<u64> {
    ms.map(|ms| ms + u64::from(step.word(0)))
}
