//! What answers show, from outside.

use super::cells::{
    ACTIONS, COMPARISONS, CONDITIONS, COUNTERS, EFFECTS, EVENTS, FAILS, READINGS, REFUSALS,
    SATURATIONS, TRIGGERS, VALUES,
};
use super::Coverage;
use crate::generate::probe::{Probe, Shows};
use crate::house::{Answer, Call, House, Outcome, LAST_HIGH, NEXT_HIGH};

const DROPPED: usize = 10;
const FIRED: usize = 9;
const PENDING: usize = 12;
const TIMERS: usize = 13;
const RULES: usize = 14;
const VARIABLES: usize = 15;
const LOG: u32 = 11;
const MINUTES_BACK: u32 = 5_040;

/// What the last outcome of a probe says.
#[derive(Clone, Copy, PartialEq, Eq)]
enum Seen {
    Effect(u32),
    Nothing,
    Failed,
    /// No outcome: a condition was false.
    None,
    /// Out of budget or room: says nothing about the probed thing.
    Other,
}

fn seen(list: &[Outcome]) -> Seen {
    let Some(outcome) = list.last() else {
        return Seen::None;
    };
    match (outcome.effects.last(), outcome.reason) {
        (Some([LOG, text, ..]), 0) => Seen::Effect(*text),
        (Some(_), 0) => Seen::Effect(0),
        (None, 0) => Seen::Nothing,
        (_, 1) => Seen::Failed,
        _ => Seen::Other,
    }
}

/// Counts what a probe was made to show.
pub(super) fn probe(coverage: &mut Coverage, probe: &Probe, answers: &[Answer]) {
    let (Some(Answer::Outcomes { list, .. }), Some(call)) = (answers.last(), probe.calls.last())
    else {
        return;
    };
    let seen = seen(list);
    match probe.shows {
        Shows::Action(kind, dry) => action(coverage, kind as usize, dry, seen),
        Shows::Condition(kind, branch) => {
            if let Some(column) = truth(seen) {
                coverage.count(CONDITIONS, kind as usize, column + 3 * usize::from(branch));
            }
        }
        Shows::Comparison(cmp) => {
            if let Some(column) = truth(seen) {
                coverage.count(COMPARISONS, cmp as usize, column);
            }
        }
        Shows::Saturation(row) => {
            if seen == Seen::Effect(1) {
                coverage.count(SATURATIONS, row as usize, 0);
            }
        }
        Shows::Reading(code) => evaluated(coverage, READINGS, code as usize, seen),
        Shows::Value(kind) => evaluated(coverage, VALUES, kind as usize, seen),
        Shows::Bound(kind) if has_wall(call) => evaluated(coverage, VALUES, 3 + kind as usize, seen),
        Shows::Bound(_) | Shows::Sizes => {}
        Shows::Fail(cause, dry) => {
            if seen == Seen::Failed {
                coverage.count(FAILS, cause as usize, usize::from(dry));
            }
        }
    }
}

fn action(coverage: &mut Coverage, kind: usize, dry: bool, seen: Seen) {
    let column = match seen {
        Seen::Effect(_) => 0,
        Seen::Nothing => 1,
        Seen::Failed => 2,
        Seen::None | Seen::Other => return,
    };
    coverage.count(ACTIONS, kind, column + 3 * usize::from(dry));
}

/// The column of a condition: Log 1 is true, Log 2 or no outcome false.
fn truth(seen: Seen) -> Option<usize> {
    match seen {
        Seen::Effect(1) => Some(0),
        Seen::Effect(_) | Seen::None => Some(1),
        Seen::Failed => Some(2),
        Seen::Nothing | Seen::Other => None,
    }
}

fn evaluated(coverage: &mut Coverage, part: usize, row: usize, seen: Seen) {
    let failed = seen == Seen::Failed;
    coverage.count(part, row, usize::from(failed));
}

fn snapshot_of(call: &Call) -> Option<&[u32]> {
    match call {
        Call::Tick { snapshot } | Call::Run { snapshot, .. } => Some(snapshot),
        _ => None,
    }
}

fn has_wall(call: &Call) -> bool {
    snapshot_of(call).and_then(|words| words.get(2)) == Some(&1)
}

/// Follows a history from call to call.
#[derive(Default)]
pub(super) struct Watcher {
    counters: [u32; 16],
    loaded: bool,
    time: u64,
    week_minute: Option<u32>,
}

impl Watcher {
    pub(super) fn see(&mut self, coverage: &mut Coverage, call: &Call, answer: &Answer, house: &mut House) {
        match answer {
            Answer::Refused(number) => refusal(coverage, *number, call),
            Answer::Outcomes { time, list } => {
                outcomes(coverage, list);
                self.times(coverage, call, *time);
            }
            Answer::Enabled(true) => event(coverage, "enable answered yes"),
            Answer::Enabled(false) => event(coverage, "enable answered no"),
            Answer::Deadline(None) => event(coverage, "deadline none"),
            Answer::Deadline(Some(_)) => event(coverage, "deadline at a time"),
            Answer::Word(word) if *word >= 1 << 31 => match call {
                Call::Peek { place: NEXT_HIGH } => event(coverage, "sequence number above 2^63"),
                Call::Peek { place: LAST_HIGH } => event(coverage, "activation number above 2^63"),
                _ => {}
            },
            _ => {}
        }
        if let Answer::Counters(now) = house.call(&Call::Counters) {
            self.moved(coverage, call, answer, &now);
            self.counters = now;
        }
        if let Answer::Deadline(Some(due)) = house.call(&Call::Deadline) {
            if due == u64::MAX && self.time < u64::MAX {
                event(coverage, "due time saturates at 2^64 - 1");
            }
            if due <= self.time && !self.loaded && matches!(call, Call::Tick { .. }) {
                event(coverage, "due timers remain without a set");
            }
        }
    }

    fn times(&mut self, coverage: &mut Coverage, call: &Call, time: u64) {
        if time == u64::MAX {
            event(coverage, "tick or run at 2^64 - 1");
        }
        if time < self.time {
            event(coverage, "clock set back");
        }
        self.time = time;
        let Some([_, _, wall, weekday, minute, sun, ..]) = snapshot_of(call) else {
            return;
        };
        if *sun == 0 {
            event(coverage, "sun absent");
        }
        if *wall == 0 {
            event(coverage, "wall clock absent");
            return;
        }
        let week_minute = weekday * 1_440 + minute;
        if self.week_minute.is_some_and(|before| before > week_minute + MINUTES_BACK) {
            event(coverage, "wall clock set back or past the week's end");
        }
        self.week_minute = Some(week_minute);
    }

    fn moved(&mut self, coverage: &mut Coverage, call: &Call, answer: &Answer, now: &[u32; 16]) {
        for (row, (before, after)) in self.counters.iter().zip(now).enumerate() {
            if before < after {
                coverage.count(COUNTERS, row, 0);
            }
        }
        let by = |place: usize| now[place].saturating_sub(self.counters[place]);
        full(coverage, now);
        if by(FIRED) == 32 {
            event(coverage, "32 continuations fire in one tick");
        }
        if by(DROPPED) > 0 {
            match call {
                Call::Load { .. } => event(coverage, "load drops continuations"),
                Call::Unload { .. } => event(coverage, "unload drops continuations"),
                Call::Enable { .. } => event(coverage, "disabling drops continuations"),
                _ => {}
            }
        }
        match (call, answer) {
            (Call::Load { .. }, Answer::Silent) => self.loaded = true,
            (Call::New { .. } | Call::Unload { .. }, Answer::Silent) => self.loaded = false,
            (Call::Tick { .. }, Answer::Outcomes { list, .. }) => self.ticked(coverage, list, now),
            (Call::Run { .. }, Answer::Outcomes { list, .. }) => self.ran(coverage, list, now),
            _ => {}
        }
    }

    fn ticked(&self, coverage: &mut Coverage, list: &[Outcome], now: &[u32; 16]) {
        if !self.loaded {
            event(coverage, "tick without a set");
        }
        if list.is_empty() && now[TIMERS] < self.counters[TIMERS] {
            event(coverage, "due timers go without an outcome");
            if now[RULES] == 0 {
                event(coverage, "due timers go in a set without rules");
            }
        }
        if list.len() > 1 {
            event(coverage, "tick with two outcomes or more");
        }
        if list.windows(2).any(|pair| pair[0].trigger != pair[1].trigger) {
            event(coverage, "one tick with two sorts of triggers");
        }
        dropped_at_32(coverage, list, now, &self.counters);
    }

    fn ran(&self, coverage: &mut Coverage, list: &[Outcome], now: &[u32; 16]) {
        if list.is_empty() {
            event(coverage, "run without outcome");
        }
        if list.is_empty() && *now == self.counters {
            event(coverage, "run that moves no counter");
        }
        dropped_at_32(coverage, list, now, &self.counters);
    }
}

fn event(coverage: &mut Coverage, name: &str) {
    coverage.count_named(EVENTS, name, 0);
}

fn full(coverage: &mut Coverage, now: &[u32; 16]) {
    for (place, most, name) in [
        (PENDING, 32, "32 pending"),
        (TIMERS, 16, "16 timers"),
        (VARIABLES, 16, "16 variables"),
    ] {
        if now[place] == most {
            event(coverage, name);
        }
    }
}

fn dropped_at_32(coverage: &mut Coverage, list: &[Outcome], now: &[u32; 16], before: &[u32; 16]) {
    let dropped = now[DROPPED] > before[DROPPED];
    if dropped && now[PENDING] == 32 && list.iter().any(|outcome| outcome.reason == 2) {
        event(coverage, "wait or after dropped, 32 pending");
    }
}

fn outcomes(coverage: &mut Coverage, list: &[Outcome]) {
    for outcome in list {
        coverage.count(TRIGGERS, outcome.trigger as usize, outcome.reason as usize);
        for [kind, ..] in &outcome.effects {
            coverage.count(EFFECTS, *kind as usize, outcome.dry as usize);
        }
        if outcome.effects.len() >= 32 {
            event(coverage, "effects of one outcome: 32 or more");
        }
    }
}

fn refusal(coverage: &mut Coverage, number: u32, call: &Call) {
    let column = match call {
        Call::New { .. } => 0,
        Call::Load { .. } => 1,
        Call::Unload { .. } => 2,
        Call::Enable { .. } => 3,
        Call::Tick { .. } => 4,
        Call::Run { .. } => 5,
        Call::Deadline => 6,
        Call::Counters => 7,
        _ => return,
    };
    coverage.count_named(REFUSALS, &number.to_string(), column);
}
