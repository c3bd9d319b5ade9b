//! Plays a set on the proved engine: the store, the clock, the sun, presses, power cuts. Times are milliseconds from the midnight at which the
//! first day begins; the week before it has negative ones.

use std::collections::BTreeMap;
use std::io::{IsTerminal as _, Write as _};
use std::time::Instant;

use cerambiu::{Handled, Refused};

use crate::effect;
use crate::files;
use crate::names::Book;
use crate::store::State;
use crate::sun::{sunrise_and_sunset, Date};

pub const MINUTE: i64 = 60_000;
pub const DAY: i64 = 1_440 * MINUTE;
/// What the engine's time is when the first day begins.
const EPOCH: i64 = 30 * DAY;
/// Days that are played unseen.
const BEFORE: i64 = 7;
/// Effects and changes of light that are kept: some 200 MB.
const MOST_KEPT: usize = 4_000_000;

#[derive(Clone, Copy, Debug, PartialEq)]
pub enum Sun {
    Fixed(u32, u32),
    Latitude(f64),
}

#[derive(Clone, Debug)]
pub struct Plan {
    pub days: i64,
    pub first: Date,
    pub sun: Sun,
    /// A tick each second, those left out in which nothing can be due; or each minute.
    pub seconds: bool,
    /// Every second, whether anything can be due or not.
    pub all_seconds: bool,
    /// Rule and time.
    pub presses: Vec<(u32, i64)>,
    /// From and to.
    pub cuts: Vec<(i64, i64)>,
    /// Behind a cut, a tick for each minute that went by.
    pub catch_up: bool,
    /// Time, and the minute of the day that the clock is set to.
    pub clocks: Vec<(i64, i64)>,
    pub from_new: bool,
}

impl Default for Plan {
    fn default() -> Plan {
        Plan {
            days: 1,
            first: Date::FIRST,
            sun: Sun::Fixed(360, 1_080),
            seconds: true,
            all_seconds: false,
            presses: Vec::new(),
            cuts: Vec::new(),
            catch_up: true,
            clocks: Vec::new(),
            from_new: false,
        }
    }
}

impl Plan {
    pub fn sun_of(&self, day: i64) -> Option<(u32, u32)> {
        match self.sun {
            Sun::Fixed(rise, set) => Some((rise, set)),
            Sun::Latitude(latitude) => sunrise_and_sunset(self.first.plus(day), latitude),
        }
    }
}

/// What an outcome did: one effect, or none with a reason.
#[derive(Clone, Debug)]
pub struct Event {
    pub time: i64,
    /// The wall clock in milliseconds from the first midnight.
    pub wall: i64,
    pub rule: u32,
    pub trigger: u32,
    pub reason: u32,
    pub effect: Option<[u32; 5]>,
    /// Behind a cut: when it was due.
    pub late: bool,
}

/// What a light is told, and when.
#[derive(Clone, Copy, Debug, PartialEq)]
pub struct Setting {
    pub time: i64,
    pub light: u32,
    pub ppm: u32,
    /// The effect's kind and its verb or level.
    pub told: [u32; 2],
}

#[derive(Clone, Debug, Default)]
pub struct Played {
    /// Of the shown days.
    pub events: Vec<Event>,
    /// Of the week before too.
    pub lights: Vec<Setting>,
    pub cuts: Vec<(i64, i64)>,
    pub notes: Vec<String>,
    pub ticks: u64,
}

struct House<'a> {
    plan: &'a Plan,
    book: &'a Book,
    store: Vec<u32>,
    outcomes: Vec<u32>,
    effects: Vec<u32>,
    /// What a call can give at the most.
    room: Handled,
    /// Brightness, kind and verb or level that each light was told last.
    lights: BTreeMap<u32, (u32, [u32; 2])>,
    /// The wall clock is the time plus this.
    ahead: i64,
    played: Played,
}

/// Plays an image. `progress`: a line on standard error while it takes long.
pub fn play(image: &[u32], book: &Book, plan: &Plan, progress: bool) -> Result<Played, String> {
    let start = if plan.from_new { 0 } else { -BEFORE * DAY };
    let mut house = House {
        plan,
        book,
        store: vec![0; cerambiu::STORE_WORDS],
        outcomes: vec![0; 64 * cerambiu::OUTCOME_WORDS],
        effects: vec![0; 1_024 * cerambiu::EFFECT_WORDS],
        room: cerambiu::room(image).map_err(|refused| format!("load refuses the set with {}", refused.0))?,
        lights: BTreeMap::new(),
        ahead: 0,
        played: Played { cuts: plan.cuts.clone(), ..Played::default() },
    };
    let begin = (EPOCH + start) as u64;
    let made = cerambiu::new(&mut house.store, begin).and_then(|()| cerambiu::load(&mut house.store, begin, image));
    made.map_err(|refused| format!("load refuses the set with {}", refused.0))?;
    house.run(start, progress)?;
    Ok(house.played)
}

/// A line on standard error while a run takes long: on a terminal it is written over, elsewhere it comes every ten seconds.
struct Progress {
    wanted: bool,
    days: i64,
    began: Instant,
    last: Option<u128>,
}

impl Progress {
    fn new(wanted: bool, days: i64) -> Progress {
        Progress { wanted, days, began: Instant::now(), last: None }
    }

    fn show(&mut self, time: i64) {
        if !self.wanted || time.rem_euclid(DAY) != 0 {
            return;
        }
        let is_terminal = std::io::stderr().is_terminal();
        let (first, each) = if is_terminal { (1_000, 200) } else { (10_000, 10_000) };
        let now = self.began.elapsed().as_millis();
        if now < self.last.map_or(first, |last| last + each) {
            return;
        }
        self.last = Some(now);
        let text = format!("day {} of {}", time.max(0) / DAY + 1, self.days);
        let _ = if is_terminal { write!(std::io::stderr(), "\r{text}") } else { writeln!(std::io::stderr(), "{text}") };
    }

    fn end(&self) {
        if self.last.is_some() && std::io::stderr().is_terminal() {
            let _ = write!(std::io::stderr(), "\r{:30}\r", "");
        }
    }
}

impl House<'_> {
    fn run(&mut self, start: i64, progress: bool) -> Result<(), String> {
        let end = self.plan.days * DAY;
        let mut progress = Progress::new(progress, self.plan.days);
        let mut time = start;
        while time < end {
            if let Some((from, to)) = self.plan.cuts.iter().find(|(from, to)| (*from..*to).contains(&time)).copied() {
                time = self.cut(from, to.min(end))?;
                continue;
            }
            self.set_clocks(time, time);
            if self.plan.seconds || time.rem_euclid(MINUTE) == 0 {
                self.tick(time, time, false)?;
            }
            self.press(time)?;
            time = self.next(time);
            progress.show(time);
        }
        progress.end();
        Ok(())
    }

    /// The next time at which the host does something.
    fn next(&self, time: i64) -> i64 {
        let mut next = (time.div_euclid(MINUTE) + 1) * MINUTE;
        if self.plan.all_seconds {
            next = next.min(time + 1_000);
        } else if self.plan.seconds {
            if let Some(due) = State::of(&self.store).and_then(|state| state.next_due()) {
                // The first whole second that has reached it.
                let due = i64::try_from(due).map_or(i64::MAX / 2, |due| due - EPOCH).max(time + 1);
                next = next.min((due + 999).div_euclid(1_000) * 1_000);
            }
        }
        let presses = self.plan.presses.iter().map(|(_, at)| *at);
        let clocks = self.plan.clocks.iter().map(|(at, _)| *at);
        let cuts = self.plan.cuts.iter().map(|(from, _)| *from);
        presses.chain(clocks).chain(cuts).filter(|at| *at > time).fold(next, i64::min)
    }

    /// Clocks that are set in a span of time, both ends in.
    fn set_clocks(&mut self, from: i64, to: i64) {
        for (at, minute) in self.plan.clocks.iter().filter(|(at, _)| (from..=to).contains(at)) {
            let wall = (at + self.ahead).rem_euclid(DAY);
            self.ahead += minute * MINUTE - wall;
        }
    }

    fn press(&mut self, time: i64) -> Result<(), String> {
        for (rule, at) in self.plan.presses.clone() {
            if at == time {
                self.call(time, time, Some(rule), false)?;
            }
        }
        Ok(())
    }

    /// When power fails the store is saved as bytes, as it is; when it is back they are read again.
    fn cut(&mut self, from: i64, to: i64) -> Result<i64, String> {
        let saved = files::bytes_of(&self.store);
        self.store = files::words_of(&saved);
        cerambiu::counters(&self.store).map_err(|refused| format!("the restored store is refused with {}", refused.0))?;
        if self.plan.presses.iter().any(|(_, at)| (from..to).contains(at)) {
            self.played.notes.push("a press inside a power cut does nothing".to_string());
        }
        let mut time = from;
        while self.plan.catch_up && time < to {
            let minute = (time + MINUTE - 1).div_euclid(MINUTE) * MINUTE;
            self.set_clocks(time, minute.min(to - 1));
            if minute < to {
                self.tick(minute, to, true)?;
            }
            time = minute + 1;
        }
        self.set_clocks(time, to - 1);
        Ok(to)
    }

    fn tick(&mut self, time: i64, told: i64, late: bool) -> Result<(), String> {
        self.played.ticks += 1;
        self.call(time, told, None, late)
    }

    fn snapshot(&self, time: i64) -> [u32; 14] {
        let now = (EPOCH + time) as u64;
        let wall = time + self.ahead;
        let day = wall.div_euclid(DAY);
        let weekday = (self.plan.first.plus(day).weekday() + self.book.monday) % 7;
        let minute = (wall.rem_euclid(DAY) / MINUTE) as u32;
        let (mark, rise, set) = self.plan.sun_of(day).map_or((0, 0, 0), |(rise, set)| (1, rise, set));
        [now as u32, (now >> 32) as u32, 1, weekday, minute, mark, rise, set, 1, 0, 0, 0, 0, 0]
    }

    /// A tick, or a run of a rule; `told` is when the lights hear of it.
    fn call(&mut self, time: i64, told: i64, rule: Option<u32>, late: bool) -> Result<(), String> {
        let handled = self.answer(&self.snapshot(time), rule)?;
        for outcome in self.outcomes.chunks_exact(cerambiu::OUTCOME_WORDS).take(handled.outcomes as usize) {
            let [rule, _, trigger, reason, first, count] = [0, 1, 2, 3, 4, 5].map(|place| outcome[place]);
            let effects = self.effects.chunks_exact(cerambiu::EFFECT_WORDS).skip(first as usize).take(count as usize);
            let event = |effect| Event { time: told, wall: time + self.ahead, rule, trigger, reason, effect, late };
            let mut has_any = false;
            for words in effects {
                has_any = true;
                if let Some((light, ppm)) = effect::light_of(words, self.book) {
                    let setting = Setting { time: told, light, ppm, told: [words[0], words[2]] };
                    // What a light was told already changes nothing.
                    let was = self.lights.insert(light, (setting.ppm, setting.told));
                    if was != Some((setting.ppm, setting.told)) {
                        self.played.lights.push(setting);
                    }
                }
                if told >= 0 {
                    self.played.events.push(event(Some([words[0], words[1], words[2], words[3], words[4]])));
                }
            }
            if !has_any && told >= 0 && reason != 0 {
                self.played.events.push(event(None));
            }
        }
        match self.played.events.len().max(self.played.lights.len()) > MOST_KEPT {
            true => Err(format!("over {MOST_KEPT} effects: play fewer days")),
            false => Ok(()),
        }
    }

    /// The proved answer. What is lent is little at first, since a call fills all of it; where it is not enough, all that the image can need.
    fn answer(&mut self, snapshot: &[u32], rule: Option<u32>) -> Result<Handled, String> {
        loop {
            let (store, outcomes, effects) = (&mut self.store, &mut self.outcomes, &mut self.effects);
            let answer = match rule {
                None => cerambiu::tick(store, snapshot, outcomes, effects),
                Some(rule) => cerambiu::run(store, rule, false, snapshot, outcomes, effects),
            };
            let room = [self.room.outcomes as usize * cerambiu::OUTCOME_WORDS, self.room.effects as usize * cerambiu::EFFECT_WORDS];
            match answer {
                Ok(handled) => return Ok(handled),
                Err(Refused(30)) if self.outcomes.len() < room[0] || self.effects.len() < room[1] => {
                    self.outcomes.resize(room[0].max(self.outcomes.len()), 0);
                    self.effects.resize(room[1].max(self.effects.len()), 0);
                }
                Err(refused) => return Err(format!("the engine refuses with {}", refused.0)),
            }
        }
    }
}
