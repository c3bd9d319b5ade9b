//! One history through the Rust and through the proved calls, call by call.

use oracle::generate::solar;
use oracle::house::{Answer, Call, Outcome};
use oracle::random::Random;

use super::house::{expected, House, Lent, Seen};
use super::{readback, starts};
use super::tally::Tally;
use crate::kept::{Place, Player};
use crate::room::{self, Room};
use crate::store::{Store, PENDING_WORDS, WORDS};

/// What a fresh house of the oracle lends.
const LARGE: Lent = Lent { answer: 0, outcomes: 24_576, effects: 327_680 };
/// Places of the store's words: docs/STORE.md.
const VARIABLES: usize = 12_805;
const VARIABLE_WORDS: usize = 4;
const PENDING: usize = 13_240;
const NUMBER: usize = 12;
const LAST_NUMBER: usize = 13_725;
const COUNTERS: std::ops::Range<usize> = 13_727..13_739;

/// Why a history stops.
pub type Difference = String;

pub struct Both<'a> {
    player: Player,
    house: House,
    lent: Lent,
    /// From a sequence number of the Rust on, what the store's numbers are ahead: a script may write the next number.
    ahead: Vec<(u64, u64)>,
    /// What the store's counters are ahead, up to the greatest word: a history can start with counters that are nearly full.
    counted: u32,
    /// Whether a script has written the last activation number.
    renumbered: bool,
    random: Random,
    /// For the readbacks behind a call, which change no other choice.
    asking: Random,
    tally: &'a mut Tally,
    /// Whether a set was loaded that fits only by sharing.
    pub shares: bool,
    /// What the loaded set was told to need.
    told: Room,
}

impl<'a> Both<'a> {
    pub fn new(seed: u64, tally: &'a mut Tally) -> Both<'a> {
        let (player, house) = (Player::default(), House::default());
        let (mut random, asking) = (Random::new(seed), Random::new(seed.rotate_left(40)));
        let counted = if random.once_in(8) { u32::MAX - random.below(8) } else { 0 };
        let ahead = vec![(0, 0)];
        let mut both = Both { player, house, lent: LARGE, ahead, counted, renumbered: false, random, asking, tally, shares: false, told: Room::default() };
        both.fill_counters();
        both
    }

    /// The counters of a new store.
    fn fill_counters(&mut self) {
        self.house.store[COUNTERS].fill(self.counted);
    }

    /// The words of the store.
    pub fn store(&self) -> &[u32] {
        &self.house.store
    }

    /// The Rust's next deadline.
    pub fn deadline(&mut self) -> Option<u64> {
        match self.player.call(&Call::Deadline) {
            Answer::Deadline(time) => time,
            _ => None,
        }
    }

    /// A line of a script; behind each of the eight calls also the deadline, the counters and the solar starts of every rule.
    pub fn line(&mut self, call: &Call) -> Result<(), Difference> {
        match call {
            Call::Lend { outcomes, effects } => {
                self.lent = Lent { answer: 0, outcomes: *outcomes as usize, effects: *effects as usize };
            }
            Call::Size { words } => self.house.size = *words as usize,
            Call::Poke { place, word } => return self.poke(*place, *word),
            Call::Peek { place } => {
                let found = Answer::Word(self.house.store[*place as usize]);
                let wanted = self.player.call(call);
                return ask(found == wanted, || format!("{call:?}: proved {found:?}, Rust {wanted:?}"));
            }
            // No calls of the Rust: these two are compared with the oracle's own code, the others elsewhere.
            Call::Own { name: "start", given } => return self.start(call, &given.list),
            Call::Own { name: "readback", given } => return self.readback(given.word(0), given.word(1) as usize, &given.list),
            Call::Own { .. } => return Ok(()),
            _ => {
                self.call(call)?;
                self.call(&Call::Deadline)?;
                self.call(&Call::Counters)?;
                return self.readbacks(matches!(call, Call::New { .. } | Call::Load { .. } | Call::Unload { .. }));
            }
        }
        self.player.call(call);
        Ok(())
    }

    /// Writes a word of the next sequence number or of the last activation number.
    fn poke(&mut self, place: u32, word: u32) -> Result<(), Difference> {
        self.renumbered |= place as usize >= LAST_NUMBER;
        let next = |player: &mut Player| player.store().map_or(0, |store| store.next);
        let before = next(&mut self.player);
        self.player.call(&Call::Poke { place, word });
        let more = next(&mut self.player).wrapping_sub(before);
        let (_, ahead) = self.ahead[self.ahead.len() - 1];
        self.ahead.push((before.wrapping_sub(ahead), ahead.wrapping_add(more)));
        self.house.store[place as usize] = word;
        Ok(())
    }

    /// The store's sequence number for the Rust's.
    fn number(&self, number: u64) -> u64 {
        let ahead = self.ahead.iter().rev().find(|(from, _)| *from <= number);
        ahead.map_or(number, |(_, ahead)| number.wrapping_add(*ahead))
    }

    /// One of the eight calls.
    pub fn call(&mut self, call: &Call) -> Result<(), Difference> {
        let before = self.player.fits_by_sharing();
        let mut answer = self.player.call(call);
        self.tally.chains += 1;
        ask(!self.player.shows_chain(), || format!("{call:?}: the Rust shows a chain of rules"))?;
        if let Answer::Counters(counters) = &mut answer {
            counters[..COUNTERS.len()].iter_mut().for_each(|counter| *counter = counter.saturating_add(self.counted));
        }
        self.told.see(call, &answer, &mut self.tally.rooms)?;
        if let Some(lent) = self.one_word_less(&answer) {
            self.compare(call, &Answer::Refused(30), lent)?;
        }
        let lent = self.room(&answer);
        let shared = [before, self.player.fits_by_sharing()];
        let words = (shared != [false; 2]).then(|| self.house.store.clone());
        self.compare(call, &answer, lent)?;
        if let Some(words) = words.filter(|_| !matches!(answer, Answer::Refused(_))) {
            self.shares |= shared[1];
            self.tally.sharing.see(call, &answer, shared, &words, &self.house.store);
        }
        if answer == Answer::Silent && matches!(call, Call::New { .. }) {
            self.fill_counters();
        }
        Ok(())
    }

    /// What starts next.
    fn start(&mut self, call: &Call, snapshot: &[u32]) -> Result<(), Difference> {
        let start = self.player.next_start(snapshot);
        if let Ok(start) = &start {
            self.tally.starts.see(start);
        }
        let lent = Lent { answer: self.random.below(6) as usize, ..Lent::default() };
        self.compare(call, &starts::answer(&start), lent)
    }

    /// The solar starts of every rule that is loaded, and of one that is not, in one world: with room for them, now and then with a word less. Rules that have no
    /// start are asked for all where the set may be another one, and else now and then.
    fn readbacks(&mut self, all: bool) -> Result<(), Difference> {
        let snapshot = solar::snapshot(&mut self.asking);
        let names = self.player.rule_names();
        let other = names.iter().max().map_or(5, |most| most.wrapping_add(1));
        for rule in names.into_iter().chain([other]) {
            let needed = self.player.readback(rule, &snapshot, usize::MAX).map_or(0, |starts| readback::needed(&starts));
            if needed == 0 && !all && !self.asking.once_in(16) {
                continue;
            }
            if needed > 0 && self.asking.once_in(4) {
                self.readback(rule, needed - 1, &snapshot)?;
            }
            let more = self.asking.pick([0, 0, 1, 2, 9]);
            self.readback(rule, needed + more, &snapshot)?;
        }
        Ok(())
    }

    /// The solar starts of a rule, into so many words.
    fn readback(&mut self, rule: u32, room: usize, snapshot: &[u32]) -> Result<(), Difference> {
        let starts = self.player.readback(rule, snapshot, room);
        if let Ok(starts) = &starts {
            self.tally.readbacks.see(self.player.rule_names().contains(&rule), starts);
        }
        let lent = Lent { answer: self.asking.below(4) as usize, outcomes: 0, effects: room };
        self.compare(&solar::readback(rule, room as u32, snapshot.to_vec()), &readback::answer(&starts), lent)
    }

    /// The proved call, and what it must give.
    fn compare(&mut self, call: &Call, answer: &Answer, lent: Lent) -> Result<(), Difference> {
        let before = self.house.store.clone();
        let seen = self.house.call(call, lent);
        let wanted = expected(call, answer, lent);
        self.tally.add(call, answer);
        if matches!(answer, Answer::Outcomes { .. }) && self.player.has_percent() {
            self.tally.percents += 1;
        } else if !matches!(call, Call::Own { .. }) {
            self.tally.wheel(self.player.is_set_back());
        }
        let shown = seen.without_numbers();
        ask(shown == wanted, || first_difference(call, &shown, &wanted))?;
        if let (Call::Tick { snapshot }, Answer::Outcomes { .. }) = (call, answer) {
            self.tally.due.see(snapshot, &before, &self.house.store);
        }
        if matches!(answer, Answer::Refused(_) | Answer::Deadline(_) | Answer::Counters(_) | Answer::Own(_)) {
            return ask(self.house.store == before, || format!("{call:?}: the store is changed"));
        }
        self.compare_store(&before, call)
    }

    /// All words of the store are what the Rust keeps.
    fn compare_store(&mut self, before: &[u32], call: &Call) -> Result<(), Difference> {
        let Some((mut store, places)) = self.player.store_and_places() else {
            return Err(format!("{call:?}: the Rust's state has no words"));
        };
        if matches!(call, Call::New { .. }) {
            self.ahead = vec![(0, 0)];
            self.renumbered = false;
        } else {
            store.counters = store.counters.map(|counter| counter.saturating_add(self.counted));
        }
        for held in &mut store.pending {
            held.seq = self.number(held.seq);
        }
        self.numbers(call, store.last_number)?;
        let words = &self.house.store;
        self.tally.keep(&store);
        if !matches!(call, Call::New { .. }) {
            let (old, new) = (variable_names(before), variable_names(words));
            ask(new.starts_with(&old), || format!("{call:?}: variables have moved: {old:?}, {new:?}"))?;
        }
        arrange(&mut store, &places, words);
        let wanted = store.words();
        let place = (0..WORDS).find(|place| words[*place] != wanted[*place]);
        ask(place.is_none(), || {
            let place = place.unwrap_or(0);
            format!("{call:?}: word {place} of the store is {}, of the Rust's {}", words[place], wanted[place])
        })
    }

    /// Document 02, request 6: the Rust numbers no activations. From a new store on the last number is its count of them.
    fn numbers(&mut self, call: &Call, last: u64) -> Result<(), Difference> {
        if self.renumbered {
            return Ok(());
        }
        self.tally.numbered += 1;
        let counted = self.player.activations_total().map(u64::from);
        ask(counted == Some(last), || format!("{call:?}: the last number is {last}, activations_total of the Rust {counted:?}"))
    }

    /// Room for the answer: exactly what a script lends, now and then exactly what the loaded set was told to need, else enough and little more.
    fn room(&mut self, answer: &Answer) -> Lent {
        let words = self.random.below(20) as usize;
        if self.lent.outcomes < LARGE.outcomes || matches!(answer, Answer::Refused(30..=32)) {
            return Lent { answer: words, ..self.lent };
        }
        if let Some(lent) = self.told.lent(words).filter(|_| self.random.once_in(4)) {
            self.tally.rooms[room::LENT] += u64::from(matches!(answer, Answer::Outcomes { .. }));
            return lent;
        }
        let (outcomes, effects) = match answer {
            Answer::Outcomes { list, .. } => needed(list),
            _ => (0, 0),
        };
        let more = |random: &mut Random| if random.once_in(64) { 1_000 } else { random.below(8) as usize };
        Lent { answer: words, outcomes: outcomes + more(&mut self.random), effects: effects + more(&mut self.random) }
    }

    /// Now and then, one word less than the outcomes or the effects need.
    fn one_word_less(&mut self, answer: &Answer) -> Option<Lent> {
        let Answer::Outcomes { list, .. } = answer else {
            return None;
        };
        let (outcomes, effects) = needed(list);
        if outcomes == 0 || !self.random.once_in(4) {
            return None;
        }
        let lent = Lent { answer: 2, outcomes: outcomes - 1, effects };
        match effects {
            0 => Some(lent),
            _ if self.random.bit() == 0 => Some(lent),
            _ => Some(Lent { answer: 2, outcomes, effects: effects - 1 }),
        }
    }
}

fn ask(holds: bool, text: impl FnOnce() -> Difference) -> Result<(), Difference> {
    if holds {
        Ok(())
    } else {
        Err(text())
    }
}

fn first_difference(call: &Call, seen: &Seen, wanted: &Seen) -> Difference {
    if seen.number != wanted.number {
        return format!("{call:?}: proved {}, Rust {}", seen.number, wanted.number);
    }
    let parts = [
        ("answer", &seen.answer, &wanted.answer),
        ("outcomes", &seen.outcomes, &wanted.outcomes),
        ("effects", &seen.effects, &wanted.effects),
    ];
    let part = parts.into_iter().find(|(_, seen, wanted)| seen != wanted);
    let (name, seen, wanted) = part.unwrap_or(parts[0]);
    format!("{call:?}: {name}: proved {seen:?}, Rust {wanted:?}")
}

/// Words that outcomes and their effects take.
fn needed(list: &[Outcome]) -> (usize, usize) {
    let effects: usize = list.iter().map(|outcome| outcome.effects.len()).sum();
    (list.len() * cerambiu::OUTCOME_WORDS, effects * cerambiu::EFFECT_WORDS)
}

fn variable_names(words: &[u32]) -> Vec<u32> {
    let rows = words[VARIABLES + 1..].chunks(VARIABLE_WORDS).take(words[VARIABLES] as usize);
    rows.map(|row| row[0]).collect()
}

/// The Rust keeps variables by name, and the steps of a continuation in place of list, place and jump. A store has variables as they came,
/// and of the places in the Rust's lists from which those steps are left the one that was reached. The numbers of activations are the store's.
fn arrange(store: &mut Store, places: &[Vec<Place>], words: &[u32]) {
    let names = variable_names(words);
    store.variables.sort_by_key(|variable| names.iter().position(|name| *name == variable.name));
    for ((at, held), places) in store.pending.iter_mut().enumerate().zip(places) {
        let row = &words[PENDING + 1 + at * PENDING_WORDS..][..PENDING_WORDS];
        let found = (row[5], row[6], (row[7] == 1).then_some((row[8], row[9])));
        if places.contains(&found) {
            (held.list, held.place, held.jump) = found;
        }
        held.number = u64::from(row[NUMBER + 1]) << 32 | u64::from(row[NUMBER]);
    }
}
