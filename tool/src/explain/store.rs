//! Refusals 1 and 2 of stores: the store rule that is broken, in document 01's words.

use crate::flat::{self, Lists, Step, BRANCH};
use crate::image::Tables;
use crate::names::Book;
use crate::schema::{Sort, Table, EVERY};
use crate::store::{
    Counted, Pending, State, ACTIVATIONS, BITS, COUNTED, IMAGE, LISTS, LOADED, PENDING, PENDING_WORDS, POSITIONS, RULES, SLOTS, STEPS, TIMERS,
    UNUSED, VARIABLES, WEEK_MINUTE, WORDS,
};

use super::{Finding, Refusal};

/// The refusal of a store by every call but new; None if it is a store.
pub fn refusal(store: &[u32], book: &Book) -> Option<Refusal> {
    if store.len() != WORDS {
        return Refusal::of(1, vec![Finding::new(format!("the store has {} words, and must have {WORDS}", store.len()))]);
    }
    let mut look = Look { store, book, findings: Vec::new() };
    look.shape();
    if look.findings.is_empty() {
        look.contents();
    }
    Refusal::of(2, look.findings)
}

struct Look<'a> {
    store: &'a [u32],
    book: &'a Book,
    findings: Vec<Finding>,
}

impl Look<'_> {
    fn ask(&mut self, holds: bool, place: usize, rule: &str, found: String) {
        if !holds {
            self.findings.push(Finding::new(format!("{rule}: word {place}, {found}")));
        }
    }

    fn zeros(&mut self, from: usize, to: usize, rule: &str, what: &str) {
        if let Some(more) = self.store[from..to].iter().position(|word| *word != 0) {
            let (place, word) = (from + more, self.store[from + more]);
            self.ask(false, place, rule, format!("{what}: {word}"));
        }
    }

    /// A mark, and what is behind it where it is 0.
    fn marked(&mut self, place: usize, length: usize, what: &str) {
        let mark = self.store[place];
        self.ask(mark <= 1, place, "bits, tags and marks are 0 or 1", format!("{what}: {mark}"));
        if mark == 0 {
            self.zeros(place + 1, place + length, "unused words are 0", &format!("{what} that is missing"));
        }
    }

    // THE SHAPE -----------------------------------------------------------------------------------------------------------------------------

    fn shape(&mut self) {
        let loaded = self.store[LOADED];
        self.ask(loaded <= 1, LOADED, "loaded is 0 or 1", format!("loaded: {loaded}"));
        for Counted { name, place, most, width } in COUNTED {
            let count = self.store[place] as usize;
            let rule = format!("at most {most} {name}");
            self.ask(count <= most, place, &rule, format!("their number: {count}"));
            if count <= most {
                self.zeros(place + 1 + count * width, place + 1 + most * width, "unused words are 0", &format!("{name} behind the last"));
            }
        }
        for rule in 0..RULES {
            let bit = self.store[BITS + rule];
            self.ask(bit <= 1, BITS + rule, "bits, tags and marks are 0 or 1", format!("bit of rule {rule} of the image: {bit}"));
            self.marked(ACTIVATIONS + rule * 3, 3, "last activation");
            self.marked(POSITIONS + rule * 2, 2, "cycle position");
            let position = self.store[POSITIONS + rule * 2 + 1];
            self.ask(position < 16, POSITIONS + rule * 2 + 1, "positions are below 16", format!("cycle position: {position}"));
        }
        self.marked(WEEK_MINUTE, 2, "previous week minute");
        let minute = self.store[WEEK_MINUTE + 1];
        self.ask(minute < 10_080, WEEK_MINUTE + 1, "the week minute is absent or below 10,080", format!("it is {minute}"));
        self.zeros(UNUSED, WORDS, "unused words are 0", "the unused end");
        self.rows();
    }

    fn rows(&mut self) {
        let count = |place: usize, most: usize| (self.store[place] as usize).min(most);
        let (variables, pending) = (count(VARIABLES, 16), count(PENDING, 32));
        for row in 0..variables {
            let place = VARIABLES + 1 + row * 4;
            let tag = self.store[place + 1];
            self.ask(tag <= 1, place + 1, "bits, tags and marks are 0 or 1", format!("tag of variable {row}: {tag}"));
        }
        for row in 0..pending {
            let place = PENDING + 1 + row * PENDING_WORDS;
            self.marked(place + 7, 3, "jump of a pending record");
            let trigger = self.store[place + 11];
            self.ask(trigger <= 4, place + 11, "a pending record's trigger is 0 to 4", format!("it is {trigger}"));
            self.zeros(place + 14, place + PENDING_WORDS, "its event word is 0", "event of a pending record");
        }
    }

    // THE CONTENTS --------------------------------------------------------------------------------------------------------------------------

    fn contents(&mut self) {
        let Some(state) = State::of(self.store) else { return };
        let lists = match state.image() {
            Some(image) => self.set(image),
            None => self.no_set(),
        };
        let Some(lists) = lists else { return };
        let tables = state.image().and_then(Tables::of);
        let rule = |index| tables.and_then(|tables| tables.record(Table::Rules, index)).map_or(0, |rule| rule[0]);
        let names: Vec<u32> = (0..lists.len()).map(rule).collect();
        let own = "last activations and cycle positions, and bits, belong to loaded rules";
        self.zeros(BITS + names.len(), BITS + RULES, own, "bit of a rule that is not there");
        self.zeros(ACTIVATIONS + names.len() * 3, ACTIVATIONS + RULES * 3, own, "last activation of a rule that is not there");
        self.zeros(POSITIONS + names.len() * 2, POSITIONS + RULES * 2, own, "cycle position of a rule that is not there");
        self.names(&state);
        self.slots(&state, tables.as_ref());
        for (row, held) in state.pending().enumerate() {
            self.pending(row, &held, &names, &lists, tables.map_or(0, |tables| tables.limits().budget));
        }
        self.numbers(&state);
    }

    fn no_set(&mut self) -> Option<Vec<Lists>> {
        self.zeros(IMAGE, LISTS, "unused words are 0", "image without a set");
        self.zeros(LISTS, STEPS, "unused words are 0", "list of a rule without a set");
        self.zeros(STEPS, BITS, "unused words are 0", "flat steps without a set");
        Some(Vec::new())
    }

    /// "the image passes load and the flat part is its flat form"
    fn set(&mut self, image: &[u32]) -> Option<Vec<Lists>> {
        if let Some(refusal) = super::image::refusal(image, self.book) {
            let mut finding = Finding::new(format!("the image passes load: it is refused with {}", refusal.number));
            if let Some(first) = refusal.findings.first() {
                finding.more.push(format!("in the image, which begins at word {}: {}", IMAGE + 1, first.what));
                finding.more.extend(first.more.clone());
            }
            self.findings.push(finding);
            return None;
        }
        let lists = flat::flatten(&Tables::of(image)?).rules;
        let mut rows = Vec::new();
        let mut end = 0;
        for own in &lists {
            rows.extend([(end + own.bodies.len()) as u32, own.own.len() as u32]);
            end += own.len();
        }
        rows.resize(RULES * 2, 0);
        let steps: Vec<u32> = lists.iter().flat_map(Lists::stored).flatten().copied().collect();
        let count = self.store[STEPS] as usize;
        self.ask(count == end, STEPS, FLAT, format!("number of flat steps: {count}, and the image has {end}"));
        self.same(LISTS, &rows, "list of a rule");
        self.same(STEPS + 1, &steps, "flat step");
        self.findings.is_empty().then_some(lists)
    }

    fn same(&mut self, place: usize, wanted: &[u32], what: &str) {
        let found = &self.store[place..place + wanted.len()];
        if let Some(at) = found.iter().zip(wanted).position(|(found, wanted)| found != wanted) {
            let text = format!("{what}: {}, and the image has {}", found[at], wanted[at]);
            self.ask(false, place + at, FLAT, text);
        }
    }

    fn names(&mut self, state: &State<'_>) {
        for (row, (_, is_text, value)) in state.variables().enumerate() {
            let place = VARIABLES + 1 + row * 4 + 3;
            self.ask(!is_text || value >> 32 == 0, place, "a text variable keeps its number only", format!("high word: {}", value >> 32));
        }
        let timers: Vec<u32> = state.timers().map(|timer| timer.0).collect();
        self.distinct(TIMERS + 1, 3, &timers, "timer names are distinct", Sort::Timer);
        let variables: Vec<u32> = state.variables().map(|variable| variable.0).collect();
        self.distinct(VARIABLES + 1, 4, &variables, "variable names are distinct", Sort::Var);
    }

    fn distinct(&mut self, place: usize, width: usize, names: &[u32], rule: &str, sort: Sort) {
        for (row, name) in names.iter().enumerate() {
            let text = format!("a second {}", self.book.name(sort, *name));
            self.ask(!names[..row].contains(name), place + row * width, rule, text);
        }
    }

    fn slots(&mut self, state: &State<'_>, tables: Option<&Tables<'_>>) {
        let mut wanted = Vec::new();
        for index in 0..tables.map_or(0, |tables| tables.count(Table::Rules)) {
            let Some((tables, rule)) = tables.and_then(|tables| Some((tables, tables.record(Table::Rules, index)?))) else { continue };
            for place in 0..rule[5] {
                let trigger = tables.record(Table::Triggers, (rule[4] + place) as usize);
                if let Some(trigger) = trigger.filter(|trigger| trigger[0] == EVERY) {
                    wanted.push((rule[0], place, trigger[1]));
                }
            }
        }
        wanted.sort_unstable();
        let found: Vec<(u32, u32, u32)> = state.slots().map(|slot| (slot.0, slot.1, slot.2)).collect();
        let rule = "Every slots are those of the set, sorted";
        self.ask(found.len() == wanted.len(), SLOTS, rule, format!("their number: {}, and the set has {}", found.len(), wanted.len()));
        if let Some(at) = found.iter().zip(&wanted).position(|(found, wanted)| found != wanted) {
            let told = |(rule, place, period): (u32, u32, u32)| format!("rule {rule}, trigger {place}, period {period}");
            let text = format!("{}, and the set has {}", told(found[at]), told(wanted[at]));
            self.ask(false, SLOTS + 1 + at * 5, rule, text);
        }
    }

    fn pending(&mut self, row: usize, held: &Pending, names: &[u32], lists: &[Lists], budget: u32) {
        let place = PENDING + 1 + row * PENDING_WORDS;
        let Some(rule) = names.iter().position(|name| *name == held.rule) else {
            return self.ask(false, place + 4, "a pending record's rule is loaded", format!("rule {}", held.rule));
        };
        self.ask(held.budget < budget, place + 10, "its budget is below B", format!("{}, and B is {budget}", held.budget));
        let Some(list) = lists[rule].named(held.list) else {
            return self.ask(false, place + 5, "it names one of that rule's lists", format!("list {}", held.list));
        };
        let length = list.len();
        if held.place as usize > length {
            let text = format!("place {} of a list of {length} steps", held.place);
            return self.ask(false, place + 6, "its place lies in that list or at its end", text);
        }
        let jump = jump_at(list, held.place as usize);
        let rule = "a jump stands with it exactly while the place is inside a then-region, and leads past the else-region";
        self.ask(held.jump == jump, place + 7, rule, format!("jump {:?}, and the list has {jump:?}", held.jump));
    }

    fn numbers(&mut self, state: &State<'_>) {
        let sequence: Vec<u64> = state.pending().map(|held| held.sequence).collect();
        let (next, last) = (state.next_sequence(), state.last_number());
        for (row, held) in state.pending().enumerate() {
            let place = PENDING + 1 + row * PENDING_WORDS;
            let (own, number) = (held.sequence, held.number);
            self.ask(own < next, place, "its sequence number is below the next", format!("{own}, and the next is {next}"));
            self.ask(!sequence[..row].contains(&own), place, "its sequence number is distinct", format!("a second {own}"));
            let rule = "its activation number is at least 1 and at most the last one given";
            self.ask((1..=last).contains(&number), place + 12, rule, format!("{number}, and the last is {last}"));
        }
    }
}

const FLAT: &str = "the flat part is the flat form of the image";

/// The jump of a place: inside a then-region, from its end past the else-region.
fn jump_at(list: &[Step], place: usize) -> Option<(u32, u32)> {
    list.iter().enumerate().find_map(|(at, step)| {
        let inside = step[0] == BRANCH && place > at && place <= at + step[2] as usize;
        let end = at as u32 + 1 + step[2];
        inside.then_some((end, end + step[3]))
    })
}
