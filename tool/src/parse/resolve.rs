//! Gives every name its number, and puts the numbers where the tree has places of names.

use std::collections::BTreeSet;

use crate::fault::{nearest, Fault};
use crate::names::{Book, Entry};
use crate::schema::{kinds, Class, Sort, Table, READING_VAR};
use crate::tree::{Part, Record, Set};

use super::decl::Def;
use super::matcher::Use;
use super::{File, Parser};

/// Sorts whose names must be declared, or, for rules and blocks, be there.
fn must_be_declared(sort: Sort) -> bool {
    !matches!(sort, Sort::Timer | Sort::Var | Sort::Counter)
}

pub(super) fn resolve(parser: Parser<'_>, known: &Book) -> Result<File, Vec<Fault>> {
    let limits = parser.limits();
    let Parser { declared, uses, rules, blocks, expects, .. } = parser;
    let mut faults = undeclared(&declared.defs, &uses);
    if !faults.is_empty() {
        return Err(faults);
    }
    let mut book = known.clone();
    if declared.monday {
        book.monday = declared.places.monday;
    }
    faults.extend(pins(&mut book, &declared.defs));
    for sort in Sort::ALL {
        let used = uses.iter().filter(|used| used.sort == sort).map(|used| &used.name);
        let names = declared.defs.iter().filter(|def| def.sort == sort).map(|def| &def.name).chain(used);
        let new: BTreeSet<String> = names.filter(|name| book.number(sort, name).is_none()).cloned().collect();
        let new: Vec<String> = new.into_iter().collect();
        if let Err(what) = book.number_all(sort, &new) {
            let spot = uses.iter().find(|used| used.sort == sort && new.contains(&used.name)).map(|used| used.spot);
            faults.push(Fault::error(spot.unwrap_or_default(), what));
        }
    }
    describe(&mut book, &declared.defs);
    if !faults.is_empty() {
        return Err(faults);
    }
    let numbers: Vec<u32> = uses.iter().map(|used| book.number(used.sort, &used.name).unwrap_or(0)).collect();
    let set = numbered(Set { limits, rules, blocks }, &numbers);
    Ok(File { set, book, places: declared.places, expects, defs: declared.defs, uses })
}

pub(super) fn undeclared(defs: &[Def], uses: &[Use]) -> Vec<Fault> {
    let mut faults = Vec::new();
    for used in uses.iter().filter(|used| must_be_declared(used.sort) && !used.name.is_empty()) {
        let (sort, name) = (used.sort, &used.name);
        if defs.iter().any(|def| def.sort == sort && def.name == *name) {
            continue;
        }
        let names = defs.iter().filter(|def| def.sort == sort).map(|def| def.name.as_str());
        let help = match (nearest(name, names), sort) {
            (Some(near), _) => format!("is `{near}` meant?"),
            (None, Sort::Rule | Sort::Block) => {
                format!("no {0} has this name; if it is to stay so, write `missing {0} {name}` above", sort.word())
            }
            (None, _) => format!("declare it: `{} {name} = NUMBER`", sort.word()),
        };
        faults.push(Fault::error(used.spot, format!("no {} `{name}`", sort.word())).help(help));
    }
    faults
}

/// Numbers that the file itself gives. A store knows rules, timers and variables by theirs, so these do not change.
fn pins(book: &mut Book, defs: &[Def]) -> Vec<Fault> {
    let mut faults = Vec::new();
    for def in defs {
        let Some(number) = def.number else { continue };
        let (sort, name) = (def.sort, &def.name);
        let was = book.number(sort, name);
        if let Some(was) = was.filter(|was| *was != number && sort.is_kept_in_stores()) {
            let what = format!("{} `{name}` has number {was} in the file of names, not {number}", sort.word());
            let help = "a store remembers it by its number: keep the number, or remove the line there and make the store new";
            faults.push(Fault::error(def.spot, what).help(help));
            continue;
        }
        let other = book.entry(sort, number).map(|(other, _)| other.to_string()).filter(|other| other != name);
        if let Some(other) = other {
            // A name of the file of names that is nowhere in this file gives way, if no store knows it.
            let is_here = defs.iter().any(|def| def.sort == sort && def.name == other);
            if is_here || sort.is_kept_in_stores() {
                faults.push(Fault::error(def.spot, format!("number {number} is {} `{other}` already", sort.word())));
                continue;
            }
            book.names.remove(&(sort, other));
        }
        let entry = book.names.get(&(sort, name.clone())).cloned().unwrap_or_default();
        book.add(sort, name, Entry { number, ..entry });
    }
    faults
}

/// The words of texts and the light of verbs.
fn describe(book: &mut Book, defs: &[Def]) {
    for def in defs {
        if let Some(entry) = book.names.get_mut(&(def.sort, def.name.clone())) {
            entry.words = def.words.clone().or(entry.words.take());
            entry.bright = def.bright.or(entry.bright);
        }
    }
}

/// The tree with numbers in the place of uses.
fn numbered(mut set: Set, numbers: &[u32]) -> Set {
    let number = |word: &mut u32| *word = numbers.get(*word as usize).copied().unwrap_or(0);
    for rule in &mut set.rules {
        number(&mut rule.name);
        rule.triggers.iter_mut().for_each(|record| put(Table::Triggers, record, numbers));
        rule.conditions.iter_mut().for_each(|record| put(Table::Conditions, record, numbers));
        rule.steps.iter_mut().for_each(|record| put(Table::Actions, record, numbers));
    }
    for block in &mut set.blocks {
        number(&mut block.name);
        block.steps.iter_mut().for_each(|record| put(Table::Actions, record, numbers));
    }
    set
}

/// The sort of name that a field of a record holds.
pub fn name_sort(table: Table, record: &Record, field: usize) -> Option<Sort> {
    let (kinds, _) = kinds(table);
    // A class counts words from the kind, a tree from the first field.
    match kinds.get(record.kind as usize)?.fields.get(field)?.class {
        Class::Name(sort) => Some(sort),
        Class::NameWhile(sort, at, is) => (record.word(at - 1) == is).then_some(sort),
        Class::LowOrText => (record.word(1) == 1).then_some(Sort::Text),
        Class::ValueOrText => (record.word(2) == 1).then_some(Sort::Text),
        Class::Reference(0) => (record.word(0) == READING_VAR).then_some(Sort::Var),
        _ => None,
    }
}

fn put(table: Table, record: &mut Record, numbers: &[u32]) {
    for field in 0..record.parts.len() {
        let is_name = name_sort(table, record, field).is_some();
        match &mut record.parts[field] {
            Part::Word(word) if is_name => *word = numbers.get(*word as usize).copied().unwrap_or(0),
            Part::One(inner) => {
                let (kinds, _) = kinds(table);
                let class = kinds.get(record.kind as usize).and_then(|kind| kind.fields.get(field)).map(|field| field.class);
                let table = if let Some(Class::Index(table)) = class { table } else { Table::Values };
                put(table, inner, numbers);
            }
            Part::List(inner) => inner.iter_mut().for_each(|record| put(Table::Actions, record, numbers)),
            _ => {}
        }
    }
}

#[cfg(test)]
mod tests {
    use super::name_sort;
    use crate::schema::{Sort, Table};
    use crate::tree::Record;

    #[test]
    fn names_by_their_tags() {
        let light = |answer| Record::new(0, &[1, 2, answer, 0]);
        assert_eq!(name_sort(Table::Actions, &light(0), 3), Some(Sort::Verb));
        assert_eq!(name_sort(Table::Actions, &light(1), 3), None);
        assert_eq!(name_sort(Table::Actions, &Record::new(16, &[1, 1, 2, 3]), 2), Some(Sort::Text));
        assert_eq!(name_sort(Table::Actions, &Record::new(16, &[1, 0, 2, 3]), 2), None);
        assert_eq!(name_sort(Table::Values, &Record::new(1, &[18, 2, 0, 0]), 1), Some(Sort::Var));
        assert_eq!(name_sort(Table::Values, &Record::new(1, &[11, 0, 0, 0]), 1), None);
    }
}
