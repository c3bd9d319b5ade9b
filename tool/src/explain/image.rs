//! Refusals 10 to 17 of rule images.

use crate::flat::{self, MOST_STEPS, MOST_TAKEN};
use crate::image::{Tables, MOST_WORDS, TRAILER};
use crate::names::Book;
use crate::schema::{Sort, Table, EVERY};
use crate::tree::LIMITS;

use super::content;
use super::reach::Reach;
use super::{Finding, Refusal};

pub const NUMBERS: [u32; 8] = [10, 11, 12, 13, 14, 15, 16, 17];
const MOST_NAMED: usize = 64;

/// The refusal of an image by load; None if it is accepted.
pub fn refusal(image: &[u32], book: &Book) -> Option<Refusal> {
    if image.len() < TRAILER || image.len() > MOST_WORDS {
        let what = format!("the image has {} words, allowed {TRAILER} to {MOST_WORDS}", image.len());
        return Refusal::of(10, vec![Finding::new(what)]);
    }
    if let Some(refusal) = Refusal::of(11, limits(image)) {
        return Some(refusal);
    }
    let Some(tables) = Tables::of(image) else {
        return Refusal::of(12, places(image));
    };
    let reach = Reach::of(&tables, book);
    Refusal::of(13, content::ranges(&tables, &reach))
        .or_else(|| Refusal::of(14, content::references(&tables, &reach)))
        .or_else(|| Refusal::of(15, names(&tables, book)))
        .or_else(|| Refusal::of(16, steps(&tables, book)))
        .or_else(|| Refusal::of(17, counts(&tables, book)))
}

fn limits(image: &[u32]) -> Vec<Finding> {
    let start = image.len() - TRAILER;
    let mut findings = Vec::new();
    for (place, (name, least, most)) in LIMITS.iter().enumerate() {
        let word = image[start + place];
        if word < *least || word > *most {
            let what = format!("word {}, trailer word {place} ({name} limit): {word}, allowed {least} to {most}", start + place);
            findings.push(Finding::new(what));
        }
    }
    findings
}

fn places(image: &[u32]) -> Vec<Finding> {
    let trailer = image.len() - TRAILER;
    let start = |table: usize| image.get(trailer + 5 + table).map_or(trailer, |word| *word as usize);
    let mut findings = Vec::new();
    if start(0) != 0 {
        let what = format!("word {}, trailer word 5: table rules starts at word {}, and must start at word 0", trailer + 5, start(0));
        findings.push(Finding::new(what));
    }
    for table in Table::ALL {
        let (from, to) = (start(table.place()), if table == Table::Pool { trailer } else { start(table.place() + 1) });
        let (place, name) = (trailer + 5 + table.place(), table.name());
        if from > to {
            let what = format!("word {place}, trailer word {}: table {name} starts at word {from}, behind its end at word {to}", place - trailer);
            findings.push(Finding::new(what));
        } else if (to - from) % table.width() != 0 {
            let what = format!(
                "table {name} has the words {from} to {to}: {} words are no whole number of records of {}",
                to - from,
                table.width()
            );
            findings.push(Finding::new(what));
        }
    }
    findings
}

fn rule_name(book: &Book, number: u32) -> String {
    match book.entry(Sort::Rule, number) {
        Some((name, _)) => format!("rule {name} ({number})"),
        None => format!("rule {number}"),
    }
}

fn names(tables: &Tables<'_>, book: &Book) -> Vec<Finding> {
    let rules: Vec<u32> = (0..tables.count(Table::Rules)).filter_map(|index| Some(tables.record(Table::Rules, index)?[0])).collect();
    let mut findings = Vec::new();
    for (place, name) in rules.iter().enumerate() {
        if let Some(first) = rules[..place].iter().position(|other| other == name) {
            let words = (tables.place(Table::Rules, first), tables.place(Table::Rules, place));
            let what = format!("records {first} and {place} of table rules (words {} and {}) have one name: {}", words.0, words.1, rule_name(book, *name));
            findings.push(Finding::new(what));
        }
    }
    findings
}

fn steps(tables: &Tables<'_>, book: &Book) -> Vec<Finding> {
    let flat = flat::flatten(tables);
    if !flat.is_over() {
        return Vec::new();
    }
    let what = match flat.taken > MOST_TAKEN {
        true => format!("unfolding the rules takes more than {MOST_TAKEN} actions"),
        false => format!("the rules unfold to more than {MOST_STEPS} flat steps"),
    };
    let mut finding = Finding::new(what);
    let mut sizes: Vec<(usize, usize)> = flat.rules.iter().map(flat::Lists::len).enumerate().collect();
    sizes.sort_by_key(|(_, size)| std::cmp::Reverse(*size));
    for (index, size) in sizes.into_iter().take(5) {
        let name = tables.record(Table::Rules, index).map_or(0, |rule| rule[0]);
        finding.more.push(format!("of  {}: {size} steps", rule_name(book, name)));
    }
    finding.more.push("    repeats and calls multiply: lower a repeat, or split a block".to_string());
    vec![finding]
}

fn counts(tables: &Tables<'_>, book: &Book) -> Vec<Finding> {
    let mut findings = Vec::new();
    for table in [Table::Rules, Table::Blocks] {
        let count = tables.count(table);
        if count > MOST_NAMED {
            findings.push(Finding::new(format!("table {} has {count} records, allowed {MOST_NAMED}", table.name())));
        }
    }
    let mut slots = 0;
    let mut most = (0, 0);
    for index in 0..tables.count(Table::Rules) {
        let Some(rule) = tables.record(Table::Rules, index) else { continue };
        let list = (0..rule[5]).filter_map(|step| tables.record(Table::Triggers, rule[4].checked_add(step)? as usize));
        let own = list.filter(|trigger| trigger[0] == EVERY).count();
        slots += own;
        most = most.max((own, rule[0]));
    }
    if slots > MOST_NAMED {
        let mut finding = Finding::new(format!("the rules have {slots} Every triggers, allowed {MOST_NAMED}"));
        finding.more.push(format!("of  {}: {} of them", rule_name(book, most.1), most.0));
        findings.push(finding);
    }
    findings
}
