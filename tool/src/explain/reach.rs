//! How a record is reached: the first rule or block whose lists lead to it. Words may be wrong in every way, so that an index that leads
//! nowhere is passed over.

use std::collections::BTreeMap;

use crate::image::Tables;
use crate::names::Book;
use crate::schema::{kind_of, Class, Sort, Table};

pub struct Reach {
    paths: BTreeMap<(Table, usize), String>,
}

impl Reach {
    pub fn of(tables: &Tables<'_>, book: &Book) -> Reach {
        let mut reach = Reach { paths: BTreeMap::new() };
        for (table, sort) in [(Table::Rules, Sort::Rule), (Table::Blocks, Sort::Block)] {
            for index in 0..tables.count(table) {
                let Some(words) = tables.record(table, index) else { continue };
                let name = match book.entry(sort, words[0]) {
                    Some((name, _)) => format!("{} {name} ({})", sort.word(), words[0]),
                    None => format!("{} {}", sort.word(), words[0]),
                };
                reach.fields(tables, table, words, &name);
                reach.paths.insert((table, index), name);
            }
        }
        reach
    }

    pub fn of_record(&self, table: Table, index: usize) -> String {
        self.paths.get(&(table, index)).cloned().unwrap_or_else(|| "no rule and no block: nothing mentions this record".to_string())
    }

    fn fields(&mut self, tables: &Tables<'_>, table: Table, words: &[u32], path: &str) {
        let Some((kind, offset)) = kind_of(table, words) else { return };
        for (at, field) in kind.fields.iter().enumerate() {
            let word = words[offset + at];
            let count = words.get(offset + at + 1).copied().unwrap_or(0);
            match field.class {
                Class::Index(inner) => self.visit(tables, inner, word, &format!("{path}, {}", field.name)),
                Class::ValueOrText if words[3] == 0 => self.visit(tables, Table::Values, word, &format!("{path}, value")),
                Class::First(inner) => self.list(tables, inner, (word, count), path, one_of(inner)),
                Class::Nested => self.list(tables, Table::Actions, (word, count), path, "step"),
                _ => {}
            }
        }
    }

    fn list(&mut self, tables: &Tables<'_>, table: Table, (first, count): (u32, u32), path: &str, what: &str) {
        let have = tables.count(table) as u32;
        for step in 0..count.min(have) {
            if let Some(index) = first.checked_add(step) {
                self.visit(tables, table, index, &format!("{path}, {what} {} of {count}", step + 1));
            }
        }
    }

    /// Each record once: a record that was met is not gone through again.
    fn visit(&mut self, tables: &Tables<'_>, table: Table, index: u32, path: &str) {
        let key = (table, index as usize);
        let Some(words) = tables.record(table, index as usize) else { return };
        if !self.paths.contains_key(&key) {
            self.paths.insert(key, path.to_string());
            self.fields(tables, table, words, path);
        }
    }
}

fn one_of(table: Table) -> &'static str {
    match table {
        Table::Triggers => "trigger",
        Table::Conditions => "condition",
        Table::Pool => "scene",
        _ => "step",
    }
}
