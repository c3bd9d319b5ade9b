//! Refusals 13 and 14: what stands in the records. Every record is looked at, whether a rule reaches it or not.

use crate::image::Tables;
use crate::schema::{kind_of, kinds, reference_ranges, Class, Kind, Table};

use super::reach::Reach;
use super::Finding;

/// A record where it stands.
struct Record<'a> {
    tables: &'a Tables<'a>,
    reach: &'a Reach,
    table: Table,
    index: usize,
    words: &'a [u32],
}

impl Record<'_> {
    /// A finding about one word; `field` counts from the record's first field.
    fn finding(&self, word: usize, field: Option<(usize, &str)>, wrong: String) -> Finding {
        let place = self.tables.place(self.table, self.index) + word;
        let field = field.map_or(String::new(), |(place, name)| format!(", field {place} ({name})"));
        let what = format!("word {place}, table {}, record {}{field}: {wrong}", self.table.name(), self.index);
        let mut finding = Finding::new(what);
        if let Some((kind, offset)) = kind_of(self.table, self.words) {
            finding.more.push(format!("at  {}", in_words(kind, &self.words[offset..])));
        }
        finding.more.push(format!("of  {}", self.reach.of_record(self.table, self.index)));
        finding
    }
}

/// `AtTime hour=25 minute=0 days=127`.
fn in_words(kind: &Kind, fields: &[u32]) -> String {
    let mut text = kind.name.to_string();
    for (field, word) in kind.fields.iter().zip(fields) {
        text.push_str(&format!(" {}={word}", field.name.replace(' ', "_")));
    }
    text
}

fn each(tables: &Tables<'_>, reach: &Reach, mut look: impl FnMut(&Record<'_>, &mut Vec<Finding>)) -> Vec<Finding> {
    let mut findings = Vec::new();
    for table in Table::ALL {
        for index in 0..tables.count(table) {
            if let Some(words) = tables.record(table, index) {
                look(&Record { tables, reach, table, index, words }, &mut findings);
            }
        }
    }
    findings
}

/// Refusal 13: unknown kind, field out of range, unused word not 0.
pub fn ranges(tables: &Tables<'_>, reach: &Reach) -> Vec<Finding> {
    each(tables, reach, |record, findings| {
        let words = record.words;
        let Some((kind, offset)) = kind_of(record.table, words) else {
            let most = kinds(record.table).0.len() - 1;
            findings.push(record.finding(0, None, format!("unknown kind {}, allowed 0 to {most}", words[0])));
            return;
        };
        for (at, field) in kind.fields.iter().enumerate() {
            let word = words[offset + at];
            if let Some(wrong) = out_of_range(field.class, word, words) {
                findings.push(record.finding(offset + at, Some((at + offset, field.name)), wrong));
            }
        }
        for (at, word) in words.iter().enumerate().skip(offset + kind.fields.len()) {
            if *word != 0 {
                findings.push(record.finding(at, None, format!("{word} in a word that {} does not use, allowed 0", kind.name)));
            }
        }
    })
}

fn out_of_range(class: Class, word: u32, record: &[u32]) -> Option<String> {
    let over = |most: u32| (word > most).then(|| format!("{word}, allowed 0 to {most}"));
    let void = |why: String| (word != 0).then(|| format!("{word}, allowed 0, since {why}"));
    match class {
        Class::UpTo(most) => over(most),
        Class::Scenes => over(16),
        Class::SceneWhile(at, is) if record[at] == is => over(255),
        Class::SceneWhile(..) => void("its answer is no scene".to_string()),
        Class::NameWhile(_, at, is) if record[at] == is => None,
        Class::NameWhile(sort, at, _) => void(format!("word {at} of the record ({}) says that there is no {}", record[at], sort.word())),
        Class::Reference(place) => match reference_ranges(record[1]).get(place) {
            Some(most) => over(*most),
            None => void(format!("reading {} has no such word", record[1])),
        },
        _ => None,
    }
}

/// Refusal 14: index or list outside its table, or a nested list that does not start after its holder.
pub fn references(tables: &Tables<'_>, reach: &Reach) -> Vec<Finding> {
    each(tables, reach, |record, findings| {
        let Some((kind, offset)) = kind_of(record.table, record.words) else { return };
        for (at, field) in kind.fields.iter().enumerate() {
            let word = record.words[offset + at];
            let count = record.words.get(offset + at + 1).copied().unwrap_or(0);
            let wrong = match field.class {
                Class::Index(table) => outside(tables, table, word),
                Class::ValueOrText if record.words[3] == 0 => outside(tables, Table::Values, word),
                Class::First(table) => list_outside(tables, table, word, count),
                Class::Nested => list_outside(tables, Table::Actions, word, count).or_else(|| {
                    let behind = count == 0 || word as usize > record.index;
                    (!behind).then(|| format!("{word}: a nested list stands behind its holder, from record {} on", record.index + 1))
                }),
                _ => None,
            };
            if let Some(wrong) = wrong {
                findings.push(record.finding(offset + at, Some((at + offset, field.name)), wrong));
            }
        }
    })
}

fn outside(tables: &Tables<'_>, table: Table, index: u32) -> Option<String> {
    let count = tables.count(table);
    let allowed = if count == 0 { "the table is empty".to_string() } else { format!("allowed 0 to {}", count - 1) };
    (index as usize >= count).then(|| format!("{index} is no record of table {}: {allowed}", table.name()))
}

/// "an empty list may start at the table's end, not past it"
fn list_outside(tables: &Tables<'_>, table: Table, first: u32, count: u32) -> Option<String> {
    let have = tables.count(table) as u64;
    let end = u64::from(first) + u64::from(count);
    (end > have).then(|| format!("{first}, with {count} records, ends at {end}: table {} has {have}", table.name()))
}
