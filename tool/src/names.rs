//! Names and their numbers. Numbers are stable for the life of a store, and those of rules and timers stand in byte order of the spelling:
//! FILE.names keeps NAME NUMBER pairs, and a new name takes the middle of the gap between its neighbours.

use std::collections::BTreeMap;
use std::fmt::Write as _;

use crate::grammar::RESERVED;
use crate::schema::Sort;

/// What is known of a name.
#[derive(Clone, Debug, Default, PartialEq)]
pub struct Entry {
    pub number: u32,
    /// The words of a text.
    pub words: Option<String>,
    /// The light of a verb in parts per million.
    pub bright: Option<u32>,
}

/// The names of a set, by sort and spelling.
#[derive(Clone, Debug, Default, PartialEq)]
pub struct Book {
    pub names: BTreeMap<(Sort, String), Entry>,
    /// The number that the controller's clock gives Monday.
    pub monday: u32,
}

impl Book {
    pub fn number(&self, sort: Sort, name: &str) -> Option<u32> {
        self.names.get(&(sort, name.to_string())).map(|entry| entry.number)
    }

    pub fn of_sort(&self, sort: Sort) -> impl Iterator<Item = (&str, &Entry)> {
        let from = (sort, String::new());
        self.names.range(from..).take_while(move |((found, _), _)| *found == sort).map(|((_, name), entry)| (name.as_str(), entry))
    }

    pub fn entry(&self, sort: Sort, number: u32) -> Option<(&str, &Entry)> {
        self.of_sort(sort).find(|(_, entry)| entry.number == number)
    }

    /// The name of a number, or one made from it.
    pub fn name(&self, sort: Sort, number: u32) -> String {
        self.entry(sort, number).map_or_else(|| format!("{}_{number}", sort.word()), |(name, _)| name.to_string())
    }

    pub fn add(&mut self, sort: Sort, name: &str, entry: Entry) {
        self.names.insert((sort, name.to_string()), entry);
    }

    /// Names for numbers that have none: their digits, filled up so that their byte order is that of the numbers.
    pub fn complete(&mut self, sort: Sort, numbers: impl IntoIterator<Item = u32>) {
        let known: std::collections::BTreeSet<u32> = self.of_sort(sort).map(|(_, entry)| entry.number).collect();
        let missing: Vec<u32> = numbers.into_iter().filter(|number| !known.contains(number)).collect();
        let width = missing.iter().max().map_or(1, |number| number.to_string().len());
        for number in missing {
            let mut name = format!("{}_{number:0width$}", sort.word());
            while self.number(sort, &name).is_some_and(|other| other != number) {
                name.push('_');
            }
            self.add(sort, &name, Entry { number, ..Entry::default() });
        }
    }

    /// Two names of a sort whose numbers are not in their byte order.
    pub fn disorder(&self, sort: Sort) -> Option<(&str, &str)> {
        let list: Vec<(&str, u32)> = self.of_sort(sort).map(|(name, entry)| (name, entry.number)).collect();
        list.windows(2).find(|two| two[0].1 >= two[1].1).map(|two| (two[0].0, two[1].0))
    }

    // GIVING NUMBERS ------------------------------------------------------------------------------------------------------------------------

    /// Numbers for new names of a sort.
    pub fn number_all(&mut self, sort: Sort, new: &[String]) -> Result<(), String> {
        if sort.is_ordered() {
            self.number_between(sort, new)
        } else {
            for name in new {
                let mut taken: Vec<u32> = self.of_sort(sort).map(|(_, entry)| entry.number).collect();
                taken.sort_unstable();
                let number = taken.iter().fold(1, |free, number| if *number == free { free.saturating_add(1) } else { free });
                self.add(sort, name, Entry { number, ..Entry::default() });
            }
            Ok(())
        }
    }

    /// New names between two known ones are spread evenly over the gap between their numbers.
    fn number_between(&mut self, sort: Sort, new: &[String]) -> Result<(), String> {
        let mut new = new.to_vec();
        new.sort();
        new.dedup();
        while let Some(first) = new.first().cloned() {
            let known: Vec<(&str, u32)> = self.of_sort(sort).map(|(name, entry)| (name, entry.number)).collect();
            let below = known.iter().rev().find(|(name, _)| *name < first.as_str()).copied();
            let above = known.iter().find(|(name, _)| *name > first.as_str()).copied();
            let until = |name: &String| above.is_none_or(|(end, _)| name.as_str() < end);
            let together: Vec<String> = new.iter().take_while(|name| until(name)).cloned().collect();
            let low = below.map_or(0, |(_, number)| u64::from(number) + 1);
            let high = above.map_or(1 << 32, |(_, number)| u64::from(number));
            let gap = high.saturating_sub(low);
            let count = together.len() as u64;
            if gap < count {
                return Err(no_gap(sort, &together, below, above));
            }
            for (place, name) in together.iter().enumerate() {
                let number = low + gap * (2 * place as u64 + 1) / (2 * count);
                self.add(sort, name, Entry { number: number as u32, ..Entry::default() });
            }
            new.drain(..together.len());
        }
        Ok(())
    }

    // THE FILE ------------------------------------------------------------------------------------------------------------------------------

    pub fn write(&self) -> String {
        let mut text = String::from(
            "# Names and numbers, kept by barn. A store remembers rules, timers and variables by these numbers: keep this file with the rules.\n",
        );
        let _ = writeln!(text, "monday {}", self.monday);
        for ((sort, name), entry) in &self.names {
            let _ = write!(text, "{} {name} {}", sort.word(), entry.number);
            if let Some(bright) = entry.bright {
                let _ = write!(text, " ppm {bright}");
            }
            if let Some(words) = &entry.words {
                let _ = write!(text, " \"{words}\"");
            }
            text.push('\n');
        }
        text
    }

    /// The names of a file, or the line that is none and why.
    pub fn read(text: &str) -> Result<Book, (usize, String)> {
        let mut book = Book::default();
        for (place, line) in text.lines().enumerate() {
            let line = line.trim();
            if line.is_empty() || line.starts_with('#') {
                continue;
            }
            book.read_line(line).map_err(|what| (place + 1, what))?;
        }
        Ok(book)
    }

    fn read_line(&mut self, line: &str) -> Result<(), String> {
        let (head, words) = match line.split_once('"') {
            Some((head, tail)) => (head, Some(tail.strip_suffix('"').ok_or("a text without its closing `\"`")?)),
            None => (line, None),
        };
        let parts: Vec<&str> = head.split_whitespace().collect();
        let number = |text: &str| text.parse::<u32>().map_err(|_| format!("`{text}` is no number of 0 to 4294967295"));
        match parts.as_slice() {
            ["monday", day] => {
                let day = number(day)?;
                if day > 6 {
                    return Err(format!("Monday's number is 0 to 6, not {day}"));
                }
                self.monday = day;
            }
            [sort, name, rest @ ..] => {
                let sort = Sort::of_word(sort).ok_or_else(|| format!("`{sort}` is no sort of name"))?;
                check_name(name)?;
                let (value, bright) = match rest {
                    [value] => (number(value)?, None),
                    [value, "ppm", bright] => (number(value)?, Some(number(bright)?)),
                    _ => return Err("SORT NAME NUMBER expected".to_string()),
                };
                if let Some((other, _)) = self.entry(sort, value).filter(|(other, _)| other != name) {
                    return Err(format!("number {value} is {} `{other}` already", sort.word()));
                }
                if self.number(sort, name).is_some() {
                    return Err(format!("{} `{name}` stands there twice", sort.word()));
                }
                self.add(sort, name, Entry { number: value, words: words.map(str::to_string), bright });
            }
            _ => return Err("SORT NAME NUMBER expected".to_string()),
        }
        Ok(())
    }
}

fn no_gap(sort: Sort, new: &[String], below: Option<(&str, u32)>, above: Option<(&str, u32)>) -> String {
    let side = |side: Option<(&str, u32)>, end: &str| side.map_or(end.to_string(), |(name, number)| format!("`{name}` ({number})"));
    format!(
        "no number is left for {} `{}` between {} and {}: number all anew (remove the file of names) and make the store new",
        sort.word(),
        new.join("`, `"),
        side(below, "0"),
        side(above, "4294967295")
    )
}

/// Whether a word can be a name.
pub fn check_name(name: &str) -> Result<(), String> {
    if RESERVED.contains(&name) {
        return Err(format!("`{name}` is a word of the language and no name"));
    }
    let first = name.chars().next().unwrap_or(' ');
    if first.is_ascii_digit() || !name.chars().all(|c| c.is_alphanumeric() || c == '_') {
        return Err(format!("`{name}` is no name: letters, digits and _, not beginning with a digit"));
    }
    Ok(())
}

#[cfg(test)]
mod tests {
    use super::{Book, Entry};
    use crate::schema::Sort;

    fn names(list: &[&str]) -> Vec<String> {
        list.iter().map(|name| name.to_string()).collect()
    }

    #[test]
    fn numbers_stand_in_byte_order_and_stay() {
        let mut book = Book::default();
        book.number_all(Sort::Rule, &names(&["night", "morning"])).unwrap();
        let (morning, night) = (book.number(Sort::Rule, "morning").unwrap(), book.number(Sort::Rule, "night").unwrap());
        assert!(morning < night);
        book.number_all(Sort::Rule, &names(&["a", "n", "zzz", "mz"])).unwrap();
        assert_eq!(book.number(Sort::Rule, "morning"), Some(morning));
        assert_eq!(book.number(Sort::Rule, "night"), Some(night));
        assert_eq!(book.disorder(Sort::Rule), None);
    }

    /// A new name takes the middle of the gap between its neighbours, of byte order: capitals before small letters, and these before others.
    #[test]
    fn a_new_name_takes_the_middle_of_its_gap() {
        for sort in [Sort::Rule, Sort::Timer] {
            let mut book = Book::default();
            book.add(sort, "b", Entry { number: 1_000, ..Entry::default() });
            book.add(sort, "d", Entry { number: 2_001, ..Entry::default() });
            book.number_all(sort, &names(&["c"])).unwrap();
            assert_eq!(book.number(sort, "c"), Some(1_501));
            book.number_all(sort, &names(&["B", "a\u{e9}", "\u{e9}"])).unwrap();
            let numbers = ["B", "a\u{e9}", "b", "c", "d", "\u{e9}"].map(|name| book.number(sort, name).unwrap());
            assert!(numbers.windows(2).all(|two| two[0] < two[1]), "{numbers:?}");
            assert_eq!((numbers[0], numbers[1]), (250, 750));
            assert_eq!(numbers[5], 2_002 + ((1_u64 << 32) - 2_002).div_euclid(2) as u32);
        }
    }

    #[test]
    fn a_last_number_is_given_and_then_none() {
        let mut book = Book::default();
        book.add(Sort::Rule, "a", Entry { number: 7, ..Entry::default() });
        book.add(Sort::Rule, "d", Entry { number: 9, ..Entry::default() });
        book.number_all(Sort::Rule, &names(&["b"])).unwrap();
        assert_eq!(book.number(Sort::Rule, "b"), Some(8));
        let text = book.number_all(Sort::Rule, &names(&["c"])).unwrap_err();
        assert!(text.contains("no number is left for rule `c` between `b` (8) and `d` (9)"), "{text}");
    }

    #[test]
    fn thirty_names_fit_one_after_another_and_no_gap_is_an_error() {
        let mut book = Book::default();
        let mut name = "m".to_string();
        let mut fitted = 0;
        // Each name stands just above the one before: the gap is halved each time.
        loop {
            name.push('a');
            let Err(text) = book.number_all(Sort::Rule, &[name.clone()]) else {
                fitted += 1;
                continue;
            };
            assert!(text.contains("no number is left for rule"), "{text}");
            break;
        }
        assert!((30..=33).contains(&fitted), "{fitted}");
        assert_eq!(book.disorder(Sort::Rule), None);
    }

    #[test]
    fn other_sorts_take_the_lowest_free_number() {
        let mut book = Book::default();
        book.add(Sort::Light, "a", Entry { number: 2, ..Entry::default() });
        book.number_all(Sort::Light, &names(&["b", "c"])).unwrap();
        assert_eq!((book.number(Sort::Light, "b"), book.number(Sort::Light, "c")), (Some(1), Some(3)));
    }

    #[test]
    fn the_file_reads_back() {
        let mut book = Book { monday: 3, ..Book::default() };
        book.add(Sort::Text, "hello", Entry { number: 7, words: Some("Good # day".into()), bright: None });
        book.add(Sort::Verb, "dimmed", Entry { number: 10, words: None, bright: Some(300_000) });
        assert_eq!(Book::read(&book.write()), Ok(book));
    }

    #[test]
    fn a_bad_file_is_told() {
        for (text, line) in [("rule a 1\nrule b 1", 2), ("rule a x", 1), ("cow a 1", 1), ("rule a 1\nrule a 2", 2), ("rule 1a 1", 1), ("monday 7", 1)] {
            assert_eq!(Book::read(text).unwrap_err().0, line, "{text}");
        }
    }

    #[test]
    fn made_names_stand_in_byte_order() {
        let mut book = Book::default();
        book.complete(Sort::Rule, [5, 10, 4_000_000_000]);
        assert_eq!(book.disorder(Sort::Rule), None);
    }
}
