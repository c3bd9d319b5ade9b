//! How bright a light is: by the verb or the level that it was told last.

use crate::names::Book;
use crate::schema::Sort;

pub const FULL: u32 = 1_000_000;

/// The light of a verb in parts per million: as declared (`verb dimmed = 10 30 %`), or by its name.
pub fn of_verb(book: &Book, verb: u32) -> u32 {
    let Some((name, entry)) = book.entry(Sort::Verb, verb) else { return FULL };
    entry.bright.unwrap_or_else(|| match name {
        "off" | "dark" | "out" => 0,
        name if name.starts_with("dim") => FULL / 2,
        _ => FULL,
    })
}

/// The light of a level of the bus, by the dimming curve of IEC 62386-102.
pub fn of_level(level: u32) -> u32 {
    match level {
        0 => 0,
        254.. => FULL,
        level => (1_000.0 * 10_f64.powf(3.0 * f64::from(level - 1) / 253.0)).round() as u32,
    }
}

/// The level whose light lies nearest, the lower of two.
pub fn level_of(ppm: u64) -> u32 {
    if ppm == 0 {
        return 0;
    }
    (1..=254).min_by_key(|level| u64::from(of_level(*level)).abs_diff(ppm)).unwrap_or(0)
}

#[cfg(test)]
mod tests {
    use super::{level_of, of_level, of_verb, FULL};
    use crate::names::{Book, Entry};
    use crate::schema::Sort;

    #[test]
    fn levels_are_those_of_the_curve() {
        assert_eq!([0, 1, 85, 229, 254].map(of_level), [0, 1_000, 9_909, 505_309, FULL]);
    }

    /// docs/FOR-FITTERS.md, "Light in percent".
    #[test]
    fn levels_of_percents() {
        let table = [(0, 0), (1_000, 1), (10_000, 85), (100_000, 170), (400_000, 220), (500_000, 229), (750_000, 243), (1_000_000, 254)];
        for (ppm, level) in table {
            assert_eq!(level_of(ppm), level, "{ppm}");
        }
    }

    #[test]
    fn verbs_by_declaration_and_by_name() {
        let mut book = Book::default();
        book.add(Sort::Verb, "off", Entry { number: 1, ..Entry::default() });
        book.add(Sort::Verb, "night", Entry { number: 2, bright: Some(7), ..Entry::default() });
        assert_eq!([1, 2, 3].map(|verb| of_verb(&book, verb)), [0, 7, FULL]);
    }
}
