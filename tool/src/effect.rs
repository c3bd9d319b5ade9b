//! Outcomes and effects in words.

use crate::light;
use crate::names::Book;
use crate::schema::Sort;
use crate::spell::percent;

/// An effect as the step that gave it would be written.
pub fn words(effect: &[u32], book: &Book) -> String {
    let word = |place: usize| effect.get(place).copied().unwrap_or(0);
    let name = |sort: Sort, place: usize| book.name(sort, word(place));
    let hold = |place: usize| if word(place) == 1 { " hold" } else { "" };
    let input = format!("{}/{}/{}", word(1), word(2), word(3));
    match word(0) {
        0 => format!("light {} {}{}", name(Sort::Light, 1), name(Sort::Verb, 2), hold(3)),
        1 if word(2) == 1 => format!("recall {} on {}{}", word(1), name(Sort::Light, 3), hold(4)),
        1 => format!("recall {}{}", word(1), hold(4)),
        2 => format!("apply {}{}", word(1), hold(2)),
        3 => format!("hcl resume {}", name(Sort::Light, 1)),
        4 => format!("hcl hold {}", name(Sort::Light, 1)),
        5 => format!("hcl {} {}", if word(2) == 1 { "enable" } else { "disable" }, name(Sort::Schedule, 1)),
        6 => format!("feedback {} {input}", if word(4) == 1 { "on" } else { "off" }),
        7 => format!("panel {}/{} select {}", word(1), word(2), word(3)),
        8 => format!("cancel hold {input}"),
        9 => format!("catch movement {input}"),
        10 => format!("publish {} {}{}", name(Sort::Topic, 1), text(book, word(2)), if word(3) == 1 { " retain" } else { "" }),
        11 => format!("log {}", text(book, word(1))),
        12 => {
            let shown = percent(u64::from(light::of_level(word(2)) / 100 * 100));
            format!("light {} level {} ({shown}){}", name(Sort::Light, 1), word(2), hold(3))
        }
        kind => format!("effect {kind} {} {} {} {}", word(1), word(2), word(3), word(4)),
    }
}

fn text(book: &Book, number: u32) -> String {
    match book.entry(Sort::Text, number) {
        Some((_, entry)) if entry.words.is_some() => format!("\"{}\"", entry.words.as_deref().unwrap_or("")),
        _ => book.name(Sort::Text, number),
    }
}

/// The light of an effect that sets one: target and parts per million.
pub fn light_of(effect: &[u32], book: &Book) -> Option<(u32, u32)> {
    match effect {
        [0, target, verb, ..] => Some((*target, light::of_verb(book, *verb))),
        [12, target, level, ..] => Some((*target, light::of_level(*level))),
        _ => None,
    }
}

/// What a reason says, for an outcome that has one.
pub fn reason(reason: u32) -> &'static str {
    match reason {
        0 => "",
        1 => "a condition could not be decided, or a step failed (reason 1)",
        2 => "the budget was spent with a step left, or 32 were waiting: steps are lost (reason 2)",
        _ => "a reason that no outcome has",
    }
}

#[cfg(test)]
mod tests {
    use super::{light_of, words};
    use crate::names::Book;

    #[test]
    fn every_kind_has_words_and_so_have_others() {
        for kind in 0..=20 {
            assert!(!words(&[kind, 1, 2, 1, 1], &Book::default()).is_empty());
        }
        assert_eq!(words(&[], &Book::default()), "light light_0 verb_0");
        assert_eq!(words(&[12, 1, 229, 0, 0], &Book::default()), "light light_1 level 229 (50.53 %)");
        assert_eq!(light_of(&[11, 1, 2, 3, 4], &Book::default()), None);
    }
}
