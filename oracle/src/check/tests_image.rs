//! Refusals 10 to 15 at their boundaries, on words written by hand.

use super::image_refusal;
use crate::build::{Block, Image, Rule};

const LIMITS: [u32; 5] = [256, 8, 255, 255, 255];

/// An image from the words of its eight tables.
pub(super) fn raw(tables: [&[u32]; 8]) -> Vec<u32> {
    let mut words = Vec::new();
    let mut trailer = LIMITS.to_vec();
    for table in tables {
        trailer.push(words.len() as u32);
        words.extend(table);
    }
    words.extend(trailer);
    words
}

/// An image whose only record stands in one table, beside one value, one bound,
/// one condition and one action that others may point to.
fn with_record(table: usize, record: &[u32]) -> Vec<u32> {
    let padded = |words: usize| {
        let mut full = record.to_vec();
        full.resize(words, 0);
        full
    };
    let mut tables: [Vec<u32>; 8] = Default::default();
    for other in [3, 4, 5, 6] {
        tables[other] = vec![0; 8];
    }
    tables[3][0] = 14;
    tables[4] = vec![21, 0, 0, 0, 0, 0, 0, 0];
    tables[table] = match table {
        0 => padded(16),
        7 => padded(1),
        _ => padded(8),
    };
    let parts: Vec<&[u32]> = tables.iter().map(Vec::as_slice).collect();
    raw([parts[0], parts[1], parts[2], parts[3], parts[4], parts[5], parts[6], parts[7]])
}

fn refusal_of(table: usize, record: &[u32]) -> Option<u32> {
    image_refusal(&with_record(table, record))
}

#[test]
fn number_10_is_about_length() {
    assert_eq!(image_refusal(&[]), Some(10));
    assert_eq!(image_refusal(&[0; 12]), Some(10));
    assert_eq!(image_refusal(&[0; 13]), Some(11));
    let pool = [0; 4_096 - 13];
    assert_eq!(image_refusal(&raw([&[], &[], &[], &[], &[], &[], &[], &pool])), None);
    let pool = [0; 4_097 - 13];
    assert_eq!(image_refusal(&raw([&[], &[], &[], &[], &[], &[], &[], &pool])), Some(10));
}

#[test]
fn number_11_is_about_the_five_limits() {
    let ranges = [(1, 256), (0, 8), (1, 255), (0, 255), (0, 255)];
    for (place, (low, high)) in ranges.into_iter().enumerate() {
        for word in [0, low, high, high + 1, u32::MAX] {
            let mut words = raw([&[]; 8]);
            words[place] = word;
            let wanted = if word < low || word > high { Some(11) } else { None };
            assert_eq!(image_refusal(&words), wanted, "limit {place} of {word}");
        }
    }
}

#[test]
fn number_12_is_about_places() {
    let action = [21, 0, 0, 0, 0, 0, 0, 0];
    let good = raw([&[], &[], &[], &[], &action, &[], &[], &[]]);
    assert_eq!(image_refusal(&good), None);
    let starts = good.len() - 8;
    for (table, word) in [(0, 1), (0, 8), (4, 1), (4, 9), (5, 7), (5, 9), (7, 9), (1, u32::MAX)] {
        let mut words = good.clone();
        words[starts + table] = word;
        assert_eq!(image_refusal(&words), Some(12), "table {table} at {word}");
    }
    assert_eq!(image_refusal(&raw([&[0; 8], &[], &[], &[], &[], &[], &[], &[]])), Some(12));
    assert_eq!(image_refusal(&raw([&[0; 16], &[], &[], &[], &[], &[], &[], &[]])), None);
    assert_eq!(image_refusal(&raw([&[], &[], &[], &[], &[], &[], &[0; 4], &[]])), Some(12));
}

/// The words behind the kind that each action kind uses (SEMANTICS.md).
const ACTION_FIELDS: [usize; 29] = [
    4, 4, 2, 2, 1, 1, 1, 1, 3, 3, 3, 3, 3, 2, 2, 1, 4, 2, 1, 1, 3, 1, 1, 1, 3, 1, 3, 5, 3,
];
const CONDITION_FIELDS: [usize; 16] = [2, 1, 1, 3, 4, 4, 3, 4, 5, 2, 2, 1, 2, 1, 0, 4];
const TRIGGER_FIELDS: [usize; 5] = [1, 1, 3, 2, 0];
const VALUE_FIELDS: [usize; 3] = [2, 4, 5];
const BOUND_FIELDS: [usize; 2] = [2, 2];

#[test]
fn number_13_knows_all_kinds_and_their_unused_words() {
    let tables: [(usize, &[usize]); 5] = [
        (2, &TRIGGER_FIELDS),
        (3, &CONDITION_FIELDS),
        (4, &ACTION_FIELDS),
        (5, &VALUE_FIELDS),
        (6, &BOUND_FIELDS),
    ];
    for (table, counts) in tables {
        for (kind, count) in counts.iter().enumerate() {
            let mut record = vec![kind as u32; 1];
            record.resize(8, 0);
            assert_eq!(refusal_of(table, &record), None, "{table} {kind}");
            for word in 1 + count..8 {
                record[word] = 1;
                assert_eq!(refusal_of(table, &record), Some(13), "{table} {kind} {word}");
                record[word] = 0;
            }
        }
        for kind in [counts.len() as u32, u32::MAX] {
            assert_eq!(refusal_of(table, &[kind]), Some(13));
        }
    }
}

/// Table, kind, word, highest number of every bounded field.
const BOUNDED: &[(usize, u32, usize, u32)] = &[
    (2, 2, 1, 23), (2, 2, 2, 59), (2, 2, 3, 127), (2, 3, 1, 1),
    (3, 1, 1, 127), (3, 2, 1, 1), (3, 3, 1, 255), (3, 3, 2, 65_535), (3, 3, 3, 1),
    (3, 4, 1, 255), (3, 4, 2, 65_535), (3, 4, 3, 5), (3, 5, 1, 255), (3, 5, 2, 65_535), (3, 5, 3, 5),
    (3, 6, 1, 255), (3, 6, 2, 65_535), (3, 6, 3, 1),
    (3, 7, 1, 255), (3, 7, 2, 255), (3, 7, 3, 255), (3, 7, 4, 1),
    (3, 8, 1, 255), (3, 8, 2, 255), (3, 8, 3, 255), (3, 8, 4, 1),
    (3, 9, 2, 1), (3, 10, 1, 255), (3, 10, 2, 255), (3, 15, 2, 5), (3, 15, 3, 1),
    (4, 0, 2, 2), (4, 0, 3, 2), (4, 1, 1, 1), (4, 1, 2, 255), (4, 1, 3, 1), (4, 2, 1, 1), (4, 2, 2, 255),
    (4, 8, 1, 255), (4, 8, 2, 255), (4, 8, 3, 255), (4, 9, 1, 255), (4, 9, 2, 255), (4, 9, 3, 255),
    (4, 10, 1, 255), (4, 10, 2, 255), (4, 11, 1, 255), (4, 11, 2, 255), (4, 11, 3, 255),
    (4, 12, 1, 255), (4, 12, 2, 255), (4, 12, 3, 255), (4, 16, 2, 1), (4, 20, 3, 1), (4, 26, 1, 255),
    (4, 28, 2, 2),
    (6, 0, 1, 23), (6, 0, 2, 59), (6, 1, 1, 1),
];

/// Table, kind, word of every free field.
const FREE: &[(usize, u32, usize)] = &[
    (2, 0, 1), (2, 1, 1), (2, 3, 2), (3, 9, 1), (3, 11, 1), (3, 12, 1), (3, 12, 2), (3, 13, 1), (3, 15, 1),
    (4, 0, 1), (4, 0, 4), (4, 4, 1), (4, 5, 1), (4, 6, 1), (4, 7, 1), (4, 13, 1), (4, 13, 2), (4, 14, 1),
    (4, 14, 2), (4, 15, 1), (4, 16, 1), (4, 16, 3), (4, 16, 4), (4, 17, 1), (4, 18, 1), (4, 19, 1),
    (4, 20, 1), (4, 20, 2), (4, 21, 1), (4, 22, 1), (4, 23, 1), (4, 24, 1), (4, 25, 1),
    (4, 28, 1),
    (5, 0, 1), (5, 0, 2), (5, 2, 5), (6, 1, 2),
];

#[test]
fn number_13_holds_each_field_to_its_range() {
    for (table, kind, word, most) in BOUNDED {
        let mut record = vec![*kind, 0, 0, 0, 0, 0, 0, 0];
        record[*word] = *most;
        assert_eq!(refusal_of(*table, &record), None, "{table} {kind} {word}");
        for over in [most + 1, u32::MAX] {
            record[*word] = over;
            assert_eq!(refusal_of(*table, &record), Some(13), "{table} {kind} {word}");
        }
    }
    for (table, kind, word) in FREE {
        let mut record = vec![*kind, 0, 0, 0, 0, 0, 0, 0];
        record[*word] = u32::MAX;
        assert_eq!(refusal_of(*table, &record), None, "{table} {kind} {word}");
    }
}

#[test]
fn number_13_for_void_words() {
    assert_eq!(refusal_of(4, &[0, 0, 0, 1, 1]), Some(13));
    assert_eq!(refusal_of(4, &[0, 0, 0, 2, 1]), Some(13));
    assert_eq!(refusal_of(4, &[1, 1, 1, 0, 0]), Some(13));
    assert_eq!(refusal_of(4, &[1, 0, 1, 0, 1]), Some(13));
    assert_eq!(refusal_of(4, &[1, 0, 1, 1, u32::MAX]), None);
    assert_eq!(refusal_of(4, &[1, 1, 0, 1, 7]), None);
    assert_eq!(refusal_of(4, &[2, 1, 1]), Some(13));
}

#[test]
fn number_13_for_rules_blocks_and_pool() {
    assert_eq!(refusal_of(0, &[9, 2]), Some(13));
    assert_eq!(refusal_of(0, &[9, 1, 2]), Some(13));
    assert_eq!(refusal_of(0, &[u32::MAX, 1, 1, u32::MAX]), None);
    for word in 10..16 {
        let mut rule = [0; 16];
        rule[word] = 1;
        assert_eq!(refusal_of(0, &rule), Some(13));
    }
    assert_eq!(refusal_of(1, &[u32::MAX]), None);
    assert_eq!(refusal_of(1, &[0, 0, 0, 1]), Some(13));
    assert_eq!(refusal_of(1, &[0, 0, 0, 0, 0, 0, 0, 1]), Some(13));
    assert_eq!(refusal_of(7, &[255]), None);
    assert_eq!(refusal_of(7, &[256]), Some(13));
}

#[test]
fn number_13_for_the_references_of_readings() {
    for code in 0..23_u32 {
        let most: [u32; 3] = match code {
            0..=6 => [255, 65_535, 0],
            7..=10 => [255, 255, 255],
            18 => [u32::MAX, 0, 0],
            _ => [0, 0, 0],
        };
        for kind in [1, 2] {
            let [a, b, c] = most;
            assert_eq!(refusal_of(5, &[kind, code, a, b, c]), None, "reading {code}");
            for (word, most) in most.into_iter().enumerate() {
                let mut record = [kind, code, 0, 0, 0, 0, 0, 0];
                record[2 + word] = most.wrapping_add(1);
                let wanted = if most == u32::MAX { None } else { Some(13) };
                assert_eq!(refusal_of(5, &record), wanted, "reading {code} word {word}");
            }
        }
    }
    assert_eq!(refusal_of(5, &[1, 23]), Some(13));
    assert_eq!(refusal_of(5, &[2, 23]), Some(13));
    assert_eq!(refusal_of(5, &[1, 11, 0, 0, 0, 1]), Some(13));
}

#[test]
fn number_14_for_indices() {
    for (table, record, word) in [
        (3, [0, 0, 0, 0, 0, 0], 1),
        (3, [0, 0, 0, 0, 0, 0], 2),
        (3, [4, 0, 0, 0, 0, 0], 4),
        (3, [5, 0, 0, 0, 0, 0], 4),
        (3, [8, 0, 0, 0, 0, 0], 5),
        (3, [15, 0, 0, 0, 0, 0], 4),
        (4, [10, 0, 0, 0, 0, 0], 3),
        (4, [17, 0, 0, 0, 0, 0], 2),
        (4, [28, 0, 0, 0, 0, 0], 3),
        (4, [27, 0, 0, 0, 0, 0], 1),
    ] {
        for index in [1, u32::MAX] {
            let mut record = record;
            record[word] = index;
            assert_eq!(refusal_of(table, &record), Some(14), "{record:?}");
        }
    }
    // A text operand is a number, no index.
    assert_eq!(refusal_of(3, &[15, 0, 0, 1, u32::MAX]), None);
}

#[test]
fn number_14_for_lists() {
    // Rule lists: triggers (none), conditions (one), actions (one).
    for (word, size) in [(4, 0), (6, 1), (8, 1)] {
        for (first, count, inside) in [
            (size, 0, true),
            (size + 1, 0, false),
            (0, size, true),
            (0, size + 1, false),
            (1, u32::MAX, false),
            (u32::MAX, u32::MAX, false),
        ] {
            let mut rule = [0; 16];
            rule[word] = first;
            rule[word + 1] = count;
            let wanted = if inside { None } else { Some(14) };
            assert_eq!(refusal_of(0, &rule), wanted, "{word} {first} {count}");
        }
    }
    assert_eq!(refusal_of(1, &[0, 1, 0]), None);
    assert_eq!(refusal_of(1, &[0, 2, 0]), Some(14));
    // Cycle: a count over 16 is 13, a pool list outside is 14.
    assert_eq!(refusal_of(4, &[3, 0, 17]), Some(13));
    assert_eq!(refusal_of(4, &[3, 0, 16]), Some(14));
    assert_eq!(refusal_of(4, &[3, 1, 0]), Some(14));
}

#[test]
fn number_14_for_nested_lists() {
    for (kind, first) in [(24, 2), (26, 2), (27, 2), (27, 4)] {
        let nested = |start: u32, count: u32| {
            let mut records = vec![kind, 0, 0, 0, 0, 0, 0, 0, 21, 0, 0, 0, 0, 0, 0, 0];
            records[first] = start;
            records[first + 1] = count;
            let condition = [14, 0, 0, 0, 0, 0, 0, 0];
            image_refusal(&raw([&[], &[], &[], &condition, &records, &[], &[], &[]]))
        };
        assert_eq!(nested(1, 1), None);
        assert_eq!(nested(0, 1), Some(14));
        assert_eq!(nested(0, 0), None);
        assert_eq!(nested(2, 0), None);
        assert_eq!(nested(3, 0), Some(14));
        assert_eq!(nested(1, 2), Some(14));
    }
}

#[test]
fn number_13_comes_before_14_in_every_table() {
    // An index outside in the conditions, a range broken in the pool behind them.
    let condition = [4, 0, 0, 0, 7, 0, 0, 0];
    assert_eq!(image_refusal(&raw([&[], &[], &[], &condition, &[], &[], &[], &[256]])), Some(13));
    assert_eq!(image_refusal(&raw([&[], &[], &[], &condition, &[], &[], &[], &[255]])), Some(14));
}

#[test]
fn number_15_is_about_rules_only() {
    let two = |names: [u32; 2]| Image::of(names.map(|name| Rule::new(name, vec![])).to_vec());
    assert_eq!(image_refusal(&two([3, 3]).words()), Some(15));
    assert_eq!(image_refusal(&two([3, 4]).words()), None);
    let block = Block { name: 1, actions: vec![] };
    let blocks = Image { blocks: vec![block.clone(), block], ..Image::default() };
    assert_eq!(image_refusal(&blocks.words()), None);
}
