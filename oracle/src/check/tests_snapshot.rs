//! Each refusal of a snapshot at its boundaries.

use super::snapshot_refusal;
use crate::build::{Device, Group, Hcl, Input, Lamp, World};

const ROW_WORDS: [usize; 5] = [9, 5, 3, 11, 3];
const MOST: [usize; 5] = [256, 64, 64, 128, 64];

/// A header with these counts, and this many words behind it.
fn counted(counts: [u32; 5], rows: usize) -> Vec<u32> {
    let mut words = vec![0; 9];
    words.extend(counts);
    words.resize(14 + rows, 0);
    words
}

#[test]
fn number_20_is_about_length() {
    assert_eq!(snapshot_refusal(&[]), Some(20));
    assert_eq!(snapshot_refusal(&[0; 13]), Some(20));
    assert_eq!(snapshot_refusal(&[0; 14]), None);
    assert_eq!(snapshot_refusal(&[0; 15]), Some(20));
    for (table, words) in ROW_WORDS.into_iter().enumerate() {
        let mut counts = [0; 5];
        counts[table] = 1;
        assert_eq!(snapshot_refusal(&counted(counts, words)), None);
        assert_eq!(snapshot_refusal(&counted(counts, words - 1)), Some(20));
        assert_eq!(snapshot_refusal(&counted(counts, words + 1)), Some(20));
    }
    // Sums do not wrap: 9 * 0x38e38e39 is 1 past 2^32.
    assert_eq!(snapshot_refusal(&counted([0x38e3_8e39, 0, 0, 0, 0], 1)), Some(20));
    assert_eq!(snapshot_refusal(&counted([u32::MAX; 5], 0)), Some(20));
}

#[test]
fn number_20_comes_before_21() {
    let mut words = vec![9; 14];
    assert_eq!(snapshot_refusal(&words), Some(20));
    words[9..].fill(0);
    assert_eq!(snapshot_refusal(&words), Some(21));
}

/// A world with as many distinct rows in one table as asked for.
fn rows(table: usize, count: usize) -> World {
    let mut world = World::default();
    for n in 0..count as u32 {
        match table {
            0 => world.lamps.push(Lamp { id: [0, n], ..Lamp::default() }),
            1 => world.groups.push(Group { id: [0, n], ..Group::default() }),
            2 => world.devices.push(Device { id: [0, n], ..Device::default() }),
            3 => world.inputs.push(Input { id: [0, 0, n], ..Input::default() }),
            _ => world.hcl.push(Hcl { target: n, ..Hcl::default() }),
        }
    }
    world
}

#[test]
fn number_21_for_counts() {
    for (table, most) in MOST.into_iter().enumerate() {
        assert_eq!(snapshot_refusal(&rows(table, most).words()), None);
        assert_eq!(snapshot_refusal(&rows(table, most + 1).words()), Some(21));
    }
}

#[test]
fn number_21_for_the_header() {
    let header = |at: usize, words: &[u32]| {
        let mut all = vec![0; 14];
        all[at..at + words.len()].copy_from_slice(words);
        snapshot_refusal(&all)
    };
    assert_eq!(header(0, &[u32::MAX, u32::MAX]), None);
    assert_eq!(header(2, &[1, 6, 1_439]), None);
    assert_eq!(header(2, &[1, 7, 0]), Some(21));
    assert_eq!(header(2, &[1, 0, 1_440]), Some(21));
    assert_eq!(header(2, &[0, 1, 0]), Some(21));
    assert_eq!(header(2, &[0, 0, 1]), Some(21));
    assert_eq!(header(2, &[2, 0, 0]), Some(21));
    assert_eq!(header(5, &[1, 1_439, 1_439]), None);
    assert_eq!(header(5, &[1, 1_440, 0]), Some(21));
    assert_eq!(header(5, &[1, 0, 1_440]), Some(21));
    assert_eq!(header(5, &[0, 1, 0]), Some(21));
    assert_eq!(header(5, &[0, 0, 1]), Some(21));
    assert_eq!(header(5, &[2, 0, 0]), Some(21));
    assert_eq!(header(8, &[1]), None);
    assert_eq!(header(8, &[2]), Some(21));
}

/// The highest number of each word of a row; a present mark is written as 1 and
/// its value's bound follows.
const BOUNDS: [&[u32]; 5] = [
    &[255, 65_535, 1, 255, 1, 65_535, 1, 1, 255],
    &[255, 65_535, 1, 1, 255],
    &[255, 255, 1],
    &[255, 255, 255, 1, 1, 1, 1_023, 1, 1_023, 1, u32::MAX],
    &[u32::MAX, 1, 1],
];
/// Where the present marks stand in each row.
const MARKS: [&[usize]; 5] = [&[2, 4, 7], &[], &[], &[3, 5, 7, 9], &[]];

#[test]
fn number_21_for_every_word_of_every_row() {
    for (table, bounds) in BOUNDS.into_iter().enumerate() {
        let mut counts = [0; 5];
        counts[table] = 1;
        let full = [counted(counts, 0), bounds.to_vec()].concat();
        assert_eq!(snapshot_refusal(&full), None);
        for (word, most) in bounds.iter().enumerate().filter(|(_, most)| **most != u32::MAX) {
            let mut words = full.clone();
            words[14 + word] = most + 1;
            assert_eq!(snapshot_refusal(&words), Some(21), "table {table} word {word}");
        }
        for mark in MARKS[table] {
            let mut words = full.clone();
            words[14 + mark] = 0;
            assert_eq!(snapshot_refusal(&words), Some(21), "table {table} mark {mark}");
            words[15 + mark] = 0;
            assert_eq!(snapshot_refusal(&words), None);
        }
    }
}

#[test]
fn number_22_is_about_addresses() {
    for table in 0..5 {
        let mut world = rows(table, 3);
        assert_eq!(snapshot_refusal(&world.words()), None);
        let doubled = rows(table, 1);
        world.lamps.extend(doubled.lamps);
        world.groups.extend(doubled.groups);
        world.devices.extend(doubled.devices);
        world.inputs.extend(doubled.inputs);
        world.hcl.extend(doubled.hcl);
        assert_eq!(snapshot_refusal(&world.words()), Some(22), "table {table}");
    }
}

#[test]
fn number_22_compares_the_whole_address_within_one_table() {
    let mut world = World::default();
    world.lamps = vec![Lamp { id: [1, 2], ..Lamp::default() }, Lamp { id: [2, 1], ..Lamp::default() }];
    world.groups = vec![Group { id: [1, 2], ..Group::default() }];
    world.inputs = vec![
        Input { id: [1, 2, 3], ..Input::default() },
        Input { id: [1, 2, 4], light: Some(5), ..Input::default() },
    ];
    assert_eq!(snapshot_refusal(&world.words()), None);
    world.inputs[1].id = [1, 2, 3];
    assert_eq!(snapshot_refusal(&world.words()), Some(22));
}

#[test]
fn number_21_comes_before_22() {
    let mut world = rows(0, 1);
    world.lamps.push(world.lamps[0]);
    world.hcl.push(Hcl { target: 0, enabled: 2, overridden: 0 });
    assert_eq!(snapshot_refusal(&world.words()), Some(21));
}
