//! Words that the checker must refuse, or nearly so.

use super::parts;
use super::Profile;
use crate::build::{
    Action, Block, Device, Group, Hcl, Image, Input, Lamp, Rule, Trigger, World,
};
use crate::random::Random;

/// A block that no generated action calls.
const LOGS: u32 = 99;

fn odd_word(random: &mut Random, old: u32) -> u32 {
    match random.below(6) {
        0 => old.wrapping_add(1),
        1 => old.wrapping_sub(1),
        2 => 0,
        3 => random.pick([u32::MAX, 1 << 31, 256, 65_536, 128]),
        4 => random.below(40),
        _ => random.word(),
    }
}

fn change_words(random: &mut Random, words: &mut [u32]) {
    for _ in 0..random.pick([1, 1, 1, 2, 5]) {
        let place = random.below(words.len() as u32) as usize;
        if let Some(word) = words.get_mut(place) {
            *word = odd_word(random, *word);
        }
    }
}

/// Cut off, or with words added.
fn change_length(random: &mut Random, words: &mut Vec<u32>) {
    let len = words.len() as u32;
    let wanted = match random.below(4) {
        0 => random.below(len + 1),
        1 => len.saturating_sub(1),
        2 => len + 1,
        _ => len + random.below(20),
    };
    words.resize(wanted as usize, 0);
}

/// An image near the border of what load accepts, from an accepted one.
pub(super) fn image(random: &mut Random, profile: &Profile, valid: &Image) -> Vec<u32> {
    let mut words = valid.words();
    match random.below(16) {
        0..=3 => change_words(random, &mut words),
        4..=6 => change_reference(random, &mut words),
        7 | 8 => change_trailer(random, &mut words),
        9 => change_length(random, &mut words),
        10 => words = random.some(40, Random::word),
        11 => words = large(random),
        12 => words = doubled_name(random, valid).words(),
        13 => words = crowded(random).words(),
        14 => words = deep(random).words(),
        _ => words = long(random, profile).words(),
    }
    words
}

/// Changes where a list starts or ends, or an index: in a rule, or in an action or
/// condition that points into a table.
fn change_reference(random: &mut Random, words: &mut [u32]) {
    let start = |words: &[u32], table: usize| words[words.len() - 8 + table] as usize;
    let table = random.pick([0, 3, 4, 4, 4]);
    let (first, end) = (start(words, table), start(words, table + 1));
    let size = if table == 0 { 16 } else { 8 };
    let count = (end - first) / size;
    for _ in 0..10 {
        let record = first + size * random.below(count as u32) as usize;
        let place = match (table, words.get(record)) {
            (0, Some(_)) => random.from_to(4, 9),
            (3, Some(0 | 4 | 5 | 8 | 15)) => random.from_to(1, 5),
            (4, Some(3 | 10 | 17 | 24 | 26 | 27 | 28)) => random.from_to(1, 5),
            _ => continue,
        };
        if let Some(word) = words.get_mut(record + place as usize) {
            *word = odd_word(random, *word);
            return;
        }
    }
}

fn change_trailer(random: &mut Random, words: &mut [u32]) {
    let start = words.len().saturating_sub(13);
    change_words(random, &mut words[start..]);
}

/// About 4,096 words: a pool, or anything. Rare, for the scripts are long.
fn large(random: &mut Random) -> Vec<u32> {
    if !random.once_in(8) {
        return vec![0; random.from_to(10, 16) as usize];
    }
    let pool = random.from_to(4_081, 4_085) as usize;
    let mut words = vec![0; pool];
    words.extend([1, 0, 1, 0, 0, 0, 0, 0, 0, 0, 0, 0, 0]);
    words
}

fn doubled_name(random: &mut Random, valid: &Image) -> Image {
    let mut image = valid.clone();
    let name = image.rules.first().map_or(1, |rule| rule.name);
    image.rules.push(Rule::new(name, vec![]));
    if image.rules.len() == 1 || random.bit() == 1 {
        image.rules.push(Rule::new(name, vec![]));
    }
    image
}

/// 64 or 65 rules, blocks or Every slots.
fn crowded(random: &mut Random) -> Image {
    let count = random.pick([64, 65]);
    match random.below(3) {
        0 => Image::of((0..count).map(|name| Rule::new(name, vec![])).collect()),
        1 => Image {
            blocks: (0..count).map(|name| Block { name, actions: vec![] }).collect(),
            ..Image::default()
        },
        _ => {
            let mut rule = Rule::new(1, vec![Action::Log(1)]);
            rule.triggers = vec![Trigger::Every(1_000); count as usize];
            Image::of(vec![rule])
        }
    }
}

/// Blocks that call each other until the depth limit: few steps, many taken actions.
fn deep(random: &mut Random) -> Image {
    let width = random.from_to(2, 5) as usize;
    let mut blocks: Vec<Block> = (0..7)
        .map(|name| Block { name, actions: vec![Action::Call(name + 1); width] })
        .collect();
    blocks.push(Block { name: 7, actions: random.some(1, |_| Action::Log(1)) });
    Image { blocks, ..Image::of(vec![Rule::new(1, vec![Action::Call(0); 2])]) }
}

/// About 2,048 flat steps: repeats of an after, whose copies share its body.
fn long(random: &mut Random, profile: &Profile) -> Image {
    let logs = vec![Action::Log(1); random.from_to(14, 16) as usize];
    let times = random.from_to(16, 17);
    let body = vec![Action::Call(LOGS); 16];
    let actions = vec![Action::Repeat(times, vec![Action::After(5, body)])];
    let mut rules: Vec<Rule> = (10..18).map(|name| Rule::new(name, actions.clone())).collect();
    rules.push(Rule::new(1, parts::actions(random, profile, 1)));
    Image { blocks: vec![Block { name: LOGS, actions: logs }], ..Image::of(rules) }
}

/// A snapshot near the border of what tick and run accept.
pub(super) fn snapshot(random: &mut Random, valid: &World) -> Vec<u32> {
    let mut words = valid.words();
    match random.below(8) {
        0..=3 => change_words(random, &mut words),
        4 => change_length(random, &mut words),
        5 => words = random.some(20, Random::word),
        6 => words = doubled_row(random, valid).words(),
        7 if random.once_in(4) => words = many_rows(random, valid.now).words(),
        _ => change_words(random, &mut words[..14]),
    }
    words
}

/// As many rows of one table as it may have, or one more.
fn many_rows(random: &mut Random, now: u64) -> World {
    let mut world = World::at(now);
    let more = random.bit();
    match random.below(5) {
        0 => world.lamps = rows(256 + more, |id| Lamp { id: [1, id], ..Lamp::default() }),
        1 => world.groups = rows(64 + more, |id| Group { id: [0, id], ..Group::default() }),
        2 => world.devices = rows(64 + more, |id| Device { id: [id, 0], online: 1 }),
        3 => world.inputs = rows(128 + more, |id| Input { id: [0, id, 1], ..Input::default() }),
        _ => world.hcl = rows(64 + more, |target| Hcl { target, ..Hcl::default() }),
    }
    world
}

fn rows<T>(count: u32, make: impl Fn(u32) -> T) -> Vec<T> {
    (0..count).map(make).collect()
}

fn doubled_row(random: &mut Random, valid: &World) -> World {
    let mut world = valid.clone();
    match random.below(5) {
        0 => world.lamps.extend(world.lamps.first().copied()),
        1 => world.groups.extend(world.groups.first().copied()),
        2 => world.devices.extend(world.devices.first().copied()),
        3 => world.inputs.extend(world.inputs.first().copied()),
        _ => world.hcl.extend(world.hcl.first().copied()),
    }
    world
}
