//! Random calls of the numbering: sets that fit, sets with one word changed, and sets of wrong sizes.

use oracle::random::Random;

use super::set::Set;

const RECORD: usize = 8;
const KINDS: u32 = 29;
/// What an image has room for beside three actions.
const MOST_DATA: usize = 4_043;

/// A set, the number of a list, and how many words are lent for the answer.
pub fn call(seed: u64) -> (Set, u32, usize) {
    let mut random = Random::new(seed);
    let mut set = fitting(&mut random);
    if random.once_in(3) {
        change(&mut random, &mut set);
    }
    if random.once_in(8) {
        resize(&mut random, &mut set);
    }
    let k = if random.once_in(8) { random.word() } else { random.below(620) };
    (set, k, random.below(7) as usize)
}

/// A set that nothing is wrong with.
fn fitting(random: &mut Random) -> Set {
    let (values, pool) = (1 + random.below(4), 1 + random.below(20));
    let mut set = Set { pool: (0..pool).map(|_| random.below(256)).collect(), ..Set::default() };
    for _ in 0..values {
        set.values.extend(value(random));
    }
    for _ in 0..=random.below(8) {
        set.actions.extend(action(random, values, pool));
    }
    set
}

fn value(random: &mut Random) -> [u32; RECORD] {
    match random.below(3) {
        0 => [0, random.word(), random.word(), 0, 0, 0, 0, 0],
        1 => [1, random.below(7), random.below(256), random.below(65_536), 0, 0, 0, 0],
        _ => [2, 18, random.word(), 0, 0, random.word(), 0, 0],
    }
}

/// A record of any kind without lists, now and then of one with them.
fn action(random: &mut Random, values: u32, pool: u32) -> [u32; RECORD] {
    let kind = random.below(KINDS);
    let (value, byte) = (random.below(values), random.below(256));
    let free = [kind, random.word(), 0, 0, 0, 0, 0, 0];
    let [a, b] = [random.word(), random.word()];
    match kind {
        0 => [0, a, random.below(3), 1 + random.below(2), 0, 0, 0, 0],
        1 => [1, 0, byte, 1, a, 0, 0, 0],
        2 => [2, random.bit(), 0, 0, 0, 0, 0, 0],
        3 => {
            let first = random.below(pool);
            [3, first, random.below((pool - first).min(16) + 1), 0, 0, 0, 0, 0]
        }
        8 | 9 | 11 | 12 => [kind, byte, random.below(256), random.below(256), 0, 0, 0, 0],
        10 => [10, byte, random.below(256), value, 0, 0, 0, 0],
        13 | 14 => [kind, a, b, 0, 0, 0, 0, 0],
        16 => [16, a, random.bit(), b, random.word(), 0, 0, 0],
        17 => [17, a, value, 0, 0, 0, 0, 0],
        20 => [20, a, b, random.bit(), 0, 0, 0, 0],
        24 | 26 | 27 if !random.once_in(4) => [21, a, 0, 0, 0, 0, 0, 0],
        24 | 26 | 27 => [kind, 0, 0, 0, 0, 0, 0, 0],
        28 => [28, a, random.below(3), value, 0, 0, 0, 0],
        _ => free,
    }
}

/// One word of the set becomes another.
fn change(random: &mut Random, set: &mut Set) {
    let part = [&mut set.actions, &mut set.values, &mut set.pool].into_iter().nth(random.below(3) as usize);
    let Some(part) = part.filter(|part| !part.is_empty()) else {
        return;
    };
    let place = random.below(part.len() as u32) as usize;
    part[place] = match random.below(4) {
        0 => random.word(),
        1 => part[place].wrapping_add(1),
        2 => random.below(300),
        _ => 0,
    };
}

/// A word more or less, nothing, or more than an image holds.
fn resize(random: &mut Random, set: &mut Set) {
    let data = set.values.len() + random.below(3) as usize;
    match random.below(6) {
        0 => set.actions.truncate(random.below(set.actions.len() as u32 + 1) as usize),
        1 => set.actions.extend(set.actions.clone()),
        2 => set.values.truncate(random.below(set.values.len() as u32 + 1) as usize),
        3 => set.pool.truncate(random.below(set.pool.len() as u32 + 1) as usize),
        4 => set.pool.resize(MOST_DATA + 1 - data.min(MOST_DATA), 0),
        _ => set.actions.clear(),
    }
}
