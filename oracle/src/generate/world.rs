//! Snapshots, and clocks that run on, jump back, and pass the week's end.

use super::parts;
use crate::build::{Device, Group, Hcl, Input, Lamp, World};
use crate::random::Random;

const WEEK: u32 = 10_080;

/// The time of the next call.
#[derive(Clone, Debug)]
pub(super) struct Clock {
    pub now: u64,
    week_minute: u32,
    wall: bool,
    sun: (u32, u32),
}

impl Clock {
    pub(super) fn new(random: &mut Random) -> Clock {
        let now = match random.below(10) {
            0 => random.pick([u64::MAX - 10_000, u64::MAX - 1_000, u64::MAX - 1, u64::MAX]),
            1 => (1 << 32) - u64::from(random.below(3_000)),
            2 => random.next() >> random.below(64),
            _ => u64::from(random.below(10_000)),
        };
        let week_minute = random.pick([0, WEEK - 2, WEEK - 1, 1_438, 100, 5_000]);
        let near = week_minute % 1_440;
        let mut turn = || if random.once_in(3) { near } else { random.below(1_440) };
        let sun = (turn(), turn());
        Clock { now, week_minute, wall: !random.once_in(6), sun }
    }

    /// Moves on, mostly by what waits and timers ask for.
    pub(super) fn advance(&mut self, random: &mut Random) {
        let by = match random.below(12) {
            0 => 0,
            1 => 1,
            2..=4 => u64::from(parts::milliseconds(random)),
            5..=8 => u64::from(random.from_to(0, 6)) * 500,
            9 => random.pick([998, 999, 1_000, 1_001]),
            _ => u64::from(random.below(100_000)),
        };
        self.now = match random.below(240) {
            0 => u64::MAX - u64::from(random.below(2_000)),
            1..=8 => self.now.saturating_sub(u64::from(random.below(5_000))),
            9..=12 => u64::from(random.below(3_000)),
            _ => self.now.saturating_add(by),
        };
        self.turn_wall(random);
    }

    fn turn_wall(&mut self, random: &mut Random) {
        let by = match random.below(14) {
            0 | 1 => 0,
            2..=6 => 1,
            7 => random.pick([59, 60, 61, 62]),
            8 => random.below(300),
            9 => WEEK - random.pick([1, 59, 60, 61, 120]),
            10 => random.below(WEEK),
            _ => 0,
        };
        self.week_minute = (self.week_minute + by) % WEEK;
        if random.once_in(5) {
            // Shortly before or after a minute that triggers and ranges use.
            let day = random.pick([0, 0, 6, 6, 1, 3]);
            let minute = random.pick([0, 1, 30, 59, 60, 89, 720, 750, 1_380, 1_439]);
            self.week_minute = (day * 1_440 + minute + WEEK - random.below(3)) % WEEK;
        }
        if random.once_in(if self.wall { 20 } else { 3 }) {
            self.wall = !self.wall;
        }
        if random.once_in(4) {
            let near = self.week_minute % 1_440;
            let mut turn = || match random.bit() {
                0 => (near + random.pick([0, 0, 1, 2, 1_439, 60, 1_380])) % 1_440,
                _ => (near + random.below(125) + 1_440 - 62) % 1_440,
            };
            self.sun = (turn(), turn());
        }
    }

    fn wall(&self) -> Option<(u32, u32)> {
        self.wall.then_some((self.week_minute / 1_440, self.week_minute % 1_440))
    }
}

/// A valid snapshot at the clock's time.
pub(super) fn world(random: &mut Random, clock: &Clock) -> World {
    let mut world = World {
        now: clock.now,
        wall: clock.wall(),
        sun: if random.once_in(5) { None } else { Some(clock.sun) },
        active: random.bit(),
        ..World::default()
    };
    if random.once_in(6) {
        return world;
    }
    for adapter in 0..2 {
        for id in 0..3 {
            push_lamp_and_group(random, &mut world, [adapter, id]);
        }
        for address in 0..2 {
            push_device_and_inputs(random, &mut world, [adapter, address]);
        }
    }
    for target in 0..3 {
        if random.bit() == 1 {
            let (enabled, overridden) = (random.bit(), random.bit());
            world.hcl.push(Hcl { target, enabled, overridden });
        }
    }
    world
}

fn push_lamp_and_group(random: &mut Random, world: &mut World, id: [u32; 2]) {
    if !random.once_in(3) {
        world.lamps.push(Lamp {
            id,
            level: random.maybe(|random| random.pick([0, 1, 2, 3, 254, 255])),
            cct: random.maybe(|random| random.pick([0, 1, 2_700, 65_535])),
            on: random.bit(),
            last_level: random.maybe(|random| random.below(256)),
        });
    }
    if !random.once_in(3) {
        let (any_on, all_off) = (random.bit(), random.bit());
        world.groups.push(Group { id, any_on, all_off, members: random.below(4) });
    }
}

fn push_device_and_inputs(random: &mut Random, world: &mut World, id: [u32; 2]) {
    if !random.once_in(3) {
        world.devices.push(Device { id, online: random.bit() });
    }
    for instance in 0..2 {
        if !random.once_in(3) {
            world.inputs.push(Input {
                id: [id[0], id[1], instance],
                occupied: random.maybe(Random::bit),
                light: random.maybe(|random| random.pick([0, 1, 2, 500, 1_022, 1_023])),
                position: random.maybe(|random| random.below(1_024)),
                age: random.maybe(|random| random.pick([0, 1, 1_000, u32::MAX])),
            });
        }
    }
}
