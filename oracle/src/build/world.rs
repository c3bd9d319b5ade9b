//! Snapshots as values.

use super::pair;

/// A lamp row. Missing values are None.
#[derive(Clone, Copy, Debug, Default, PartialEq, Eq)]
pub struct Lamp {
    pub id: [u32; 2],
    pub level: Option<u32>,
    pub cct: Option<u32>,
    pub on: u32,
    pub last_level: Option<u32>,
}

#[derive(Clone, Copy, Debug, Default, PartialEq, Eq)]
pub struct Group {
    pub id: [u32; 2],
    pub any_on: u32,
    pub all_off: u32,
    pub members: u32,
}

#[derive(Clone, Copy, Debug, Default, PartialEq, Eq)]
pub struct Device {
    pub id: [u32; 2],
    pub online: u32,
}

#[derive(Clone, Copy, Debug, Default, PartialEq, Eq)]
pub struct Input {
    pub id: [u32; 3],
    pub occupied: Option<u32>,
    pub light: Option<u32>,
    pub position: Option<u32>,
    pub age: Option<u32>,
}

#[derive(Clone, Copy, Debug, Default, PartialEq, Eq)]
pub struct Hcl {
    pub target: u32,
    pub enabled: u32,
    pub overridden: u32,
}

/// A snapshot. The wall clock is weekday and minute, the sun sunrise and sunset.
#[derive(Clone, Debug, Default, PartialEq, Eq)]
pub struct World {
    pub now: u64,
    pub wall: Option<(u32, u32)>,
    pub sun: Option<(u32, u32)>,
    pub active: u32,
    pub lamps: Vec<Lamp>,
    pub groups: Vec<Group>,
    pub devices: Vec<Device>,
    pub inputs: Vec<Input>,
    pub hcl: Vec<Hcl>,
}

impl World {
    /// A world without clock, sun and rows.
    pub fn at(now: u64) -> World {
        World { now, ..World::default() }
    }

    pub fn words(&self) -> Vec<u32> {
        let mut words = pair(self.now).to_vec();
        words.extend(present_pair(self.wall));
        words.extend(present_pair(self.sun));
        words.push(self.active);
        let counts = [
            self.lamps.len(),
            self.groups.len(),
            self.devices.len(),
            self.inputs.len(),
            self.hcl.len(),
        ];
        words.extend(counts.map(|count| count as u32));
        self.push_rows(&mut words);
        words
    }

    fn push_rows(&self, words: &mut Vec<u32>) {
        for lamp in &self.lamps {
            words.extend(lamp.id);
            words.extend(maybe(lamp.level));
            words.extend(maybe(lamp.cct));
            words.push(lamp.on);
            words.extend(maybe(lamp.last_level));
        }
        for group in &self.groups {
            words.extend(group.id);
            words.extend([group.any_on, group.all_off, group.members]);
        }
        for device in &self.devices {
            words.extend(device.id);
            words.push(device.online);
        }
        for input in &self.inputs {
            words.extend(input.id);
            for value in [input.occupied, input.light, input.position, input.age] {
                words.extend(maybe(value));
            }
        }
        for row in &self.hcl {
            words.extend([row.target, row.enabled, row.overridden]);
        }
    }
}

fn maybe(value: Option<u32>) -> [u32; 2] {
    value.map_or([0, 0], |value| [1, value])
}

fn present_pair(values: Option<(u32, u32)>) -> [u32; 3] {
    values.map_or([0, 0, 0], |(first, second)| [1, first, second])
}
