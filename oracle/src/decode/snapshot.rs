use dali2rust_rules_model::LightTarget;
use dali2rust_rules_runtime::runtime::engine::{
    DeviceState, GroupState, HclTargetState, InputState, LampState, SunTimes, WallTime,
    WorldSnapshot,
};

use super::{bit, byte, half, pair};

/// Words before the rows.
const HEAD_WORDS: usize = 14;
/// Words a row: lamps, groups, devices, inputs, hcl rows.
const ROW_WORDS: [usize; 5] = [9, 5, 3, 11, 3];

/// The world that a snapshot describes.
#[must_use]
pub fn world(snapshot: &[u32]) -> WorldSnapshot {
    let head: [u32; HEAD_WORDS] =
        std::array::from_fn(|at| snapshot.get(at).copied().unwrap_or(0));
    let [now_low, now_high, wall, weekday, minute, sun, sunrise, sunset, active, ..] = head;
    let mut rest = snapshot.get(HEAD_WORDS..).unwrap_or(&[]);
    let mut rows = |table: usize| {
        let words = head[9 + table] as usize * ROW_WORDS[table];
        let (rows, left) = rest.split_at(words.min(rest.len()));
        rest = left;
        rows.chunks_exact(ROW_WORDS[table])
    };
    WorldSnapshot {
        now_ms: pair(now_low, now_high),
        wall: bit(wall).then(|| WallTime {
            minutes_of_day: half(minute),
            weekday: byte(weekday),
        }),
        sun: bit(sun).then(|| SunTimes {
            sunrise_min: half(sunrise),
            sunset_min: half(sunset),
        }),
        controller_active: bit(active),
        lamps: rows(0).map(lamp).collect(),
        groups: rows(1).map(group).collect(),
        devices: rows(2).map(device).collect(),
        inputs: rows(3).map(input).collect(),
        hcl: rows(4).map(hcl).collect(),
        hcl_schedules: Vec::new(),
    }
}

/// A present word and a value.
fn present(row: &[u32], at: usize) -> Option<u32> {
    bit(row[at]).then(|| row[at + 1])
}

fn lamp(row: &[u32]) -> LampState {
    LampState {
        adapter_id: byte(row[0]),
        id: half(row[1]),
        level: present(row, 2).map(byte),
        cct_kelvin: present(row, 4).map(half),
        is_on: bit(row[6]),
        last_level: present(row, 7).map(byte),
        bound: true,
    }
}

fn group(row: &[u32]) -> GroupState {
    GroupState {
        adapter_id: byte(row[0]),
        id: half(row[1]),
        any_on: bit(row[2]),
        all_off: bit(row[3]),
        member_count: byte(row[4]),
    }
}

fn device(row: &[u32]) -> DeviceState {
    DeviceState {
        adapter_id: byte(row[0]),
        short_address: byte(row[1]),
        online: bit(row[2]),
    }
}

fn input(row: &[u32]) -> InputState {
    InputState {
        adapter_id: byte(row[0]),
        short_address: byte(row[1]),
        instance_number: byte(row[2]),
        instance_type: None,
        occupied: present(row, 3).map(bit),
        light: present(row, 5).map(half),
        position: present(row, 7).map(half),
        last_event_age_ms: present(row, 9),
    }
}

fn hcl(row: &[u32]) -> HclTargetState {
    HclTargetState {
        target: LightTarget::numbered(row[0]),
        enabled: bit(row[1]),
        overridden: bit(row[2]),
    }
}
