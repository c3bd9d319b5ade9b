//! Ours, not one of the eleven files: the wheel with one test more, for request 5 of document 02.
//!
//! Where a tick's clock was set back by 1 to 120 minutes, its wall part starts nothing, counts nothing and remembers the minute. The
//! published wall part does just that where the minute is the remembered one. So the variant first remembers the minute, and then the
//! published wheel runs as it is. Nothing before the wall part reads the remembered minute.

use super::super::input::EngineInput;
use super::super::outcome::ActivationOutcome;
use super::super::world::{WallTime, WorldSnapshot};
use super::super::Engine;

const WEEK_MINUTES: u32 = 10_080;
const SET_BACK_MINUTES: u32 = 120;

fn week_minute(wall: WallTime) -> u32 {
    u32::from(wall.weekday) * 1_440 + u32::from(wall.minutes_of_day)
}

impl Engine {
    /// How many minutes a tick's clock would be behind the remembered minute, round the week. None without a set, a clock or a
    /// remembered minute.
    #[must_use]
    pub fn minutes_behind(&self, world: &WorldSnapshot) -> Option<u32> {
        let (Some(_), Some(before), Some(wall)) = (&self.rules, self.vol.prev_week_min, world.wall) else {
            return None;
        };
        Some((before + WEEK_MINUTES - week_minute(wall)) % WEEK_MINUTES)
    }

    /// Whether the input is a tick whose clock was set back.
    #[must_use]
    pub fn is_set_back(&self, input: &EngineInput<'_>, world: &WorldSnapshot) -> bool {
        let behind = self.minutes_behind(world).unwrap_or(0);
        matches!(input, EngineInput::Tick) && (1..=SET_BACK_MINUTES).contains(&behind)
    }

    /// `handle` with the test.
    pub fn handle_set_back(&mut self, input: EngineInput<'_>, world: &WorldSnapshot) -> Vec<ActivationOutcome> {
        if self.is_set_back(&input, world) {
            self.vol.prev_week_min = world.wall.map(week_minute);
        }
        self.handle(input, world)
    }
}
