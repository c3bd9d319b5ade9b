//! What is done with sets that load accepts for their shared bodies only (request 8 of document 02).

use super::cells::SHARING;
use super::Coverage;
use crate::check;
use crate::house::{Answer, Call, House};

const SCHEDULED: usize = 8;
const FIRED: usize = 9;
const DROPPED: usize = 10;
const PENDING: usize = 12;
const MOST_PENDING: u32 = 32;

#[derive(Default)]
pub(super) struct Watcher {
    /// Whether the loaded set is one of these.
    shared: bool,
    counters: [u32; 16],
}

impl Watcher {
    pub(super) fn see(&mut self, coverage: &mut Coverage, call: &Call, answer: &Answer, house: &mut House) {
        let Answer::Counters(now) = house.call(&Call::Counters) else {
            return;
        };
        let by = |place: usize| now[place].saturating_sub(self.counters[place]);
        let mut seen = |row: &str| coverage.count_named(SHARING, row, 0);
        let before = self.shared;
        match (call, answer) {
            (Call::Load { image, .. }, Answer::Silent) => {
                self.shared = check::flat_size(image).is_some_and(|size| size.fits_by_sharing());
                if self.shared {
                    seen("loaded");
                }
                if before && by(DROPPED) > 0 {
                    seen("load that drops");
                }
            }
            (Call::New { .. } | Call::Unload { .. }, Answer::Silent) => self.shared = false,
            (Call::Run { dry, .. }, Answer::Outcomes { list, .. }) if before && !list.is_empty() => {
                seen(if *dry { "dry run" } else { "wet run" });
            }
            (Call::Tick { .. }, Answer::Outcomes { list, .. }) if before && by(FIRED) > 0 => {
                seen("tick that resumes");
                if list.len() == by(FIRED) as usize && by(SCHEDULED) > 0 {
                    seen("resumption that waits");
                }
            }
            (Call::Enable { on: false, .. }, Answer::Enabled(true)) if before && by(DROPPED) > 0 => {
                seen("disable that drops");
            }
            _ => {}
        }
        if before && now[PENDING] == MOST_PENDING {
            seen("32 pending");
        }
        self.counters = now;
    }
}
