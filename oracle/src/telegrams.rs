//! The list of telegrams, which the published engine does not have: written from the request, by records from the last to the first.

use std::collections::HashSet;

use crate::script;

pub const NO_EFFECTS: u32 = 60;
pub const NO_ROOM: u32 = 61;

const LOG: u32 = 11;
const LEVEL: u32 = 12;

/// Whether the effect cuts a list into stretches.
#[must_use]
pub fn cuts(effect: &[u32; 5]) -> bool {
    effect[0] < LOG
}

/// The target that the effect sets, if it sets a level.
#[must_use]
pub fn target(effect: &[u32; 5]) -> Option<u32> {
    (effect[0] == LEVEL).then_some(effect[1])
}

/// The effects without those that a later level of their stretch supersedes.
#[must_use]
pub fn kept(effects: &[[u32; 5]]) -> Vec<[u32; 5]> {
    let mut set_later = HashSet::new();
    let mut list = Vec::new();
    for effect in effects.iter().rev() {
        if cuts(effect) {
            set_later.clear();
        }
        if target(effect).is_none_or(|lamp| set_later.insert(lamp)) {
            list.push(*effect);
        }
    }
    list.reverse();
    list
}

/// The list to be sent for these words of effects, where `room` words are lent for it, or the refusal's number.
///
/// # Errors
/// 60: no whole number of records, or a kind above 12; 61: the kept records are more than the room holds.
pub fn telegrams(room: usize, words: &[u32]) -> Result<Vec<[u32; 5]>, u32> {
    let (effects, rest) = words.as_chunks::<5>();
    if !rest.is_empty() || effects.iter().any(|effect| effect[0] > LEVEL) {
        return Err(NO_EFFECTS);
    }
    let list = kept(effects);
    if list.len() * 5 > room {
        return Err(NO_ROOM);
    }
    Ok(list)
}

/// What a player prints for the list: how many effects, and a line for each.
pub fn lines(room: usize, words: &[u32]) -> Result<String, u32> {
    let list = telegrams(room, words)?;
    let mut text = format!("telegrams {}\n", list.len());
    script::write_effects(&mut text, &list);
    Ok(text)
}

#[cfg(test)]
mod tests {
    use super::*;

    #[test]
    fn a_log_does_not_cut_and_a_light_does() {
        let (low, high, log, light) = ([12, 1, 10, 0, 0], [12, 1, 20, 0, 0], [11, 7, 0, 0, 0], [0, 1, 3, 0, 0]);
        assert_eq!(kept(&[low, log, high]), [log, high]);
        assert_eq!(kept(&[low, light, high]), [low, light, high]);
        assert_eq!(kept(&[low, low, low]), [low]);
    }

    #[test]
    fn refusals() {
        assert_eq!(telegrams(0, &[]), Ok(Vec::new()));
        assert_eq!(telegrams(0, &[12, 1, 10, 0]), Err(60));
        assert_eq!(telegrams(10, &[13, 0, 0, 0, 0]), Err(60));
        assert_eq!(telegrams(4, &[12, 1, 300, 0, 0]), Err(61));
        assert_eq!(telegrams(5, &[12, 1, 300, 0, 0].repeat(50)), Ok(vec![[12, 1, 300, 0, 0]]));
    }
}
