//! Request 4 of document 02: the solar starts of a rule, read back. The published engine has no such call; `access::solar_starts` asks its `solar_minute` for the
//! minutes.

use std::fmt::Write;

use crate::house::House;
use crate::script::Given;
use crate::{access, check, decode};

/// The words of a start.
pub const START_WORDS: usize = 3;

/// Minute and remainder; None without a sun.
pub type Start = Option<(u16, i32)>;

/// "0, minute, signed remainder. Without a sun it gives mark 1 and zeros."
#[must_use]
pub fn words(start: &Start) -> [u32; START_WORDS] {
    match start {
        Some((minute, remainder)) => [0, u32::from(*minute), remainder.cast_unsigned()],
        None => [1, 0, 0],
    }
}

/// Of a rule of a set in words, if there is one, in the world of a snapshot that is accepted, for which so many words are lent.
///
/// # Errors
/// 30: too few words for three of each.
pub fn of_set(image: Option<&[u32]>, rule: u32, snapshot: &[u32], room: usize) -> Result<Vec<Start>, u32> {
    let set = image.map(|image| decode::rule_set(image).0);
    within(room, access::solar_starts(set.as_ref(), &decode::name(rule), &decode::world(snapshot)))
}

/// Of a rule of a house.
///
/// # Errors
/// 1: a store of another size; 20 to 22: the snapshot, for a rule that is not loaded too; 30: too few words.
pub fn of_house(house: &House, rule: u32, snapshot: &[u32], room: usize) -> Result<Vec<Start>, u32> {
    if !house.is_sized() {
        return Err(1);
    }
    match check::snapshot_refusal(snapshot) {
        Some(number) => Err(number),
        None => within(room, house.solar_starts(rule, &decode::world(snapshot))),
    }
}

fn within(room: usize, starts: Vec<Start>) -> Result<Vec<Start>, u32> {
    if room / START_WORDS < starts.len() {
        return Err(30);
    }
    Ok(starts)
}

/// What a player prints: the number of starts, and each, its remainder as a signed number.
#[must_use]
pub fn lines(starts: &[Start]) -> String {
    let mut text = format!("readback {}\n", starts.len());
    for start in starts {
        let (mark, (minute, remainder)) = (u32::from(start.is_none()), start.unwrap_or_default());
        // Writing to a String cannot fail.
        let _ = writeln!(text, "start {mark} {minute} {remainder}");
    }
    text
}

/// What a script's line prints: rule, words lent, snapshot.
pub fn answer(house: &House, given: &Given) -> Result<String, u32> {
    of_house(house, given.word(0), &given.list, given.word(1) as usize).map(|starts| lines(&starts))
}

#[cfg(test)]
mod tests {
    use super::*;
    use crate::build::{Image, Rule, Trigger, World};
    use crate::house::{Answer, Call};

    /// The sun rises in minute 10 and sets in minute 1,000. No wall clock.
    fn snapshot() -> Vec<u32> {
        World { sun: Some((10, 1_000)), ..World::at(0) }.words()
    }

    /// Rule 5 with these triggers, disabled.
    fn loaded(triggers: Vec<Trigger>) -> House {
        let image = Image::of(vec![Rule { triggers, enabled: 0, ..Rule::new(5, vec![]) }]).words();
        let mut house = House::new();
        assert_eq!(house.call(&Call::Load { time: 0, image }), Answer::Silent);
        house
    }

    fn of_offsets(offsets: &[i32]) -> Vec<Start> {
        let house = loaded(offsets.iter().map(|offset| Trigger::AtSolar(0, *offset)).collect());
        of_house(&house, 5, &snapshot(), 3 * offsets.len()).expect("no refusal")
    }

    #[test]
    fn the_numbers_of_the_request() {
        let offsets = [-90_000, -30_000, -900_000, i32::MIN, i32::MAX, 59_999, -59_999, 60_000, -60_000];
        let wanted = [
            (9, -30_000), (10, -30_000), (1_435, 0), (219, -23_648), (1_241, 23_647), (10, 59_999), (10, -59_999), (11, 0), (9, 0),
        ];
        assert_eq!(of_offsets(&offsets), wanted.map(Some));
        assert_eq!(words(&Some((9, -30_000))), [0, 9, 4_294_937_296]);
        assert_eq!(words(&None), [1, 0, 0]);
    }

    /// "Minute offset times 60,000 plus remainder equals the offset, and the remainder has the offset's sign or is 0 and is under 60,000 in size."
    #[test]
    fn minutes_and_remainder_are_the_offset() {
        for offset in (i32::MIN..=i32::MAX).step_by(7_654_321).chain([-1, 0, 1]) {
            let [Some((minute, remainder))] = of_offsets(&[offset])[..] else {
                panic!("no start");
            };
            let minutes = (offset - remainder) / 60_000;
            assert_eq!(minutes * 60_000 + remainder, offset);
            assert!(remainder.abs() < 60_000 && (remainder == 0 || (remainder < 0) == (offset < 0)));
            assert_eq!(i32::from(minute), (10 + minutes).rem_euclid(1_440));
        }
    }

    #[test]
    fn others_are_passed_over_and_the_order_stays() {
        let house = loaded(vec![
            Trigger::AtTime(5, 0, 127), Trigger::AtSolar(1, 1), Trigger::Every(7), Trigger::AtSolar(0, -1), Trigger::Other, Trigger::TimerFires(2),
        ]);
        let of = |rule, snapshot: &[u32], room| of_house(&house, rule, snapshot, room);
        assert_eq!(of(5, &snapshot(), 6), Ok(vec![Some((1_000, 1)), Some((10, -1))]));
        assert_eq!(of(5, &World::at(0).words(), 8), Ok(vec![None, None]));
        assert_eq!(of(5, &snapshot(), 5), Err(30));
        assert_eq!(of(6, &snapshot(), 0), Ok(vec![]));
        assert_eq!(of(6, &[], 0), Err(20));
        assert_eq!(of_house(&House::new(), 5, &snapshot(), 0), Ok(vec![]));
    }

    #[test]
    fn lines_of_a_player() {
        let house = loaded(vec![Trigger::AtSolar(0, -90_000), Trigger::AtSolar(0, 59_999)]);
        let said = |snapshot: &[u32], room| {
            answer(&house, &Given { numbers: vec![5, room], list: snapshot.to_vec(), text: Vec::new() })
        };
        assert_eq!(said(&snapshot(), 6), Ok("readback 2\nstart 0 9 -30000\nstart 0 10 59999\n".to_owned()));
        assert_eq!(said(&World::at(0).words(), 6), Ok("readback 2\nstart 1 0 0\nstart 1 0 0\n".to_owned()));
        assert_eq!(said(&snapshot(), 5), Err(30));
    }
}
