//! Request 7 of document 02: what starts next by the wall clock. The published engine has no such call; `access::next_start` asks its due test minute by
//! minute.

use crate::access::{self, NextStart};
use crate::house::House;
use crate::model::TriggerKind;
use crate::{check, decode};

/// The values of the answer: "mark, minutes, rule; 0 where no start".
#[must_use]
pub fn values(start: &NextStart) -> [u32; 3] {
    match start {
        NextStart::None => [0, 0, 0],
        NextStart::ClockUnknown => [2, 0, 0],
        NextStart::Start { minutes, rule, .. } => [1, *minutes, decode::number(rule)],
    }
}

/// What a player prints.
#[must_use]
pub fn line(start: &NextStart) -> String {
    match values(start) {
        [0, ..] => "start none\n".to_owned(),
        [2, ..] => "start unknown\n".to_owned(),
        [_, minutes, rule] => format!("start {minutes} {rule}\n"),
    }
}

/// Of a set in words, if there is one, and the bits of its rules, in the world of a snapshot that is accepted.
#[must_use]
pub fn of_set(image: Option<&[u32]>, bits: &[bool], snapshot: &[u32]) -> NextStart {
    let set = image.map(|image| decode::rule_set(image).0);
    access::next_start(set.as_ref(), bits, &decode::world(snapshot))
}

/// Whether the start is that of an AtSolar trigger; None where there is no start.
#[must_use]
pub fn is_solar(start: &NextStart) -> Option<bool> {
    match start {
        NextStart::Start { kind, .. } => Some(*kind == TriggerKind::AtSolar),
        _ => None,
    }
}

/// Of a house.
///
/// # Errors
/// 1: a store of another size; 20 to 22: the snapshot.
pub fn next_start(house: &House, snapshot: &[u32]) -> Result<NextStart, u32> {
    if !house.is_sized() {
        return Err(1);
    }
    match check::snapshot_refusal(snapshot) {
        Some(number) => Err(number),
        None => Ok(house.next_start(&decode::world(snapshot))),
    }
}

#[cfg(test)]
mod tests {
    use super::*;
    use crate::build::{Action, Image, Rule, Trigger, World};
    use crate::house::Call;
    use crate::script;

    const DAILY: u32 = 127;

    fn rule(name: u32, triggers: &[Trigger]) -> Rule {
        Rule { triggers: triggers.to_vec(), ..Rule::new(name, vec![Action::Log(name)]) }
    }

    fn loaded(rules: Vec<Rule>) -> House {
        let mut house = House::new();
        house.call(&Call::Load { time: 0, image: Image::of(rules).words() });
        house
    }

    fn at(minute: u32) -> World {
        World { wall: Some((minute / 1_440, minute % 1_440)), ..World::at(0) }
    }

    fn said(house: &House, world: &World) -> Result<[u32; 3], u32> {
        next_start(house, &world.words()).map(|start| values(&start))
    }

    #[test]
    fn the_present_minute_is_not_ahead() {
        let once = loaded(vec![rule(7, &[Trigger::AtTime(6, 0, 1)])]);
        assert_eq!(said(&once, &at(360)), Ok([1, 10_080, 7]));
        assert_eq!(said(&once, &at(359)), Ok([1, 1, 7]));
        let daily = loaded(vec![rule(7, &[Trigger::AtTime(6, 0, DAILY)])]);
        assert_eq!(said(&daily, &at(360)), Ok([1, 1_440, 7]));
        let midnight = loaded(vec![rule(7, &[Trigger::AtTime(0, 0, 1)])]);
        assert_eq!(said(&midnight, &at(10_079)), Ok([1, 1, 7]));
    }

    #[test]
    fn the_lowest_name_of_the_first_minute() {
        let two = |minute| vec![rule(9, &[Trigger::AtTime(6, 0, DAILY)]), rule(4, &[Trigger::AtTime(6, minute, DAILY)])];
        assert_eq!(said(&loaded(two(0)), &at(300)), Ok([1, 60, 4]));
        assert_eq!(said(&loaded(two(1)), &at(300)), Ok([1, 60, 9]));
    }

    #[test]
    fn the_bit_counts_and_not_the_word_of_the_image() {
        let mut house = loaded(vec![rule(5, &[Trigger::AtTime(6, 0, DAILY)])]);
        house.call(&Call::Enable { rule: 5, on: false });
        assert_eq!(said(&house, &at(300)), Ok([0, 0, 0]));
        let mut off = rule(5, &[Trigger::AtTime(6, 0, DAILY)]);
        off.enabled = 0;
        let mut house = loaded(vec![off]);
        assert_eq!(said(&house, &at(300)), Ok([0, 0, 0]));
        house.call(&Call::Enable { rule: 5, on: true });
        assert_eq!(said(&house, &at(300)), Ok([1, 60, 5]));
    }

    #[test]
    fn no_day_no_sun_no_clock_and_no_set() {
        let never = loaded(vec![rule(1, &[Trigger::AtTime(6, 0, 0), Trigger::AtSolar(0, 0), Trigger::Every(5), Trigger::TimerFires(1), Trigger::Other])]);
        assert_eq!(said(&never, &at(300)), Ok([0, 0, 0]));
        let sunny = World { sun: Some((301, 1_200)), ..at(300) };
        assert_eq!(said(&never, &sunny), Ok([1, 1, 1]));
        for house in [&never, &House::new()] {
            assert_eq!(said(house, &World::at(0)), Ok([2, 0, 0]));
        }
        assert_eq!(said(&House::new(), &at(300)), Ok([0, 0, 0]));
    }

    #[test]
    fn lines_and_refusals() {
        let minute = |words: &World| words.words().iter().map(|word| format!(" {word}")).collect::<String>();
        let load = script::line(&Call::Load { time: 0, image: Image::of(vec![rule(5, &[Trigger::AtTime(6, 0, DAILY)])]).words() });
        let (clock, none) = (minute(&at(300)), minute(&World::at(0)));
        let text = format!("start{clock}\nstart{none}\n{load}\nstart{clock}\nstart{none}\nstart\nstart 0 0 0 0 0 0 0 0 2 0 0 0 0 0\nsize 9\nstart\n");
        let expected = "start none\nstart unknown\nstart 60 5\nstart unknown\nstart refused 20\nstart refused 21\nstart refused 1\n";
        assert_eq!(script::play(&text), expected);
    }
}
