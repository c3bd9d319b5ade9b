use super::shrink;
use crate::build::{Action, Block, Condition, Image, Lamp, Rule, Trigger, Value, World};
use crate::check::image_refusal;
use crate::generate::history;
use crate::house::{Answer, Call, House};

fn loaded(calls: &[Call]) -> impl Iterator<Item = &Vec<u32>> {
    calls.iter().filter_map(|call| match call {
        Call::Load { image, .. } => Some(image),
        _ => None,
    })
}

/// A history of everything beside a rule that logs 9 behind a wait.
fn large() -> Vec<Call> {
    let body = vec![Action::Log(3), Action::VarAdd(1, Value::Literal(5)), Action::Log(9)];
    let branch = Action::Conditional(Condition::DayIn(3), vec![Action::Log(4)], vec![Action::After(7, body)]);
    let mut rule = Rule::new(5, vec![Action::Cycle(vec![1, 2]), Action::Wait(1_000), branch]);
    rule.triggers = vec![Trigger::Every(5), Trigger::Other];
    rule.conditions = vec![Condition::VarValue(1, 1, Value::Reading(18, [3, 0, 0]))];
    let others = (10..14).map(|name| Rule::new(name, vec![Action::Call(1), Action::Log(2)]));
    let block = Block { name: 1, actions: vec![Action::Wait(3), Action::Log(6)] };
    let image = Image { blocks: vec![block], ..Image::of(others.chain([rule]).collect()) };
    let lamp = Lamp { id: [1, 2], level: Some(77), ..Lamp::default() };
    let world = |now| World { wall: Some((3, 900)), lamps: vec![lamp], ..World::at(now) }.words();
    let mut calls = vec![Call::New { time: 77 }, Call::Load { time: 80, image: image.words() }];
    for now in [100, 200, 1_500, 90_000, 90_007] {
        calls.push(Call::Deadline);
        calls.push(Call::Run { rule: 10, dry: false, snapshot: world(now) });
        calls.push(Call::Run { rule: 5, dry: false, snapshot: world(now) });
        calls.push(Call::Tick { snapshot: world(now + 1) });
    }
    calls
}

/// Whether an accepted tick prints the effect Log 9.
fn logs_nine(calls: &[Call]) -> bool {
    let mut house = House::new();
    calls.iter().any(|call| {
        let answer = house.call(call);
        matches!((call, answer), (Call::Tick { .. }, Answer::Outcomes { list, .. })
            if list.iter().any(|outcome| outcome.effects.contains(&[11, 9, 0, 0, 0])))
    })
}

#[test]
fn a_log_in_a_body_is_cut_to_load_run_and_tick() {
    let start = large();
    assert!(logs_nine(&start));
    let small = shrink(&start, &logs_nine);
    assert!(logs_nine(&small));
    assert_eq!(small.len(), 3, "{small:?}");
    // One rule of one After whose body is one Log.
    let words: Vec<usize> = loaded(&small).map(Vec::len).collect();
    assert_eq!(words, [16 + 2 * 8 + 13]);
    assert!(small.iter().all(|call| match call {
        Call::Tick { snapshot } | Call::Run { snapshot, .. } => *snapshot == [0; 14],
        Call::Load { time, .. } => *time == 0,
        _ => false,
    }));
}

#[test]
fn what_does_not_differ_stays() {
    let start = large();
    assert_eq!(shrink(&start, &|_| false), start);
}

#[test]
fn everything_may_go() {
    assert_eq!(shrink(&large(), &|_| true), []);
}

#[test]
fn a_refused_image_keeps_its_refusal() {
    for (seed, number) in (0..4_000_u64).zip([10, 11, 12, 13, 14, 15, 16, 17].iter().cycle()) {
        let start = history(seed);
        let refused = |calls: &[Call]| loaded(calls).any(|image| image_refusal(image) == Some(*number));
        if !refused(&start) || loaded(&start).any(|image| image.len() > 400) {
            continue;
        }
        let small = shrink(&start, &refused);
        assert!(refused(&small));
        assert_eq!(small.len(), 1);
    }
}
