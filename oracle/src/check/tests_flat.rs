//! Refusals 16 and 17 at their boundaries.

use super::tests_image::raw;
use super::{flat_size, image_refusal};
use crate::build::{Action, Block, Condition, Image, Limits, Rule, Trigger, Value};

fn logs(count: usize) -> Vec<Action> {
    vec![Action::Log(1); count]
}

/// Stored steps and taken actions.
fn size_of(image: &Image) -> (u64, u64) {
    let size = flat_size(&image.words()).unwrap_or_default();
    (size.stored, size.taken)
}

fn size_of_actions(actions: Vec<Action>) -> (u64, u64) {
    size_of(&Image::of(vec![Rule::new(1, actions)]))
}

#[test]
fn lists_end_at_256() {
    assert_eq!(size_of_actions(logs(256)), (256, 256));
    assert_eq!(size_of_actions(logs(300)), (257, 256));
    assert_eq!(size_of_actions(vec![Action::Repeat(2, logs(128))]), (256, 129));
    assert_eq!(size_of_actions(vec![Action::Repeat(3, logs(128))]), (257, 129));
    let branch = Action::Conditional(Condition::ControllerActive, logs(1), logs(1));
    let mut at_255 = logs(255);
    at_255.push(branch);
    assert_eq!(size_of_actions(at_255), (258, 256));
}

#[test]
fn copies_of_one_repeat_share_bodies() {
    let after = |count| Action::After(1, logs(count));
    assert_eq!(size_of_actions(vec![after(10)]), (11, 11));
    assert_eq!(size_of_actions(vec![Action::Repeat(20, vec![after(10)])]), (30, 12));
    assert_eq!(size_of_actions(vec![Action::Repeat(100, vec![after(30)])]), (130, 32));
    assert_eq!(size_of_actions(vec![Action::Repeat(2, vec![after(1), Action::Log(1)])]), (5, 4));
    // A copy that does not fit is one Fail, the copies before it stay.
    let body = [logs(99), vec![after(10)]].concat();
    assert_eq!(size_of_actions(vec![Action::Repeat(3, body)]), (211, 111));
    // A body that does not fit once is thrown away with its afters.
    let large = [logs(1), vec![Action::Repeat(1, [logs(255), vec![after(10)]].concat())]].concat();
    assert_eq!(size_of_actions(large), (2, 268));
    let afters = [logs(200), vec![Action::Repeat(2, vec![Action::After(1, vec![Action::Call(1)]); 57])]].concat();
    let block = Block { name: 1, actions: logs(100) };
    let image = Image { blocks: vec![block], ..Image::of(vec![Rule::new(1, afters)]) };
    assert_eq!(size_of(&image).0, 201);
    // Through regions.
    let branch = Action::Conditional(Condition::ControllerActive, vec![after(10)], logs(1));
    assert_eq!(size_of_actions(vec![Action::Repeat(3, vec![branch])]), (19, 14));
}

#[test]
fn no_others_share_bodies() {
    let repeat = |times| Action::Repeat(times, vec![Action::After(1, logs(10))]);
    assert_eq!(size_of_actions(vec![repeat(2), repeat(3)]), (25, 24));
    assert_eq!(size_of_actions(vec![Action::Repeat(2, vec![Action::After(1, logs(10)); 2])]), (24, 23));
    let block = Block { name: 1, actions: vec![Action::Repeat(5, vec![Action::After(1, logs(100))])] };
    let image = Image { blocks: vec![block], ..Image::of(vec![Rule::new(1, vec![Action::Call(1); 2])]) };
    assert_eq!(size_of(&image), (210, 206));
    let size = flat_size(&image.words()).unwrap_or_default();
    assert_eq!((size.every_copy, size.fits_by_sharing()), (1_010, false));
}

#[test]
fn actions_are_taken_once_for_all_copies() {
    let calls = Block { name: 1, actions: vec![Action::Call(2); 299] };
    let blocks = vec![calls, Block { name: 2, actions: vec![] }];
    let repeat = vec![Action::Repeat(255, vec![Action::Call(1)])];
    assert_eq!(size_of(&Image { blocks, ..Image::of(vec![Rule::new(1, repeat)]) }), (0, 301));
}

/// Repeat 36 of seven Afters of the same 256 Logs, then Logs.
fn full(last: usize) -> Image {
    let seven = vec![Action::After(1, vec![Action::Call(1)]); 7];
    let actions = [vec![Action::Repeat(36, seven)], logs(last)].concat();
    let block = Block { name: 1, actions: logs(256) };
    Image { blocks: vec![block], ..Image::of(vec![Rule::new(1, actions)]) }
}

#[test]
fn number_16_stands_at_2_048_shared_steps() {
    assert_eq!(size_of(&full(4)).0, 2_048);
    assert_eq!(image_refusal(&full(4).words()), None);
    assert!(flat_size(&full(4).words()).is_some_and(|size| size.fits_by_sharing()));
    assert_eq!(size_of(&full(5)).0, 2_049);
    assert_eq!(image_refusal(&full(5).words()), Some(16));
}

#[test]
fn nesting_through_calls_gives_fail() {
    let itself = |action: Action| {
        let block = Block { name: 1, actions: vec![action] };
        size_of(&Image { blocks: vec![block], ..Image::of(vec![Rule::new(1, vec![Action::Call(1)])]) })
    };
    // Eight calls, and the ninth is a Fail.
    assert_eq!(itself(Action::Call(1)), (1, 9));
    assert_eq!(itself(Action::After(1, vec![Action::Call(1)])), (2, 4));
    assert_eq!(itself(Action::Repeat(2, vec![Action::Call(1)])), (2, 4));
    let call = vec![Action::Call(1)];
    let both = Action::Conditional(Condition::ControllerActive, call.clone(), call);
    assert_eq!(itself(both), (3, 6));
    assert_eq!(size_of_actions(vec![Action::Call(1)]), (1, 1));
    for times in [0, 8] {
        let limits = Limits { repeat: 7, ..Limits::default() };
        let image = Image::of(vec![Rule::new(1, vec![Action::Repeat(times, logs(3))])]);
        assert_eq!(size_of(&Image { limits, ..image }), (1, 1));
    }
}

#[test]
fn number_16_for_stored_steps() {
    let rules = |last: usize| {
        let body = vec![Action::Repeat(8, logs(32))];
        let mut rules: Vec<Rule> = (0..7).map(|name| Rule::new(name, body.clone())).collect();
        rules.push(Rule::new(7, logs(last)));
        Image::of(rules)
    };
    assert_eq!(size_of(&rules(256)).0, 2_048);
    assert_eq!(image_refusal(&rules(256).words()), None);
    assert_eq!(size_of(&rules(257)).0, 2_049);
    assert_eq!(image_refusal(&rules(257).words()), Some(16));
}

/// Blocks of calls of the next block, the last one empty: nothing is stored and
/// much is taken.
fn many_taken(width: usize, extra: usize) -> Image {
    let calls = |block| vec![Action::Call(block); width];
    let mut blocks: Vec<Block> = (0..7).map(|n| Block { name: n, actions: calls(n + 1) }).collect();
    blocks.push(Block { name: 7, actions: vec![] });
    let rules = vec![Rule::new(1, calls(0)), Rule::new(2, logs(extra))];
    Image { blocks, ..Image::of(rules) }
}

#[test]
fn number_16_for_taken_actions() {
    // 4 + 16 + .. + 65,536 calls of empty blocks: 87,380 is too many.
    assert_eq!(image_refusal(&many_taken(4, 0).words()), Some(16));
    // 3 + 9 + .. + 6,561 = 9,840.
    assert_eq!(size_of(&many_taken(3, 5)), (5, 9_845));
    assert_eq!(image_refusal(&many_taken(3, 5).words()), None);
}

#[test]
fn number_16_stands_exactly_at_65_536() {
    // Six rounds of 9,840, then calls of a block of 255 empty calls (256 each).
    let image = |logs_at_end: usize| {
        let mut image = many_taken(3, 0);
        image.rules.truncate(1);
        let first = image.rules[0].actions.clone();
        for name in 2..=6 {
            image.rules.push(Rule::new(name, first.clone()));
        }
        image.blocks.push(Block { name: 20, actions: vec![Action::Call(7); 255] });
        image.rules.push(Rule::new(7, vec![Action::Call(20); 25]));
        image.rules.push(Rule::new(8, logs(logs_at_end)));
        image
    };
    let rest = 65_536 - 6 * 9_840 - 25 * 256;
    assert_eq!(size_of(&image(rest)), (rest as u64, 65_536));
    assert_eq!(image_refusal(&image(rest).words()), None);
    assert_eq!(image_refusal(&image(rest + 1).words()), Some(16));
}

#[test]
fn number_17_stands_at_64() {
    let rules = |count: u32| Image::of((0..count).map(|name| Rule::new(name, vec![])).collect());
    assert_eq!(image_refusal(&rules(64).words()), None);
    assert_eq!(image_refusal(&rules(65).words()), Some(17));
    let blocks = |count: u32| Image {
        blocks: (0..count).map(|name| Block { name, actions: vec![] }).collect(),
        ..Image::default()
    };
    assert_eq!(image_refusal(&blocks(64).words()), None);
    assert_eq!(image_refusal(&blocks(65).words()), Some(17));
    let slots = |count: usize| {
        let mut rule = Rule::new(1, vec![]);
        rule.triggers = vec![Trigger::Every(1); count];
        rule.triggers.push(Trigger::Other);
        Image::of(vec![rule])
    };
    assert_eq!(image_refusal(&slots(64).words()), None);
    assert_eq!(image_refusal(&slots(65).words()), Some(17));
}

#[test]
fn number_17_counts_slots_of_rules_not_records() {
    // 65 records of Every that no rule names are no slots; 33 that two rules share are 66.
    let shared = |rules: u32, records: usize, named: u32| {
        let mut rule_words = Vec::new();
        for name in 0..rules {
            rule_words.extend([name, 1, 0, 0, 0, named, 0, 0, 0, 0, 0, 0, 0, 0, 0, 0]);
        }
        let triggers = [1, 5, 0, 0, 0, 0, 0, 0].repeat(records);
        image_refusal(&raw([&rule_words, &[], &triggers, &[], &[], &[], &[], &[]]))
    };
    assert_eq!(shared(1, 65, 0), None);
    assert_eq!(shared(2, 32, 32), None);
    assert_eq!(shared(2, 33, 33), Some(17));
}

#[test]
fn number_16_comes_before_17() {
    let mut rules: Vec<Rule> = (0..65).map(|name| Rule::new(name, vec![])).collect();
    let repeat = vec![Action::Repeat(255, logs(1))];
    rules.iter_mut().take(9).for_each(|rule| rule.actions = repeat.clone());
    assert_eq!(image_refusal(&Image::of(rules.clone()).words()), Some(16));
    rules[0].actions = vec![Action::VarAdd(1, Value::Literal(1))];
    assert_eq!(image_refusal(&Image::of(rules).words()), Some(17));
}
