use super::rewrite;
use crate::build::{Action, Block, Condition, Image, Rule, Value};
use crate::check::image_refusal;
use crate::generate;
use crate::house::Call;

const ROOM: usize = 4_096;
/// Budget 8, and the other limits at their most.
const LIMITS: [u32; 5] = [8, 8, 255, 255, 255];

/// An image of these tables.
fn image(tables: [&[u32]; 8]) -> Vec<u32> {
    let (mut words, mut trailer) = (Vec::new(), LIMITS.to_vec());
    for table in tables {
        trailer.push(words.len() as u32);
        words.extend(table);
    }
    words.extend(trailer);
    words
}

fn rule(name: u32, lists: [u32; 6]) -> Vec<u32> {
    let mut words = vec![name, 1, 0, 0];
    words.extend(lists);
    words.resize(16, 0);
    words
}

fn record(fields: &[u32]) -> Vec<u32> {
    let mut words = fields.to_vec();
    words.resize(8, 0);
    words
}

fn records(rows: &[&[u32]]) -> Vec<u32> {
    rows.iter().flat_map(|row| record(row)).collect()
}

/// One rule with these actions in its table, its list the first `count` from `first` on.
fn of_actions(first: u32, count: u32, actions: &[&[u32]]) -> Vec<u32> {
    image([&rule(7, [0, 0, 0, 0, first, count]), &[], &[], &[], &records(actions), &[], &[], &[]])
}

#[test]
fn all_inside_a_record_before_the_next() {
    // After to X, After to Y, X a Repeat to Z; breadth first would give X, Y, Z.
    let given = of_actions(1, 2, &[&[21, 99], &[24, 5, 4, 1], &[24, 6, 3, 1], &[21, 9], &[26, 2, 5, 1], &[21, 8]]);
    let wanted = of_actions(0, 2, &[&[24, 5, 2, 1], &[24, 6, 4, 1], &[26, 2, 3, 1], &[21, 8], &[21, 9]]);
    assert_eq!(rewrite(ROOM, &given), Ok(wanted));
}

#[test]
fn what_is_mentioned_twice_is_written_twice() {
    let rules = |first: [u32; 2]| [rule(7, [0, 0, 0, 0, first[0], 2]), rule(8, [0, 0, 0, 0, first[1], 2])].concat();
    // Log 1 and Log 2 of the first rule, Log 2 and a VarAdd of the second, whose value two records mention.
    let given = image([
        &rules([0, 1]), &[], &[], &[], &records(&[&[21, 1], &[17, 2, 1], &[17, 3, 1]]), &records(&[&[0, 4], &[0, 5]]), &[], &[],
    ]);
    let actions = records(&[&[21, 1], &[17, 2, 0], &[17, 2, 1], &[17, 3, 2]]);
    let wanted = image([&rules([0, 2]), &[], &[], &[], &actions, &records(&[&[0, 5], &[0, 5], &[0, 5]]), &[], &[]]);
    assert_eq!(rewrite(ROOM, &given), Ok(wanted));
}

#[test]
fn every_empty_list_has_first_0() {
    let actions: &[&[u32]] = &[&[3, 2, 0], &[24, 5, 3, 0], &[26, 1, 2, 0], &[27, 0, 4, 0, 4, 0]];
    let empty = [&[3, 0, 0][..], &[24, 5, 0, 0], &[26, 1, 0, 0], &[27, 0, 0, 0, 0, 0]];
    let conditions = records(&[&[14]]);
    let tables = |lists: [u32; 6], block: u32, actions: &[&[u32]], triggers: &[u32], pool: &[u32]| {
        image([&rule(7, lists), &record(&[3, block, 0]), triggers, &conditions, &records(actions), &[], &[], pool])
    };
    let given = tables([1, 0, 1, 0, 0, 4], 4, actions, &record(&[4]), &[1, 2]);
    let wanted = tables([0, 0, 0, 0, 0, 4], 0, &empty, &[], &[]);
    assert_eq!(rewrite(ROOM, &given), Ok(wanted));
}

#[test]
fn mentions_of_conditions_and_values() {
    // 15 with tag 0 mentions a value, with tag 1 it has the number of a text.
    let conditions = |values: [u32; 4], bounds: [u32; 2]| {
        records(&[
            &[15, 1, 0, 1, 9],
            &[15, 1, 0, 0, values[0]],
            &[0, bounds[0], bounds[1]],
            &[4, 1, 2, 0, values[1]],
            &[5, 1, 2, 0, values[2]],
            &[8, 1, 2, 3, 0, values[3]],
        ])
    };
    let lists = [0, 0, 0, 6, 0, 0];
    let values = |numbers: &[u32]| numbers.iter().flat_map(|number| record(&[0, *number])).collect::<Vec<u32>>();
    let bounds = |hours: [u32; 2]| hours.iter().flat_map(|hour| record(&[0, *hour])).collect::<Vec<u32>>();
    let given = image([&rule(7, lists), &[], &[], &conditions([3, 0, 2, 1], [1, 0]), &[], &values(&[10, 11, 12, 13]), &bounds([5, 6]), &[]]);
    let wanted = image([&rule(7, lists), &[], &[], &conditions([0, 1, 2, 3], [0, 1]), &[], &values(&[13, 10, 12, 11]), &bounds([6, 5]), &[]]);
    assert_eq!(rewrite(ROOM, &given), Ok(wanted));
}

#[test]
fn blocks_that_nobody_calls_stay_and_limits_too() {
    let none = image([&[]; 8]);
    assert_eq!(none.len(), 13);
    assert_eq!(rewrite(13, &none), Ok(none.clone()));
    let unused = image([&[], &[], &records(&[&[4]]), &records(&[&[14]]), &records(&[&[21, 7]]), &records(&[&[0, 1]]), &records(&[&[0, 1]]), &[5]]);
    assert_eq!(rewrite(13, &unused), Ok(none));
    let block = Block { name: 9, actions: vec![Action::Log(7)] };
    let set = Image { blocks: vec![block.clone(), block], ..Image::default() }.words();
    assert_eq!(rewrite(ROOM, &set), Ok(set));
}

/// Document 01's example, rule 5 with Log 7, Wait 1000, Log 9.
fn example(unused: &[&[u32]]) -> Vec<u32> {
    let actions: Vec<&[u32]> = unused.iter().copied().chain([&[21, 7][..], &[23, 1000], &[21, 9]]).collect();
    let mut words = of_actions(unused.len() as u32, 3, &actions);
    words[0] = 5;
    words
}

#[test]
fn the_example_of_document_01() {
    let example_words = example(&[]);
    assert_eq!(example_words.len(), 53);
    assert_eq!(rewrite(53, &example(&[&[21, 1], &[21, 2]])), Ok(example_words.clone()));
    assert_eq!(rewrite(53, &example_words), Ok(example_words));
}

/// Conditionals in a block that nobody calls, each holding the next record as then and as else.
fn doubling(depth: u32) -> Vec<u32> {
    let mut actions: Vec<u32> = (1..=depth).flat_map(|next| record(&[27, 0, next, 1, next, 1])).collect();
    actions.extend(record(&[21, 7]));
    image([&[], &record(&[3, 0, 1]), &[], &record(&[14]), &actions, &[], &[], &[]])
}

#[test]
fn unsharing_that_explodes_is_40_at_once() {
    assert_eq!(image_refusal(&doubling(400)), None);
    assert_eq!(rewrite(0, &doubling(400)), Err(40));
    // 2^7 - 1 Conditionals with a condition each, 2^7 Logs, the block and the trailer: 3,077 words; one deeper is over.
    assert_eq!(rewrite(ROOM, &doubling(7)).map(|words| words.len()), Ok((127 * 2 + 128) * 8 + 8 + 13));
    assert_eq!(rewrite(ROOM, &doubling(8)), Err(40));
}

/// A rule with 508 actions, the first two of them Cycles of the first 2 and the last `scenes` of 3 pool words: 4,096 words.
fn full(scenes: u32) -> Vec<u32> {
    let mut actions = records(&[&[3, 0, 2], &[3, 3 - scenes, scenes]]);
    (2..508).for_each(|text| actions.extend(record(&[21, text])));
    image([&rule(7, [0, 0, 0, 0, 0, 508]), &[], &[], &[], &actions, &[], &[], &[1, 2, 3]])
}

#[test]
fn words_4096_are_written_and_4097_are_not() {
    assert_eq!(full(1).len(), 4_096);
    assert_eq!(rewrite(4_096, &full(1)), Ok(full(1)));
    assert_eq!(rewrite(4_095, &full(1)), Err(41));
    assert_eq!(full(2).len(), 4_096);
    assert_eq!(rewrite(4_097, &full(2)), Err(40));
}

#[test]
fn refusals_lowest_first() {
    assert_eq!(rewrite(ROOM, &[]), Err(10));
    assert_eq!(rewrite(0, &[0; 13]), Err(11));
    assert_eq!(rewrite(52, &example(&[])), Err(41));
    assert_eq!(rewrite(0, &doubling(400)), Err(40));
    // An unused record that load refuses.
    assert_eq!(rewrite(0, &example(&[&[29]])), Err(13));
    assert_eq!(rewrite(0, &example(&[&[24, 1, 0, 1]])), Err(14));
}

#[test]
fn deep_lists_are_walked() {
    let mut body = vec![Action::Log(7)];
    (0..500).for_each(|_| body = vec![Action::Repeat(1, std::mem::take(&mut body))]);
    let words = Image { blocks: vec![Block { name: 1, actions: body }], ..Image::default() }.words();
    assert_eq!(rewrite(ROOM, &words), Ok(words));
}

/// The tree of a built set is the set: two layouts of it, as it is built and with the values that equal ones share apart, are written the same.
#[test]
fn shared_values_and_values_apart() {
    let value = Value::Reading(18, [1, 0, 0]);
    let branch = Action::Conditional(Condition::VarValue(1, 0, value), vec![Action::VarAdd(2, value)], vec![]);
    let shared = Image::of(vec![Rule::new(5, vec![branch, Action::VarAdd(3, value)])]).words();
    let written = rewrite(ROOM, &shared).expect("written");
    assert_eq!(written.len(), shared.len() + 2 * 8);
    assert_eq!(rewrite(ROOM, &written), Ok(written));
}

#[test]
fn written_images_of_histories_are_accepted_and_stay() {
    let (mut changed, mut kept) = (0, 0);
    for call in (0..300).flat_map(generate::history) {
        let Call::Load { image, .. } = call else { continue };
        match rewrite(ROOM, &image) {
            Err(number) => assert!(number == 40 || image_refusal(&image) == Some(number)),
            Ok(words) => {
                assert_eq!(image_refusal(&words), None);
                assert_eq!(rewrite(words.len(), &words).as_ref(), Ok(&words));
                *(if words == image { &mut kept } else { &mut changed }) += 1;
            }
        }
    }
    assert!(changed > 0 && kept > 0, "{changed} changed, {kept} kept");
}
