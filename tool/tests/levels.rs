//! Light in percent: the level that the tool expects is the one that the proved engine gives.

mod common;

use barn::light::{level_of, of_level};
use barn::names::Book;
use barn::{image, parse};

/// The levels that the engine gives for values in parts per million, some at a time: a list has 256 steps at the most.
fn told(values: &[u64]) -> Vec<u32> {
    let mut told = Vec::new();
    for some in values.chunks(200) {
        let steps: String = some.iter().map(|ppm| format!("light a ppm {ppm}\n")).collect();
        let file = parse::file(&format!("light a = 1\nrule r = 5\ndo\n{steps}end\nend\n"), &Book::default()).unwrap_or_else(|faults| panic!("{faults:?}"));
        let mut store = common::new_store();
        cerambiu::load(&mut store, 0, &image::write(&file.set)).expect("loaded");
        let (mut outcomes, mut effects) = ([0; 8 * 40], vec![0; 5 * 300]);
        let snapshot = [0, 0, 0, 0, 0, 0, 0, 0, 1, 0, 0, 0, 0, 0];
        let handled = cerambiu::run(&mut store, 5, false, &snapshot, &mut outcomes, &mut effects).expect("run");
        assert_eq!(handled.effects as usize, some.len());
        told.extend(effects.chunks_exact(5).take(some.len()).map(|effect| {
            assert_eq!(effect[..2], [12, 1]);
            effect[2]
        }));
    }
    told
}

#[test]
fn levels_are_those_of_the_engine() {
    let mut values = vec![0, 1_000_000];
    for level in 1..254 {
        let (own, next) = (u64::from(of_level(level)), u64::from(of_level(level + 1)));
        let middle = (own + next) / 2;
        values.extend([own, middle - 1, middle, middle + 1].into_iter().filter(|ppm| *ppm >= 1_000));
    }
    let levels = told(&values);
    for (ppm, level) in values.iter().zip(levels) {
        assert_eq!(level_of(*ppm), level, "{ppm}");
    }
    // A level's own light gives it back.
    let own: Vec<u64> = (1..=254).map(|level| of_level(level).into()).collect();
    assert_eq!(told(&own), (1..=254).collect::<Vec<u32>>());
}
