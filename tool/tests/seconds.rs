//! Seconds in which nothing can be due are left out of a day: the lights and the timeline are those of a controller that ticks every second.

mod common;

use barn::play::{play, Plan};

#[test]
fn a_day_without_its_idle_seconds_is_the_same_day() {
    for name in ["layer-house.rules", "broiler-house.rules", "inspection-light.rules"] {
        let path = common::repository().join("examples").join(name);
        let rules = barn::files::read_rules(&path.to_string_lossy()).expect("rules");
        same(&rules.file.set, &rules.file.book, name);
    }
    let odd = "light a = 1\nverb on = 1, off = 2\nrule b\nevery 7 s\ndo\nlight a on\nwait 1500 ms\nlight a off\nend\nend\n\
               rule c\nat 00:10\ndo\ntimer restart t 61 s\nend\nend\nrule d\nwhen timer t fires\ndo\nafter 333 ms\nlight a on\nend\nend\nend\n";
    let file = barn::parse::file(odd, &Default::default()).unwrap_or_else(|faults| panic!("{faults:?}"));
    same(&file.set, &file.book, "odd");
}

fn same(set: &barn::tree::Set, book: &barn::names::Book, name: &str) {
    let image = barn::image::write(set);
    let press = set.rules.first().map_or(0, |rule| rule.name);
    let plan = Plan { presses: vec![(press, 43_201_000), (press, 43_800_000)], from_new: true, ..Plan::default() };
    let every = Plan { all_seconds: true, ..plan.clone() };
    let (short, long) = (play(&image, book, &plan, false).expect("played"), play(&image, book, &every, false).expect("played"));
    let told = |played: &barn::play::Played| played.events.iter().map(|event| format!("{event:?}")).collect::<Vec<_>>();
    assert!(long.ticks >= 86_400 && short.ticks < long.ticks);
    assert_eq!(short.lights, long.lights, "{name}");
    assert_eq!(told(&short), told(&long), "{name}");
}
