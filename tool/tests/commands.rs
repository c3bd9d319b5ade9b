//! The commands as a user has them: exit status, messages, files.

mod common;

use std::fs;

use common::{barn, example, folder, texts, EXAMPLES};

#[test]
fn every_command_has_its_help_and_wrong_usage_is_2() {
    for command in barn::help::COMMANDS {
        let (status, out, _) = texts(&barn(&[command, "--help"]));
        assert_eq!(status, 0, "{command}");
        assert!(out.starts_with(&format!("usage: barn {command}")), "{out}");
        let (status, _, err) = texts(&barn(&[command]));
        assert_eq!((status, err.is_empty()), (2, false), "{command}");
        let (status, _, err) = texts(&barn(&[command, "--nothing-like-it", "x"]));
        assert_eq!(status, 2, "{command}");
        assert!(err.contains("--help"), "{err}");
        let (status, _, _) = texts(&barn(&[command, "no such file"]));
        assert_eq!(status, 2, "{command}");
    }
    assert_eq!(texts(&barn(&[])).0, 2);
    assert_eq!(texts(&barn(&["--help"])).0, 0);
    assert!(texts(&barn(&["chekc", "x"])).2.contains("Is `check` meant?"));
}

#[test]
fn the_examples_are_checked_without_a_warning_and_meet_their_expectations() {
    for name in EXAMPLES {
        let (status, out, err) = texts(&barn(&["check", "--strict", &example(name)]));
        assert_eq!((status, err.as_str()), (0, ""), "{out}");
        let (status, out, _) = texts(&barn(&["test", &example(name)]));
        assert_eq!(status, 0, "{out}");
    }
}

#[test]
fn an_expectation_that_is_not_met_is_1_and_shows_the_timeline() {
    let folder = folder("not_met");
    let text = fs::read_to_string(example("layer-house.rules")).expect("an example").replace("light house full at 05:15", "light house full at 05:14");
    let path = folder.join("late.rules");
    fs::write(&path, text).expect("written");
    let (status, out, _) = texts(&barn(&["test", &path.to_string_lossy()]));
    assert_eq!(status, 1);
    assert!(out.contains("FAILED") && out.contains("> 05:14  expected here"), "{out}");
    assert!(out.contains("`light house dimmed`") && out.contains("05:15  morning: light house full"), "{out}");
}

#[test]
fn words_show_and_explain_agree_through_files() {
    let folder = folder("files");
    for name in EXAMPLES {
        let rules = folder.join(name);
        fs::copy(example(name), &rules).expect("copied");
        let rules = rules.to_string_lossy().into_owned();
        let (image, decimal) = (rules.replace(".rules", ".img"), rules.replace(".rules", ".words"));
        assert_eq!(texts(&barn(&["words", &rules, "-o", &image])).0, 0);
        assert_eq!(texts(&barn(&["words", &rules, "-o", &decimal])).0, 0);
        assert_eq!(texts(&barn(&["explain", &image])).0, 0);
        let names = fs::read_to_string(rules.replace(".rules", ".names")).expect("names");
        // The numbers stay: a second time nothing is written anew.
        assert!(!texts(&barn(&["words", &rules])).2.contains("names:"));
        for words in [&image, &decimal] {
            let (status, shown, _) = texts(&barn(&["show", words]));
            assert_eq!(status, 0);
            let again = folder.join("again.rules");
            fs::write(&again, &shown).expect("written");
            let (status, out, _) = texts(&barn(&["words", &again.to_string_lossy(), "--no-names"]));
            assert_eq!((status, out), (0, fs::read_to_string(&decimal).expect("words")), "{shown}\n{names}");
        }
    }
}

#[test]
fn a_store_is_shown_watched_and_explained() {
    let folder = folder("store");
    let rules = folder.join("inspection-light.rules");
    fs::copy(example("layer-house.rules"), &rules).expect("copied");
    let read = barn::files::read_rules(&rules.to_string_lossy()).expect("rules");
    let words = barn::image::write(&read.file.set);
    let mut store = common::new_store();
    cerambiu::load(&mut store, 0, &words).expect("loaded");
    let snapshot = |now: u32, minute: u32| [now, 0, 1, 0, minute, 1, 420, 1_020, 1, 0, 0, 0, 0, 0];
    let (mut outcomes, mut effects) = ([0; 80], [0; 60]);
    cerambiu::tick(&mut store, &snapshot(0, 299), &mut outcomes, &mut effects).expect("ticked");
    cerambiu::tick(&mut store, &snapshot(60_000, 300), &mut outcomes, &mut effects).expect("ticked");
    let path = folder.join("house.store").to_string_lossy().into_owned();
    let names = folder.join("house.names");
    fs::write(&names, read.file.book.write()).expect("written");
    let save = |store: &[u32]| fs::write(&path, store.iter().flat_map(|word| word.to_le_bytes()).collect::<Vec<u8>>()).expect("saved");
    save(&store);
    let (status, out, _) = texts(&barn(&["watch", &path]));
    assert_eq!(status, 0);
    assert!(out.contains("waits: rule morning (at time, activation 1), in 15 min (at 960000 ms), then: `light house full`; budget left 30"), "{out}");
    assert!(out.contains("next start by the clock: rule morning, tuesday 05:00, in 24 h"), "{out}");
    let (status, out, _) = texts(&barn(&["show", &path]));
    assert_eq!(status, 0);
    assert!(out.contains("rule morning = ") && out.contains("# last time: 60000 ms") && out.contains("# rule evening: on, never ran"), "{out}");
    store[barn::store::PENDING + 1 + 10] = 32;
    save(&store);
    let (status, out, _) = texts(&barn(&["explain", &path]));
    assert_eq!(status, 1);
    assert!(out.starts_with("refused 2 by every call but new: its budget is below B: word 13251, 32, and B is 32"), "{out}");
    assert_eq!(texts(&barn(&["watch", &path])).0, 1);
}

#[test]
fn a_day_with_pictures() {
    let folder = folder("pictures");
    let file = |name: &str| folder.join(name).to_string_lossy().into_owned();
    let day = ["day", &example("layer-house.rules"), "--sun", "07:00-17:00", "--cut", "12:00-12:01"].map(str::to_string);
    let pictures = ["--svg", &file("day.svg"), "--html", &file("day.html"), "--csv", &file("day.csv")].map(str::to_string);
    let all: Vec<&str> = day.iter().chain(&pictures).map(String::as_str).collect();
    let (status, out, _) = texts(&barn(&all));
    assert_eq!(status, 0);
    assert!(out.contains("05:15  morning  at time  light house full"), "{out}");
    assert!(out.contains("light 12 h 44 min, longest dark 11 h 15 min (17:45 to 05:00)"), "{out}");
    let svg = fs::read_to_string(file("day.svg")).expect("a picture");
    is_well_formed(&svg);
    // The cut of a minute is half a pixel, and drawn wider.
    assert!(svg.contains("width=\"2.0\" height=\"22.0\" fill=\"#b3392f\""), "{svg}");
    let html = fs::read_to_string(file("day.html")).expect("a page");
    assert!(html.contains("<svg") && !html.contains("src=") && !html.contains("href="));
    let csv = fs::read_to_string(file("day.csv")).expect("a table");
    assert!(csv.lines().all(|line| line.split(',').count() == 11), "{csv}");
}

#[test]
fn a_year_at_a_latitude() {
    let folder = folder("year");
    let svg = folder.join("year.svg").to_string_lossy().into_owned();
    let args = ["day", &example("layer-house.rules"), "--days", "40", "--latitude", "52.5", "--date", "2026-06-01", "--svg", &svg];
    let (status, out, _) = texts(&barn(&args));
    assert_eq!(status, 0);
    assert!(out.contains("house: light a day from 15 h 56 min (2026-06-01) to 16 h 12 min (2026-06-22)"), "{out}");
    is_well_formed(&fs::read_to_string(svg).expect("a picture"));
}

/// Elements are closed in their order, and text has no bare sign.
fn is_well_formed(svg: &str) {
    let mut open: Vec<&str> = Vec::new();
    let mut rest = svg;
    while let Some(at) = rest.find('<') {
        let text = &rest[..at];
        assert!(!text.contains('>') && text.matches('&').count() == text.matches(';').count(), "{text}");
        let end = rest[at..].find('>').expect("closed") + at;
        let tag = &rest[at + 1..end];
        if let Some(name) = tag.strip_prefix('/') {
            assert_eq!(open.pop(), Some(name));
        } else if !tag.ends_with('/') {
            open.push(tag.split_whitespace().next().unwrap_or(""));
        }
        assert_eq!(tag.matches('"').count() % 2, 0, "{tag}");
        rest = &rest[end + 1..];
    }
    assert!(open.is_empty(), "{open:?}");
}
