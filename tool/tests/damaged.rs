//! No panic, whatever the bytes: text, words and stores in every state of damage are refused or read.

mod common;

use std::fs;
use std::process::Output;

use barn::names::Book;
use barn::state::Teller;
use barn::store::State;
use barn::day::{report, Shown};
use barn::play::{self, Plan};
use barn::{draw, explain, fault, files, image, lint, log, parse, spell};
use common::{barn, example, folder, texts, EXAMPLES};
use oracle::house::Call;
use oracle::random::Random;

// TEXT ---------------------------------------------------------------------------------------------------------------------------------------

fn damaged(random: &mut Random, bytes: &[u8]) -> Vec<u8> {
    let mut bytes = bytes.to_vec();
    for _ in 0..random.from_to(1, 8) {
        let at = random.below(bytes.len().max(1) as u32) as usize;
        match random.below(6) {
            0 if !bytes.is_empty() => bytes[at] = random.word() as u8,
            1 if !bytes.is_empty() => {
                bytes.remove(at);
            }
            2 => bytes.insert(at.min(bytes.len()), random.pick([b' ', b'\n', b'"', b'0', b'#', b'=', 0, 255, b'%', b'-'])),
            3 => bytes.truncate(at),
            4 => {
                let to = (at + random.below(40) as usize).min(bytes.len());
                let piece = bytes[at.min(to)..to].to_vec();
                bytes.splice(at..at, piece);
            }
            _ => {
                let words = ["end\n", "rule ", "99999999999999999999 ", "do\n", "after 1 s\n", "= ", "light ", "24:00 ", "-", "\u{e9}"];
                let word = random.pick(words);
                bytes.splice(at..at, word.bytes());
            }
        }
    }
    bytes
}

/// Text in every state of damage is refused or read; nothing panics.
#[test]
fn damaged_rules_never_panic() {
    let mut random = Random::new(3);
    let (mut good, mut bad) = (0, 0);
    let sources: Vec<Vec<u8>> = EXAMPLES.map(|name| fs::read(example(name)).expect("an example")).to_vec();
    for turn in 0..6_000 {
        let bytes = damaged(&mut random, &sources[turn % sources.len()]);
        let text = String::from_utf8_lossy(&bytes);
        match barn::parse::file(&text, &barn::names::Book::default()) {
            Ok(file) => {
                good += 1;
                let words = barn::image::write(&file.set);
                let _ = barn::fault::render("x", &text, &barn::lint::warnings(&file));
                assert_eq!(common::load_number(&words) == 0, barn::explain::image::refusal(&words, &file.book).is_none());
            }
            Err(faults) => {
                bad += 1;
                assert!(!faults.is_empty());
                assert!(barn::fault::render("x", &text, &faults).contains("error: "));
            }
        }
        let _ = barn::names::Book::read(&text);
    }
    assert!(good > 300 && bad > 1_000, "{good} {bad}");
}

#[test]
fn damaged_names_and_logs_never_panic() {
    let mut random = Random::new(9);
    let mut book = Book::read("monday 2\nrule a 7\nlight house 3\nverb dimmed 10 ppm 300000\ntext hello 4 \"Good # day\"\n").expect("names");
    book.complete(barn::schema::Sort::Timer, [5, 10, 4_000_000_000]);
    let names = book.write().into_bytes();
    let folder = common::repository().join("examples");
    let mut logs: Vec<Vec<u8>> = Vec::new();
    for entry in fs::read_dir(folder).expect("the examples") {
        let path = entry.expect("an entry").path();
        if path.extension().is_some_and(|end| end == "expected") {
            logs.push(fs::read(path).expect("a log"));
        }
    }
    let (mut read, mut refused) = (0, 0);
    for turn in 0..6_000 {
        match Book::read(&String::from_utf8_lossy(&damaged(&mut random, &names))) {
            Ok(found) => {
                read += 1;
                assert_eq!(Book::read(&found.write()), Ok(found));
            }
            Err((line, what)) => {
                refused += 1;
                assert!(line > 0 && !what.is_empty());
            }
        }
        let text = damaged(&mut random, &logs[turn % logs.len()]);
        let text = String::from_utf8_lossy(&text);
        assert_eq!(log::words(&text, &book).lines().count(), text.lines().count());
    }
    assert!(read > 300 && refused > 1_000, "{read} {refused}");
}

// WORDS --------------------------------------------------------------------------------------------------------------------------------------

fn changed(random: &mut Random, words: &[u32]) -> Vec<u32> {
    let mut words = words.to_vec();
    for _ in 0..random.from_to(1, 4) {
        let at = random.below(words.len().max(1) as u32) as usize;
        let Some(word) = words.get_mut(at) else { continue };
        *word = match random.below(4) {
            0 => word.wrapping_add(1),
            1 => word.wrapping_sub(1),
            2 => random.pick([0, 1, 2, 1 << 31, u32::MAX]),
            _ => random.word(),
        };
    }
    words
}

/// What `show` and `explain` do with an image.
fn image_is_told(words: &[u32], book: &Book) -> bool {
    match explain::image::refusal(words, book) {
        Some(refusal) => {
            assert!(explain::text(&refusal, "load", &explain::image::NUMBERS).starts_with("refused "));
            false
        }
        None => image::read(words).is_ok_and(|set| {
            let text = spell::text(&set, book);
            let file = parse::file(&text, book).unwrap_or_else(|faults| panic!("{}", fault::render("shown", &text, &faults)));
            let warnings = lint::warnings(&file);
            assert!(warnings.iter().all(|warning| warning.spot.line > 0 || warning.what.contains("order of their names")), "{warnings:?}");
            true
        }),
    }
}

/// What `show`, `watch` and `explain` do with a store.
fn store_is_told(store: &[u32], book: &Book) -> bool {
    if let Some(refusal) = explain::store::refusal(store, book) {
        assert!(explain::text(&refusal, "every call", &[]).starts_with("refused "));
        return false;
    }
    let state = State::of(store).expect("a store");
    let teller = Teller::new(&state, book);
    let texts = [teller.rules_text(), teller.waits_text(), teller.variables_text(), teller.counters_text()];
    let starts = [teller.next_start(None), teller.next_start(Some((420, 1_020)))];
    texts.iter().chain(&starts).all(|text| text.is_empty() || text.ends_with('\n'))
}

#[test]
fn damaged_words_never_panic() {
    let book = Book::default();
    let mut random = Random::new(13);
    let (mut outcomes, mut effects) = (vec![0; 8 * 1_184], vec![0; 5 * 65_536]);
    let (mut images, mut stores) = ([0; 2], [0; 2]);
    for seed in 0..300 {
        let mut store = common::new_store();
        for call in common::history(seed) {
            match call {
                Call::Load { time, image } => {
                    for words in [&image, &changed(&mut random, &image), &changed(&mut random, &image)] {
                        images[usize::from(image_is_told(words, &book))] += 1;
                    }
                    let _ = cerambiu::load(&mut store, time, &image);
                }
                Call::Tick { snapshot } => {
                    let _ = cerambiu::tick(&mut store, &snapshot, &mut outcomes, &mut effects);
                }
                Call::Run { rule, dry, snapshot } => {
                    let _ = cerambiu::run(&mut store, rule, dry, &snapshot, &mut outcomes, &mut effects);
                }
                _ => continue,
            }
            stores[usize::from(store_is_told(&store, &book))] += 1;
            let changed = changed(&mut random, &store);
            stores[usize::from(store_is_told(&changed, &book))] += 1;
        }
    }
    assert!(images.iter().chain(&stores).all(|count| *count > 200), "{images:?} {stores:?}");
}

/// Days of generated sets, with all that may befall them, as text and as pictures.
#[test]
fn any_set_is_played_and_drawn() {
    let book = Book::default();
    let mut played = 0;
    for seed in 0..200 {
        for call in common::history(seed) {
            let Call::Load { image, .. } = call else { continue };
            let is_small = cerambiu::room(&image).is_ok_and(|room| room.effects < 500);
            let Some(set) = image::read(&image).ok().filter(|_| is_small && played < 100) else { continue };
            let press = set.rules.first().map_or(Vec::new(), |rule| vec![(rule.name, 30_000), (rule.name, 7_200_000)]);
            let (cuts, clocks) = (vec![(3_600_000, 5_430_000)], vec![(4_000_000, 30), (9_000_000, 1_400)]);
            let plan = Plan { days: if seed % 40 == 0 { 16 } else { 1 }, seconds: false, from_new: true, presses: press, cuts, clocks, ..Plan::default() };
            let Ok(day) = play::play(&image, &book, &plan, false) else { continue };
            let shown = Shown::new("any", &set, &book, &plan, &day);
            let texts = [report::timeline(&shown), report::bars(&shown), report::hours(&shown), report::csv(&shown), draw::svg(&shown), draw::html(&shown)];
            assert!(texts[..2].iter().chain(&texts[3..]).all(|text| text.ends_with('\n')));
            assert!(report::notes(&shown, &set).lines().all(|line| line.starts_with("note: ")));
            played += 1;
        }
    }
    assert_eq!(played, 100);
}

/// The program itself on files that are nearly right.
#[test]
fn nearly_right_files_never_panic_the_program() {
    let folder = folder("nearly");
    let mut random = Random::new(17);
    let rules = files::read_rules(&example("broiler-house.rules")).expect("rules");
    let image = image::write(&rules.file.set);
    let mut store = common::new_store();
    cerambiu::load(&mut store, 0, &image).expect("loaded");
    let file = |name: &str| folder.join(name).to_string_lossy().into_owned();
    for turn in 0..24 {
        let (image_bytes, store_bytes) = (files::bytes_of(&image), files::bytes_of(&store));
        let decimal = files::image_text(&image).into_bytes();
        let names = damaged(&mut random, rules.file.book.write().as_bytes());
        let parts = [("a.img", damaged(&mut random, &image_bytes)), ("b.store", files::bytes_of(&changed(&mut random, &files::words_of(&store_bytes))))];
        for (name, bytes) in parts.into_iter().chain([("c.words", damaged(&mut random, &decimal)), ("a.names", names)]) {
            fs::write(file(name), bytes).expect("written");
        }
        for command in ["show", "explain", "watch", "log"] {
            seen(&barn(&[command, &file(["a.img", "b.store", "c.words"][turn % 3]), &file("a.names")]));
            seen(&barn(&[command, &file(["a.img", "b.store", "c.words"][turn % 3])]));
        }
        seen(&barn(&["day", &file(["a.img", "c.words"][turn % 2])]));
    }
}

/// The program itself on files of noise, and on nesting without end.
#[test]
fn damaged_files_never_panic_the_program() {
    let folder = folder("damaged");
    let path = folder.join("noise").to_string_lossy().into_owned();
    let rules = folder.join("noise.rules").to_string_lossy().into_owned();
    let mut random = Random::new(5);
    let mut files: Vec<Vec<u8>> = vec![Vec::new(), vec![0; 65_536], vec![255; 65_536], vec![b'9'; 100_000], b"after 1 s\n".repeat(50_000)];
    files.push([b"rule a\ndo\n".to_vec(), b"repeat 2\n".repeat(30_000)].concat());
    files.push([b"rule a\ndo\n".to_vec(), b"when sun is up\n".repeat(500), b"end\n".repeat(502)].concat());
    for _ in 0..6 {
        let size = random.below(3_000) as usize;
        files.push((0..size).map(|_| random.word() as u8).collect());
    }
    for bytes in files {
        fs::write(&path, &bytes).expect("written");
        fs::write(&rules, &bytes).expect("written");
        for command in ["show", "explain", "watch", "log"] {
            seen(&barn(&[command, &path]));
        }
        for command in ["check", "words", "day", "test"] {
            seen(&barn(&[command, &rules]));
        }
        let _ = fs::remove_file(folder.join("noise.names"));
    }
}

fn seen(output: &Output) {
    let (status, _, err) = texts(output);
    assert!((0..=2).contains(&status) && !err.contains("panicked"), "{status} {err}");
}
