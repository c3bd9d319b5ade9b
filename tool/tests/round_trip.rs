//! Show, then words, gives the same tree, for every accepted image of the edges, the recorded histories and the generators.

mod common;

use std::collections::BTreeSet;

use barn::image::Unread;
use barn::names::Book;
use barn::schema::{kinds, Table};
use barn::{image, parse, spell, written};
use cerambiu::Refused;
use oracle::house::Call;

/// Images that are tried at the least.
const IMAGES: usize = 10_000;

#[derive(Default)]
struct Tally {
    seen: BTreeSet<Vec<u32>>,
    /// Tables and kinds that were met; of values also the reading.
    met: BTreeSet<(Table, u32, u32)>,
    tried: usize,
    /// Accepted images whose lists are shared so often that they are not read.
    too_large: usize,
    longest_text: usize,
}

impl Tally {
    fn try_image(&mut self, words: &[u32]) {
        if common::load_number(words) != 0 || !self.seen.insert(words.to_vec()) {
            return;
        }
        let tree = match image::read(words) {
            Ok(tree) => tree,
            Err(Unread::TooLarge) => {
                assert_eq!(written::written(words), Err(Refused(40)), "not read, and written anew: {words:?}");
                return self.too_large += 1;
            }
            Err(why) => panic!("accepted by load and not read: {why:?}: {words:?}"),
        };
        let text = spell::text(&tree, &Book::default());
        let file = parse::file(&text, &Book::default()).unwrap_or_else(|faults| {
            panic!("{}\n{text}", barn::fault::render("shown", &text, &faults));
        });
        assert_eq!(file.set, tree, "shown and read again:\n{text}");
        let written = image::write(&file.set);
        assert_eq!(image::read(&written).as_ref(), Ok(&tree), "written and read again");
        if written.len() <= image::MOST_WORDS {
            assert_eq!(common::load_number(&written), 0, "load accepts what is written: {written:?}");
            assert_eq!(image::write(&image::read(&written).expect("read")), written, "writing a written one changes nothing");
            assert_eq!(written::written(words).as_ref(), Ok(&written), "the proved function writes the same words");
        } else {
            assert_eq!(written::written(words), Err(Refused(40)), "too long, and written anew: {words:?}");
        }
        tree.each(|table, record| {
            let reading = if table == Table::Values && record.kind > 0 { record.word(0) } else { 0 };
            self.met.insert((table, record.kind, reading));
        });
        self.longest_text = self.longest_text.max(text.len());
        self.tried += 1;
    }
}

#[test]
fn show_then_words_gives_the_same_tree() {
    let mut tally = Tally::default();
    for call in common::recorded() {
        if let Call::Load { image, .. } = call {
            tally.try_image(&image);
        }
    }
    let of_files = tally.tried;
    assert!(of_files > 50, "{of_files}");
    let mut seed = 0;
    while tally.tried < IMAGES {
        for call in common::history(seed) {
            if let Call::Load { image, .. } = call {
                tally.try_image(&image);
            }
        }
        seed += 1;
    }
    for table in [Table::Triggers, Table::Conditions, Table::Actions, Table::Values, Table::Bounds] {
        for kind in 0..kinds(table).0.len() as u32 {
            assert!(tally.met.iter().any(|met| (met.0, met.1) == (table, kind)), "{} {kind} was never met", table.name());
        }
    }
    for (kind, reading) in [1, 2].into_iter().flat_map(|kind| (0..=22).map(move |reading| (kind, reading))) {
        assert!(tally.met.contains(&(Table::Values, kind, reading)), "value {kind} with reading {reading} was never met");
    }
    println!("round trip: {} images, {of_files} of them of files, the longest text {} bytes; {} too large", tally.tried, tally.longest_text, tally.too_large);
}
