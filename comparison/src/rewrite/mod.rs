//! `comparison rewrite COUNT SEED`: images written anew by the proved call, beside the oracle's own code, which is written from the request alone (document 02's
//! request 11): the published engine has no images.
//!
//! - Trees: so many drawn ones, and some of 4,088 to 4,104 words and far more, each laid out in four ways: its lists in any order, equal ones shared, lists that
//!   overlap, records that nothing mentions and empty lists that start anywhere. All layouts get one answer, which has the tree's words in number, describes the
//!   tree, is accepted by load, and is written as itself; a tree of more than 4,096 words is refused with 40.
//! - Histories: so many, of five sorts. Their images, hostile ones too, go through both; and with every image replaced by its written one all answers of the calls
//!   stay.
//!
//! Of each call: the number, the answer, and every lent word, which were filled with other words before; with just the room that it takes, with more, with a word
//! less, and with none. Prints each difference and the counts; its status is 1 if there is a difference or something was never met.

mod histories;
mod layout;
mod tree;

use std::collections::BTreeMap;
use std::process::ExitCode;
use std::time::Instant;

use cerambiu::words;
use oracle::check::image_refusal;
use oracle::house::Call;
use oracle::random::Random;
use oracle::rewrite::rewrite;

use crate::calls::house::{filled, zeros_behind};
use crate::store::WORDS;
use layout::{Counts, STYLES};
use tree::Tree;

const MOST_WORDS: usize = 4_096;
/// The refusals that must be met.
const NUMBERS: [u32; 10] = [10, 11, 12, 13, 14, 15, 16, 17, 40, 41];

/// The status of the command; None for another command.
pub fn command() -> Option<ExitCode> {
    let args: Vec<String> = std::env::args().skip(1).collect();
    let (first, numbers) = args.split_first()?;
    if first != "rewrite" {
        return None;
    }
    let numbers: Vec<u64> = numbers.iter().map_while(|word| word.parse().ok()).collect();
    let [count, seed] = numbers[..] else {
        eprintln!("usage: comparison rewrite COUNT SEED");
        return Some(ExitCode::from(2));
    };
    let mut tally = Tally::default();
    (seed..seed + count).for_each(|seed| tally.trees(seed));
    (seed..seed + count).for_each(|seed| tally.histories(seed));
    Some(ExitCode::from(u8::from(!tally.report())))
}

#[derive(Default)]
struct Tally {
    trees: u64,
    layouts: u64,
    laid: Counts,
    full: u64,
    over: u64,
    histories: u64,
    images: u64,
    changed: u64,
    answers: u64,
    calls: u64,
    written: u64,
    refused: BTreeMap<u32, u64>,
    differences: u64,
}

impl Tally {
    fn ask(&mut self, holds: bool, text: impl FnOnce() -> String) {
        if !holds {
            self.differences += 1;
            if self.differences <= 10 {
                println!("{}", text().chars().take(600).collect::<String>());
            }
        }
    }

    /// One call of both: the number, the answer and every lent word. What the proved call has written.
    fn call(&mut self, image: &[u32], room: usize, answer_words: usize) -> Option<Vec<u32>> {
        let (mut lent, mut answer) = (filled(room), filled(answer_words));
        let number = words::rewrite(image, &mut lent, &mut answer);
        let (wanted_number, wanted) = match rewrite(room, image) {
            Ok(words) => (0, words),
            Err(number) => (number, Vec::new()),
        };
        self.calls += 1;
        match wanted_number {
            0 => self.written += 1,
            _ => *self.refused.entry(wanted_number).or_default() += 1,
        }
        let count = wanted.len();
        let same = number == wanted_number
            && lent == zeros_behind(wanted, room)
            && answer == zeros_behind(vec![count as u32], answer_words);
        self.ask(same, || format!("room {room}: proved {number} {answer:?}, wanted {wanted_number} and {count} words: {image:?}"));
        lent.truncate(count);
        (number == 0).then_some(lent)
    }

    /// With each room that matters; what is written where there is room.
    fn image(&mut self, image: &[u32]) -> Option<Vec<u32>> {
        let written = self.call(image, MOST_WORDS, 3);
        self.call(image, 0, 1);
        if let Some(words) = &written {
            self.call(image, words.len(), 0);
            self.call(image, words.len() - 1, 2);
        }
        written
    }

    fn trees(&mut self, seed: u64) {
        let mut random = Random::new(seed);
        let set = tree::drawn(&mut random);
        self.tree(&set.words(), seed);
        if seed % 8 == 0 {
            let words = random.pick([4_088, 4_095, 4_096, 4_096, 4_097, 4_104]);
            tree::padded(&set, words).iter().for_each(|set| self.tree(&set.words(), seed));
            let depth = random.from_to(5, 10);
            self.tree(&tree::doubled(&mut random, depth).words(), seed);
        }
    }

    /// The tree of an image, which may have more words than an image may have, laid out in four ways.
    fn tree(&mut self, image: &[u32], seed: u64) {
        let Some(tree) = Tree::of(image) else {
            return self.ask(false, || format!("tree {seed}: the tables are out of place"));
        };
        let mut written = None;
        for (at, style) in STYLES.into_iter().enumerate() {
            let (image, counts) = layout::image(&tree, style, seed.wrapping_mul(4).wrapping_add(at as u64));
            if image.len() > MOST_WORDS {
                continue;
            }
            // 16 depends on the tree alone.
            if !matches!(image_refusal(&image), None | Some(16)) {
                return self.ask(false, || format!("tree {seed}, layout {at}: load refuses it: {image:?}"));
            }
            self.see(counts);
            let words = self.image(&image);
            let before = written.get_or_insert_with(|| words.clone());
            let same = *before == words;
            self.ask(same, || format!("tree {seed}, layout {at}: {words:?}, another layout {image:?}"));
        }
        self.trees += 1;
        self.over += u64::from(tree.size() > MOST_WORDS);
        self.full += u64::from(tree.size() == MOST_WORDS);
        if let Some(words) = written.flatten() {
            self.one_image(&tree, &words, seed);
        }
    }

    fn see(&mut self, Counts { shared, overlapping, unused }: Counts) {
        self.layouts += 1;
        self.laid.shared += shared;
        self.laid.overlapping += overlapping;
        self.laid.unused += unused;
    }

    /// What is promised of a written image.
    fn one_image(&mut self, tree: &Tree, words: &[u32], seed: u64) {
        self.ask(words.len() == tree.size(), || format!("tree {seed}: {} words written, {} of the tree", words.len(), tree.size()));
        self.ask(Tree::of(words).as_ref() == Some(tree), || format!("tree {seed}: another tree: {words:?}"));
        let mut store = vec![0; WORDS];
        let number = words::load(&mut store, 0, words);
        self.ask(number == 0, || format!("tree {seed}: load refuses what is written with {number}: {words:?}"));
        let again = self.call(words, words.len(), 1);
        self.ask(again.as_deref() == Some(words), || format!("tree {seed}: written again it is {again:?}"));
    }

    fn histories(&mut self, seed: u64) {
        for (at, history) in histories::of(seed).iter().enumerate() {
            self.histories += 1;
            for call in history {
                if let Call::Load { image, .. } = call {
                    self.images += 1;
                    let written = self.image(image);
                    self.changed += u64::from(written.is_some_and(|words| words != *image));
                }
            }
            let written = |image: &[u32]| {
                let mut lent = filled(MOST_WORDS);
                let mut answer = [0];
                let number = words::rewrite(image, &mut lent, &mut answer);
                lent.truncate(answer[0] as usize);
                (number == 0).then_some(lent)
            };
            let (answers, apart) = histories::compare(history, written);
            self.answers += answers;
            self.ask(apart.is_none(), || format!("history {seed}, sort {at}: call {apart:?} answers otherwise with written images"));
        }
    }

    fn report(&self) -> bool {
        let Counts { shared, overlapping, unused } = self.laid;
        println!("rewrite: {} trees in {} layouts: {shared} lists shared, {overlapping} overlapping, {unused} unused records; {} trees of {MOST_WORDS} words, {} of more", self.trees, self.layouts, self.full, self.over);
        println!("rewrite: {} histories, {} images, {} written otherwise than given, {} answers of calls stay", self.histories, self.images, self.changed, self.answers);
        let refused: Vec<String> = self.refused.iter().map(|(number, count)| format!("{number}: {count}")).collect();
        println!("rewrite: {} calls: {} written, refused with {}", self.calls, self.written, refused.join(", "));
        println!("rewrite: an image of 2^400 records is refused in {:.3} ms, one of {MOST_WORDS} words written in {:.3} ms", timed(&doubling(400)), timed(&full()));
        let refused = NUMBERS.iter().all(|number| self.refused.contains_key(number));
        let met = [shared, overlapping, unused, self.full, self.over, self.changed, self.answers, self.written].iter().all(|count| *count > 0);
        println!("rewrite: {} differences", self.differences);
        self.differences == 0 && refused && met
    }
}

/// A block that nobody calls: Conditionals that hold the next record as then and as else, so deep.
fn doubling(depth: u32) -> Vec<u32> {
    let mut words = vec![3, 0, 1, 0, 0, 0, 0, 0, 14, 0, 0, 0, 0, 0, 0, 0];
    (1..=depth).for_each(|next| words.extend([27, 0, next, 1, next, 1, 0, 0]));
    words.extend([21, 7, 0, 0, 0, 0, 0, 0]);
    let end = words.len() as u32;
    words.extend([8, 8, 255, 255, 255, 0, 0, 8, 8, 16, end, end, end]);
    words
}

/// A block of 509 records: a Repeat in a Repeat and so on, and three words of a pool: 4,096 words.
fn full() -> Vec<u32> {
    let mut words = vec![3, 0, 1, 0, 0, 0, 0, 0];
    (1..509).for_each(|next| words.extend([26, 1, next, 1, 0, 0, 0, 0]));
    words.extend([3, 0, 3, 0, 0, 0, 0, 0]);
    let end = words.len() as u32;
    words.extend([1, 2, 3, 8, 8, 255, 255, 255, 0, 0, 8, 8, 8, end, end, end]);
    words
}

/// Milliseconds, the least of ten.
fn timed(image: &[u32]) -> f64 {
    let mut lent = vec![0; MOST_WORDS];
    let mut once = || {
        let began = Instant::now();
        words::rewrite(image, &mut lent, &mut []);
        began.elapsed().as_secs_f64() * 1e3
    };
    (0..10).map(|_| once()).fold(f64::INFINITY, f64::min)
}

#[cfg(test)]
mod tests {
    use oracle::rewrite::TOO_LARGE;

    use super::*;

    #[test]
    fn layouts_are_accepted_and_describe_their_tree() {
        let mut seen = Counts::default();
        for seed in 0..200 {
            let words = tree::drawn(&mut Random::new(seed)).words();
            let tree = Tree::of(&words).expect("tables in order");
            for style in STYLES {
                let (image, counts) = layout::image(&tree, style, seed);
                assert_eq!(image_refusal(&image), image_refusal(&words), "{seed} {style:?}");
                assert_eq!(Tree::of(&image), Some(tree.clone()), "{seed} {style:?}");
                seen.shared += counts.shared;
                seen.overlapping += counts.overlapping;
                seen.unused += counts.unused;
            }
        }
        assert!(seen.shared > 0 && seen.overlapping > 0 && seen.unused > 0, "{seen:?}");
    }

    #[test]
    fn timed_images() {
        assert_eq!(rewrite(0, &doubling(400)), Err(TOO_LARGE));
        assert_eq!(full().len(), MOST_WORDS);
        assert_eq!(rewrite(MOST_WORDS, &full()), Ok(full()));
    }
}
