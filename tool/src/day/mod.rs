//! `barn day`: what a set does to a day, as text and as pictures.

pub mod options;
pub mod report;

use std::path::Path;

use crate::account;
use crate::args::Args;
use crate::command::{accepted, Said};
use crate::draw;
use crate::explain;
use crate::files::{self, Stop};
use crate::help;
use crate::image;
use crate::names::Book;
use crate::play::{self, Plan, Played, DAY};
use crate::schema::Sort;
use crate::spell;
use crate::tree::Set;

/// All that the texts and pictures are made from.
pub struct Shown<'a> {
    pub title: String,
    pub book: &'a Book,
    pub plan: &'a Plan,
    pub played: &'a Played,
    /// Name and spells of each light, in the order of their names.
    pub lights: Vec<(String, Vec<account::Spell>)>,
}

impl<'a> Shown<'a> {
    /// Lights that nothing was told stand there too, as they are: not told.
    pub fn new(title: &str, set: &Set, book: &'a Book, plan: &'a Plan, played: &'a Played) -> Shown<'a> {
        let (start, end) = (-8 * DAY, plan.days * DAY);
        let mut spells = account::spells(played, start, end);
        let untold = account::Spell { from: start, to: end, ppm: None, cut: false };
        let mentioned = spell::mentioned(set);
        for light in &mentioned[Sort::Light as usize].1 {
            spells.entry(*light).or_insert_with(|| vec![untold]);
        }
        let mut lights: Vec<_> = spells.into_iter().map(|(light, spells)| (book.name(Sort::Light, light), spells)).collect();
        lights.sort_by(|a, b| a.0.cmp(&b.0));
        Shown { title: title.to_string(), book, plan, played, lights }
    }
}

const VALUES: [&str; 12] = [
    "--days",
    "--sun",
    "--latitude",
    "--date",
    "--tick",
    "--press",
    "--cut",
    "--after-cut",
    "--set-clock",
    "--svg",
    "--html",
    "--csv",
];
/// Longer runs print no timeline unless it is asked for.
const MOST_DAYS_TOLD: i64 = 7;
/// Longer runs print the light hours of the months' first days, the least and the most.
const MOST_DAYS_BARRED: i64 = 31;

pub fn command(args: &[String]) -> Result<Said, Stop> {
    let args = Args::read("day", args, &VALUES, &["--new", "--timeline"])?;
    let [path] = args.given.as_slice() else { return Err(Stop::usage(help::of("day").unwrap_or_default())) };
    let (set, book, words) = rules_or_image(path)?;
    let plan = options::plan(&args, &book)?;
    let played = play::play(&words, &book, &plan, true).map_err(|what| Stop::fails(format!("barn day: {what}\n")))?;
    let title = Path::new(path).file_name().map_or(path.clone(), |name| name.to_string_lossy().into_owned());
    let shown = Shown::new(&title, &set, &book, &plan, &played);
    let mut out = report::head(&shown);
    if plan.days <= MOST_DAYS_TOLD || args.has("--timeline") {
        out.push_str(&report::timeline(&shown));
        out.push('\n');
    }
    out.push_str(&match plan.days <= MOST_DAYS_BARRED {
        true => report::bars(&shown),
        false => report::hours(&shown),
    });
    let mut err = report::notes(&shown, &set);
    for (option, text) in [("--svg", draw::svg as fn(&Shown<'_>) -> String), ("--html", draw::html), ("--csv", report::csv)] {
        if let Some(target) = args.value(option) {
            files::write(target, text(&shown).as_bytes(), &[Path::new(path), &files::names_path(path)])?;
            err.push_str(&format!("written: {target}\n"));
        }
    }
    Ok(Said { out, err, status: 0 })
}

/// A file of rules; or an image, with the names beside it.
fn rules_or_image(path: &str) -> Result<(Set, Book, Vec<u32>), Stop> {
    if !path.ends_with(".img") && !path.ends_with(".words") {
        let rules = files::read_rules(path)?;
        let words = accepted(&rules)?;
        return Ok((rules.file.set, rules.file.book, words));
    }
    let words = files::read_words(path)?;
    let book = files::known_names(path)?;
    if let Some(refusal) = explain::image::refusal(&words, &book) {
        return Err(Stop::fails(explain::text(&refusal, "load", &explain::image::NUMBERS)));
    }
    let set = image::read(&words).map_err(|_| Stop::fails(format!("barn day: {path}: its lists are shared too often to be shown\n")))?;
    Ok((set, book, words))
}
