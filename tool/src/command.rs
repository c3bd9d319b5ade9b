//! The commands. Each gives what it prints and its exit status: 0 fine, 1 the rules, words or expectations fail, 2 wrong usage.

use std::path::Path;

use crate::args::Args;
use crate::explain;
use crate::fault::render;
use crate::files::{self, Rules, Stop};
use crate::flat;
use crate::help;
use crate::image::{self, Tables};
use crate::lint;
use crate::names::Book;
use crate::spell;
use crate::state::Teller;
use crate::store::{State, WORDS};

/// What is printed on standard output and on standard error, and the exit status.
#[derive(Debug, Default)]
pub struct Said {
    pub out: String,
    pub err: String,
    pub status: u8,
}

pub fn run(args: &[String]) -> Said {
    let (command, rest) = match args.split_first() {
        Some((command, rest)) => (command.as_str(), rest),
        None => return Said { err: help::SHORT.to_string(), status: 2, ..Said::default() },
    };
    if matches!(command, "--help" | "-h" | "help") {
        let text = rest.first().and_then(|name| help::of(name)).unwrap_or(help::ALL);
        return Said { out: text.to_string(), ..Said::default() };
    }
    if let Some(text) = help::of(command).filter(|_| rest.iter().any(|arg| arg == "--help" || arg == "-h")) {
        return Said { out: text.to_string(), ..Said::default() };
    }
    let said = match command {
        "check" => check(rest),
        "words" => words(rest),
        "show" => show(rest),
        "explain" => explained(rest),
        "day" => crate::day::command(rest),
        "test" => crate::test::command(rest),
        "log" => crate::log::command(rest),
        "watch" => crate::watch::command(rest),
        other => {
            let near = crate::fault::nearest(other, help::COMMANDS).map_or(String::new(), |near| format!(" Is `{near}` meant?"));
            Err(Stop::usage(format!("barn: no command `{other}`.{near}\n{}", help::SHORT)))
        }
    };
    said.unwrap_or_else(|Stop { text, status }| Said { err: text, status, ..Said::default() })
}

/// Exactly one file, and maybe a second.
fn one_file<'a>(command: &str, args: &'a Args, most: usize) -> Result<&'a str, Stop> {
    match args.given.first() {
        Some(file) if args.given.len() <= most => Ok(file),
        _ => Err(Stop::usage(help::of(command).unwrap_or(help::SHORT))),
    }
}

// RULES ------------------------------------------------------------------------------------------------------------------------------------

/// The words of a file's set, as the proved load accepts them; and its warnings.
pub fn accepted(rules: &Rules) -> Result<Vec<u32>, Stop> {
    let words = image::write(&rules.file.set);
    let mut store = vec![0; cerambiu::STORE_WORDS];
    let loaded = cerambiu::new(&mut store, 0).and_then(|()| cerambiu::load(&mut store, 0, &words));
    match loaded {
        Ok(()) => Ok(words),
        Err(refused) => {
            let why = explain::image::refusal(&words, &rules.file.book);
            let why = why.map_or(String::new(), |refusal| explain::text(&refusal, "load", &[]));
            Err(Stop::fails(format!("error: load refuses this set with {}\n  --> {}\n{why}", refused.0, rules.path)))
        }
    }
}

fn plural(count: usize, one: &str, many: &str) -> String {
    format!("{count} {}", if count == 1 { one } else { many })
}

fn check(args: &[String]) -> Result<Said, Stop> {
    let args = Args::read("check", args, &[], &["--strict"])?;
    let rules = files::read_rules(one_file("check", &args, 1)?)?;
    let words = accepted(&rules)?;
    let warnings = lint::warnings(&rules.file);
    let steps = Tables::of(&words).map_or(0, |tables| flat::flatten(&tables).steps());
    let set = &rules.file.set;
    let room = cerambiu::room(&words).map_err(|refused| Stop::fails(format!("barn check: room refuses this set with {}\n", refused.0)))?;
    let out = format!(
        "{}: {}, {}, {}; {} of 4096 words, {steps} of 2048 flat steps, budget {}; {}\n{}",
        rules.path,
        plural(set.rules.len(), "rule", "rules"),
        plural(set.blocks.len(), "block", "blocks"),
        plural(rules.file.expects.len(), "expectation", "expectations"),
        words.len(),
        set.limits.budget,
        plural(warnings.len(), "warning", "warnings"),
        room_text(room)
    );
    let status = u8::from(args.has("--strict") && !warnings.is_empty());
    Ok(Said { out, err: render(&rules.path, &rules.source, &warnings), status })
}

/// What a controller must lend, so that no call is refused for want of room.
fn room_text(room: cerambiu::Handled) -> String {
    let (outcomes, effects) = (room.outcomes as usize, room.effects as usize);
    format!(
        "a tick or a run gives at most {} and {}: a controller lends {} and {} words\n",
        plural(outcomes, "outcome", "outcomes"),
        plural(effects, "effect", "effects"),
        outcomes * cerambiu::OUTCOME_WORDS,
        effects * cerambiu::EFFECT_WORDS
    )
}

fn words(args: &[String]) -> Result<Said, Stop> {
    let args = Args::read("words", args, &["-o"], &["--no-names"])?;
    let rules = files::read_rules(one_file("words", &args, 1)?)?;
    let words = accepted(&rules)?;
    let names = files::names_path(&rules.path);
    let mut said = Said { err: render(&rules.path, &rules.source, &lint::warnings(&rules.file)), ..Said::default() };
    match args.value("-o") {
        Some(path) => files::write(path, &files::image_bytes(path, &words), &[Path::new(&rules.path), &names])?,
        None => said.out = files::image_text(&words),
    }
    let text = rules.file.book.write();
    let is_new = std::fs::read_to_string(&names).map_or(true, |was| was != text);
    if is_new && !args.has("--no-names") {
        files::write_names(&names, &text)?;
        said.err.push_str(&format!("names: {}\n", names.display()));
    }
    Ok(said)
}

// WORDS ------------------------------------------------------------------------------------------------------------------------------------

/// The names of an optional file; without one, those beside the words.
pub fn names_for(words: &str, names: Option<&String>) -> Result<Book, Stop> {
    match names {
        Some(path) => files::read_names(std::path::Path::new(path)),
        None => files::known_names(words),
    }
}

fn show(args: &[String]) -> Result<Said, Stop> {
    let args = Args::read("show", args, &[], &[])?;
    let path = one_file("show", &args, 2)?;
    let words = files::read_words(path)?;
    let book = names_for(path, args.given.get(1))?;
    if words.len() != WORDS {
        return Ok(Said { out: image_text(path, &words, &book)?, ..Said::default() });
    }
    if let Some(refusal) = explain::store::refusal(&words, &book) {
        return Err(Stop::fails(explain::text(&refusal, "every call but new", &[])));
    }
    let state = State::of(&words).ok_or_else(|| Stop::fails(format!("barn: {path} is no store\n")))?;
    let mut book = book;
    let mut out = String::new();
    if let Some(image) = state.image() {
        let set = image::read(image).map_err(|_| unread(path))?;
        spell::mentioned(&set).into_iter().for_each(|(sort, numbers)| book.complete(sort, numbers));
        out = spell::text(&set, &book);
        out.push('\n');
    }
    let teller = Teller::new(&state, &book);
    let told = teller.rules_text() + &teller.waits_text() + &teller.variables_text() + &teller.counters_text();
    out.push_str("# The store\n");
    told.lines().for_each(|line| out.push_str(&format!("# {line}\n")));
    Ok(Said { out, ..Said::default() })
}

fn unread(path: &str) -> Stop {
    Stop::fails(format!("barn: {path}: its lists are shared so often that the text would have over 50000 lines; load accepts it\n"))
}

fn image_text(path: &str, words: &[u32], book: &Book) -> Result<String, Stop> {
    if let Some(refusal) = explain::image::refusal(words, book) {
        return Err(Stop::fails(explain::text(&refusal, "load", &explain::image::NUMBERS)));
    }
    image::read(words).map(|set| spell::text(&set, book)).map_err(|_| unread(path))
}

fn explained(args: &[String]) -> Result<Said, Stop> {
    let args = Args::read("explain", args, &["--as"], &[])?;
    let path = one_file("explain", &args, 2)?;
    let words = files::read_words(path)?;
    let book = names_for(path, args.given.get(1))?;
    let what = match args.value("--as") {
        Some(what @ ("image" | "snapshot" | "store")) => what,
        Some(other) => return Err(Stop::usage(format!("barn explain: --as image, snapshot or store, not `{other}`\n"))),
        None => guess(path, &words),
    };
    let (refusal, by, later): (_, _, &[u32]) = match what {
        "store" => (explain::store::refusal(&words, &book), "every call but new", &[1, 2]),
        "snapshot" => (explain::snapshot::refusal(&words), "tick and run", &explain::snapshot::NUMBERS),
        _ => (explain::image::refusal(&words, &book), "load", &explain::image::NUMBERS),
    };
    Ok(match refusal {
        Some(refusal) => Said { out: explain::text(&refusal, by, later), status: 1, ..Said::default() },
        None => Said { out: format!("{path}: {} words, accepted as {what} by {by}\n", words.len()), ..Said::default() },
    })
}

/// What words are taken for: by the file's name, by their number, or as what accepts them.
fn guess(path: &str, words: &[u32]) -> &'static str {
    let end = std::path::Path::new(path).extension().map(|end| end.to_string_lossy().into_owned());
    match end.as_deref() {
        Some("store") => "store",
        Some("snap" | "snapshot") => "snapshot",
        Some("img" | "image" | "words") => "image",
        _ if words.len() == WORDS => "store",
        _ if explain::snapshot::refusal(words).is_none() => "snapshot",
        _ => "image",
    }
}
