//! `barn log`: the lines that `play` prints, in words. A line that is none of them is handed on as it is.

use std::fmt::Write as _;
use std::io::Read as _;

use crate::args::Args;
use crate::command::{names_for, Said};
use crate::effect;
use crate::files::Stop;
use crate::help;
use crate::names::Book;
use crate::schema::{Sort, Table, AT_TIME};
use crate::spell::{span, Speller};
use crate::state::TRIGGERS;
use crate::store::COUNTER_NAMES;
use crate::tree::Record;

pub fn command(args: &[String]) -> Result<Said, Stop> {
    let args = Args::read("log", args, &[], &[])?;
    let path = match args.given.as_slice() {
        [path] | [path, _] => path,
        _ => return Err(Stop::usage(help::of("log").unwrap_or_default())),
    };
    let mut bytes = Vec::new();
    let read = match path.as_str() {
        "-" => std::io::stdin().read_to_end(&mut bytes).map(|_| ()),
        path => std::fs::read(path).map(|found| bytes = found),
    };
    read.map_err(|error| Stop::usage(format!("barn: {path}: {error}\n")))?;
    let book = names_for(path, args.given.get(1))?;
    Ok(Said { out: words(&String::from_utf8_lossy(&bytes), &book), ..Said::default() })
}

pub fn words(text: &str, book: &Book) -> String {
    let mut out = String::new();
    for line in text.lines() {
        let _ = writeln!(out, "{}", line_words(line, book));
    }
    out
}

fn line_words(line: &str, book: &Book) -> String {
    let parts: Vec<&str> = line.split_whitespace().collect();
    let numbers: Option<Vec<u64>> = parts.iter().skip(1).map(|part| part.parse().ok()).collect();
    let (Some(head), Some(numbers)) = (parts.first(), numbers) else { return told(&parts, line, book) };
    let small: Option<Vec<u32>> = numbers.iter().map(|number| u32::try_from(*number).ok()).collect();
    match (*head, numbers.as_slice(), small.as_deref()) {
        ("tick" | "run", [time, 0], _) => format!("{} {head}: nothing", clock(*time)),
        ("tick" | "run", [time, count], _) => format!("{} {head}: {}", clock(*time), plural(*count, "outcome")),
        ("rule", _, Some([rule, dry, trigger, reason, count])) => outcome(book, [*rule, *dry, *trigger, *reason, *count]),
        ("effect", _, Some(words @ [_, _, _, _, _])) => format!("      {}", effect::words(words, book)),
        ("deadline", [time], _) => format!("next deadline: {}", clock(*time)),
        ("counters", _, Some(counts)) if counts.len() == COUNTER_NAMES.len() => {
            let list = COUNTER_NAMES.iter().zip(counts).filter(|(_, count)| **count > 0);
            let list: Vec<String> = list.map(|(name, count)| format!("{name} {count}")).collect();
            format!("counters: {}", if list.is_empty() { "all 0".to_string() } else { list.join(", ") })
        }
        (_, _, Some(small)) => asked(head, small, book).unwrap_or_else(|| line.to_string()),
        _ => line.to_string(),
    }
}

/// The lines of the calls that only ask.
fn asked(head: &str, numbers: &[u32], book: &Book) -> Option<String> {
    Some(match (head, numbers) {
        ("telegrams", [count]) => format!("telegrams: {} to send", plural((*count).into(), "effect")),
        ("crontab", [count]) => format!("crontab: {}", plural((*count).into(), "trigger")),
        ("trigger", [hour, minute, days]) => format!("      {}", at_time([*hour, *minute, *days], book)),
        ("start", [1, 0, 0]) => "      no sun".to_string(),
        ("start", [0, minute, left]) => solar_start(*minute, (*left).into()),
        ("start", [minutes, rule]) => {
            let ahead = span(u64::from(*minutes) * 60_000);
            format!("next start by the clock: rule {}, in {ahead}", book.name(Sort::Rule, *rule))
        }
        ("room", [outcomes, effects]) => {
            format!("room: a tick or a run gives at most {} and {}", plural((*outcomes).into(), "outcome"), plural((*effects).into(), "effect"))
        }
        ("readback", [count]) => format!("readback: {} by the sun", plural((*count).into(), "start")),
        ("rewrite", [count, image @ ..]) if *count as usize == image.len() => {
            let words: Vec<String> = image.iter().map(u32::to_string).collect();
            format!("rewrite: written anew {}: {}", plural((*count).into(), "word"), words.join(" "))
        }
        ("shortlist", [0, _, _, _]) => "short list: no action".to_string(),
        ("shortlist", [length @ 1..=3, places @ ..]) if places.len() == 3 => {
            let list: Vec<String> = places.iter().take(*length as usize).map(u32::to_string).collect();
            format!("short list: the actions at {}", list.join(", "))
        }
        _ => return None,
    })
}

fn at_time(fields: [u32; 3], book: &Book) -> String {
    Speller { book }.head(Table::Triggers, &Record::new(AT_TIME, &fields))
}

/// A start by the sun: its minute of the day, and what is left of its offset in milliseconds.
fn solar_start(minute: u32, left: i64) -> String {
    let side = if left < 0 { "-" } else { "+" };
    format!("      {:02}:{:02} {side} {}", minute / 60, minute % 60, span(left.unsigned_abs()))
}

fn plural(count: u64, one: &str) -> String {
    format!("{count} {one}{}", if count == 1 { "" } else { "s" })
}

/// Lines with words in them.
fn told(parts: &[&str], line: &str, book: &Book) -> String {
    let number = |text: &str| text.parse::<u32>().ok();
    match parts {
        ["deadline", "none"] => "next deadline: none".to_string(),
        ["start", "none"] => "next start by the clock: none".to_string(),
        ["start", "unknown"] => "next start by the clock: the clock is not known".to_string(),
        ["start", "0", minute, left] => match (number(minute), left.parse().ok()) {
            (Some(minute), Some(left)) => solar_start(minute, left),
            _ => line.to_string(),
        },
        ["enable", rule, is_there @ ("yes" | "no")] => match number(rule) {
            Some(rule) if *is_there == "yes" => format!("rule {}: switched", book.name(Sort::Rule, rule)),
            Some(rule) => format!("rule {}: no such rule is loaded", book.name(Sort::Rule, rule)),
            None => line.to_string(),
        },
        [call, "refused", told] => match number(told) {
            Some(number) => format!("{call} refused {number}: {}", refusal(number)),
            None => line.to_string(),
        },
        _ => line.to_string(),
    }
}

fn outcome(book: &Book, [rule, dry, trigger, reason, count]: [u32; 5]) -> String {
    let mut text = format!("   rule {} ({}", book.name(Sort::Rule, rule), TRIGGERS.get(trigger as usize).unwrap_or(&"?"));
    if dry == 1 {
        text.push_str(", dry");
    }
    text.push(')');
    if count == 0 {
        text.push_str(": no effect");
    }
    if reason != 0 {
        let _ = write!(text, "; {}", effect::reason(reason));
    }
    text
}

/// A time of the engine: milliseconds, and what they are from its start.
fn clock(time: u64) -> String {
    format!("{time} ms ({})", span(time))
}

/// What a refusal says, in the words of docs/FOR-FITTERS.md.
pub fn refusal(number: u32) -> &'static str {
    match number {
        1 => "the store does not have 16384 words",
        2 => "the store breaks one of its rules",
        10 => "the rule image has under 13 or over 4096 words",
        11 => "a limit of the image is out of range",
        12 => "a table of the image is out of place",
        13 => "an unknown kind, a field out of range, or a word that must be 0 is not",
        14 => "a rule, block or list refers to something outside its table",
        15 => "two rules have one name",
        16 => "the rules unfold to over 2048 steps, or unfolding takes over 65536 actions",
        17 => "over 64 rules, 64 blocks or 64 Every triggers",
        20 => "the snapshot's length is not what its counts say",
        21 => "a field or a count of the snapshot is out of range",
        22 => "two rows of the snapshot have one address",
        30 => "more outcomes, effects or starts by the sun than there is room for",
        31 => "the numbers of continuations are used up",
        32 => "the numbers of activations are used up",
        40 => "written anew the image would have over 4096 words; the rules are not wrong",
        41 => "the image has more words, written anew, than there is room for",
        50 => "no crontab line of the POSIX form, or Sunday's number is above 6",
        51 => "a crontab line that names a day of the month or a month",
        52 => "more triggers in a crontab line than there is room for",
        60 => "no whole number of effects, or an effect of an unknown kind",
        61 => "the list of telegrams has more effects than there is room for",
        70 => "no action for the bench, over eight, or no whole number of records",
        71 => "an action for the bench that has a list of its own, or that load refuses",
        72 => "the bench's set has no list of this number",
        _ => "no refusal that this version knows",
    }
}

#[cfg(test)]
mod tests {
    use super::{refusal, words};
    use crate::names::{Book, Entry};
    use crate::schema::Sort;

    #[test]
    fn the_example_of_document_01_in_words() {
        let mut book = Book::default();
        book.add(Sort::Rule, "greet", Entry { number: 5, ..Entry::default() });
        book.add(Sort::Text, "hello", Entry { number: 7, words: Some("Hello".into()), bright: None });
        let said = words("run 0 1\nrule 5 0 0 0 1\neffect 11 7 0 0 0\ntick 999 0\nload refused 13\nrule 5 0 3 2 0\n", &book);
        let wanted = "0 ms (0 s) run: 1 outcome\n   rule greet (by hand)\n      log \"Hello\"\n999 ms (999 ms) tick: nothing\n\
                      load refused 13: an unknown kind, a field out of range, or a word that must be 0 is not\n   \
                      rule greet (at time): no effect; the budget was spent with a step left, or 32 were waiting: steps are lost (reason 2)\n";
        assert_eq!(said, wanted);
    }

    #[test]
    fn calls_that_ask_in_words() {
        let mut book = Book::default();
        book.add(Sort::Rule, "dawn", Entry { number: 12, ..Entry::default() });
        let table = [
            ("start 43 12", "next start by the clock: rule dawn, in 43 min"),
            ("start none", "next start by the clock: none"),
            ("start unknown", "next start by the clock: the clock is not known"),
            ("start refused 21", "start refused 21: a field or a count of the snapshot is out of range"),
            ("enable 12 yes", "rule dawn: switched"),
            ("enable 13 no", "rule rule_13: no such rule is loaded"),
            ("room 34 1", "room: a tick or a run gives at most 34 outcomes and 1 effect"),
            ("telegrams 0", "telegrams: 0 effects to send"),
            ("crontab 1", "crontab: 1 trigger"),
            ("trigger 5 0 31", "      at 05:00 on monday to friday"),
            ("readback 1", "readback: 1 start by the sun"),
            ("start 0 355 -30000", "      05:55 - 30 s"),
            ("start 0 355 0", "      05:55 + 0 s"),
            ("start 1 0 0", "      no sun"),
            ("rewrite 2 5 7", "rewrite: written anew 2 words: 5 7"),
            ("shortlist 0 0 0 0", "short list: no action"),
            ("shortlist 2 1 0 0", "short list: the actions at 1, 0"),
        ];
        for (line, wanted) in table {
            assert_eq!(words(line, &book).trim_end(), wanted);
        }
    }

    /// docs/FOR-FITTERS.md has a line for each number; here each has its words.
    #[test]
    fn every_refusal_of_the_page_has_words() {
        let page = concat!(env!("CARGO_MANIFEST_DIR"), "/../docs/FOR-FITTERS.md");
        let page = std::fs::read_to_string(page).expect("the page");
        let section = page.split("## Refusals").nth(1).and_then(|rest| rest.split("\n## ").next()).expect("its refusals");
        let cell = |line: &str| line.strip_prefix("| ")?.split(' ').next()?.parse::<u32>().ok();
        let numbers: Vec<u32> = section.lines().filter_map(cell).collect();
        assert!(numbers.len() >= 24, "{numbers:?}");
        for number in numbers {
            assert_ne!(refusal(number), refusal(0), "{number}");
        }
    }

    #[test]
    fn other_lines_stay() {
        let lines = ["", "tick", "tick x", "rule 1 2", "effect 99999999999 1 1 1 1", "line 3: unknown call", "counters 1", "shortlist 4 0 0 0"];
        for line in lines.into_iter().chain(["enable x yes", "start 1", "trigger 1 2", "peek 13725 2"]) {
            assert_eq!(words(line, &Book::default()).trim_end(), line);
        }
    }
}
