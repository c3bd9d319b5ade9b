//! A page around the picture: one file, nothing from elsewhere.

use std::fmt::Write as _;

use crate::account;
use crate::day::report::{dark_text, event_text, head, hours_text, when};
use crate::day::Shown;
use crate::grammar::DAYS;
use crate::play::DAY;
use crate::schema::Sort;
use crate::state::TRIGGERS;

use super::{escaped, svg};

/// Rows of a timeline that a page shows.
const MOST_ROWS: usize = 3_000;

const STYLE: &str = "
:root { color-scheme: light dark; }
body { font: 15px/1.45 system-ui, sans-serif; max-width: 64rem; margin: 1.5rem auto; padding: 0 1rem; }
svg { max-width: 100%; height: auto; border-radius: 6px; }
table { border-collapse: collapse; margin: 0 0 1.5rem; }
th, td { text-align: left; padding: 0.15rem 0.9rem 0.15rem 0; border-bottom: 1px solid #8886; vertical-align: top; }
td.n { font-variant-numeric: tabular-nums; white-space: nowrap; }
.bad { color: #c0392b; color: light-dark(#b3261e, #ff8a80); font-weight: 600; }
footer { color: #767676; font-size: 13px; }
";

pub fn html(shown: &Shown<'_>) -> String {
    let title = escaped(head(shown).trim_end());
    let mut text = format!(
        "<!DOCTYPE html>\n<html lang=\"en\">\n<head>\n<meta charset=\"utf-8\">\n<meta name=\"viewport\" content=\"width=device-width\">\n\
         <title>{title}</title>\n<style>{STYLE}</style>\n</head>\n<body>\n<h1>{}</h1>\n<p>{title}</p>\n",
        escaped(&shown.title)
    );
    text.push_str(&svg(shown));
    text.push_str(&hours(shown));
    text.push_str(&timeline(shown));
    text.push_str("<footer><p>Played by barn on the proved engine: every line of the timeline is an answer of its tick or run.</p></footer>\n");
    text.push_str("</body>\n</html>\n");
    text
}

fn hours(shown: &Shown<'_>) -> String {
    let mut text = String::from("<h2>Light hours</h2>\n<table>\n<tr><th>day</th>");
    for (name, _) in &shown.lights {
        let _ = write!(text, "<th>{0}: light</th><th>{0}: longest dark</th>", escaped(name));
    }
    text.push_str("</tr>\n");
    for day in 0..shown.plan.days {
        let date = shown.plan.first.plus(day);
        let _ = write!(text, "<tr><td class=\"n\">{} {}</td>", DAYS[date.weekday() as usize], date.text());
        for (_, spells) in &shown.lights {
            let (from, to) = (day * DAY, (day + 1) * DAY);
            let dark = dark_text(spells, from, to);
            let _ = write!(text, "<td class=\"n\">{}</td><td class=\"n\">{dark}</td>", hours_text(account::lit(spells, from, to)));
        }
        text.push_str("</tr>\n");
    }
    text.push_str("</table>\n");
    text
}

fn timeline(shown: &Shown<'_>) -> String {
    let mut text = String::from("<h2>Timeline</h2>\n<table>\n<tr><th>time</th><th>rule</th><th>trigger</th><th>effect</th></tr>\n");
    let events = &shown.played.events;
    for event in events.iter().take(MOST_ROWS) {
        let class = if event.reason != 0 { " class=\"bad\"" } else { "" };
        let _ = writeln!(
            text,
            "<tr><td class=\"n\">{}</td><td>{}</td><td>{}</td><td{class}>{}</td></tr>",
            when(event, shown.plan.days),
            escaped(&shown.book.name(Sort::Rule, event.rule)),
            TRIGGERS.get(event.trigger as usize).unwrap_or(&"?"),
            escaped(&event_text(event, shown))
        );
    }
    text.push_str("</table>\n");
    if events.len() > MOST_ROWS {
        let _ = writeln!(text, "<p>{} further lines are left out; <code>--csv</code> has all.</p>", events.len() - MOST_ROWS);
    }
    text
}
