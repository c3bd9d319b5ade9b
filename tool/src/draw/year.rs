//! A year's picture: for each light the lit hours of every day, with sunrise and sunset, and the day length as a curve.

use crate::account::{self, Spell};
use crate::day::report::{head, hours_text};
use crate::day::Shown;
use crate::play::DAY;

use super::{colour, line, open, polyline, rect, words, CUT, FAINT, INK, NIGHT, SKY};

const WIDTH: i64 = 1_000;
const LEFT: f64 = 70.0;
const PLOT: f64 = 880.0;
const TALL: f64 = 216.0;
const CURVE: f64 = 120.0;
const PANEL: f64 = 30.0 + TALL + 34.0 + CURVE + 40.0;
/// A spell is never less tall.
const LEAST: f64 = 2.0;
const HOUR: i64 = 3_600_000;
const MONTHS: [&str; 12] = ["Jan", "Feb", "Mar", "Apr", "May", "Jun", "Jul", "Aug", "Sep", "Oct", "Nov", "Dec"];

pub fn svg(shown: &Shown<'_>) -> String {
    // A light that was never told anything has nothing to show.
    let told: Vec<&(String, Vec<Spell>)> = shown.lights.iter().filter(|(_, spells)| spells.iter().any(|spell| spell.ppm.is_some())).collect();
    let height = 46.0 + PANEL * told.len().max(1) as f64 + 10.0;
    let mut text = open(WIDTH, height as i64, &head(shown));
    text.push_str(&words(16.0, 28.0, "start", INK, 17, head(shown).trim_end()));
    for (place, (name, spells)) in told.into_iter().enumerate() {
        text.push_str(&panel(shown, name, spells, 46.0 + PANEL * place as f64));
    }
    text.push_str("</svg>\n");
    text
}

fn panel(shown: &Shown<'_>, name: &str, spells: &[Spell], top: f64) -> String {
    let step = PLOT / shown.plan.days as f64;
    let mut text = words(LEFT, top + 18.0, "start", INK, 14, &format!("{name}: when it is lit, and the sun"));
    let plot = top + 28.0;
    text.push_str(&rect(LEFT, plot, PLOT, TALL, NIGHT, ""));
    text.push_str("<g shape-rendering=\"crispEdges\">\n");
    (0..shown.plan.days).for_each(|day| text.push_str(&column(spells, day, plot, step)));
    text.push_str("</g>\n");
    text.push_str(&sun(shown, plot, step));
    for hour in (0..=24).step_by(6) {
        text.push_str(&hour_mark(plot + TALL * f64::from(hour) / 24.0, &format!("{hour:02}:00")));
    }
    text.push_str(&months(shown, plot + TALL, step));
    text.push_str(&curve(shown, spells, plot + TALL + 44.0, step));
    text
}

/// The spells of a day, one above the other; those that the night's colour behind them shows anyway are left out.
fn column(spells: &[Spell], day: i64, plot: f64, step: f64) -> String {
    let (from, to) = (day * DAY, (day + 1) * DAY);
    // Edges that two rectangles share are one number, so that no seam shows.
    let shared = |place: f64| (place * 10.0).round() / 10.0;
    let (x, end_x) = (shared(LEFT + step * day as f64), shared(LEFT + step * (day + 1) as f64));
    let y_of = |ms: i64| shared(plot + TALL * (ms - from) as f64 / DAY as f64);
    let clip = |spell: &Spell| (spell.from.max(from), spell.to.min(to));
    let mut here: Vec<&Spell> = spells.iter().filter(|spell| spell.from < to && spell.to > from).collect();
    // Short spells are drawn last, so that nothing covers them.
    here.sort_by_key(|spell| {
        let (begin, end) = clip(spell);
        begin - end
    });
    let mut text = String::new();
    for spell in here {
        let (begin, end) = clip(spell);
        let tall = y_of(end) - y_of(begin);
        let fill = match (spell.cut, spell.is_lit(), spell.ppm) {
            (true, _, _) => CUT.to_string(),
            (_, true, Some(ppm)) => colour(ppm),
            _ if tall < LEAST => NIGHT.to_string(),
            _ => continue,
        };
        let y = y_of(begin).min(plot + TALL - LEAST);
        text.push_str(&rect(x, y, end_x - x, tall.max(LEAST), &fill, ""));
    }
    text
}

fn sun(shown: &Shown<'_>, plot: f64, step: f64) -> String {
    let mut text = String::new();
    for event in 0..2 {
        let mut points = Vec::new();
        for day in 0..shown.plan.days {
            match shown.plan.sun_of(day) {
                Some((rise, set)) => {
                    let minute = if event == 0 { rise } else { set };
                    points.push((LEFT + step * (day as f64 + 0.5), plot + TALL * f64::from(minute) / 1_440.0));
                }
                None => {
                    text.push_str(&polyline(&points, SKY, 1.8));
                    points.clear();
                }
            }
        }
        text.push_str(&polyline(&points, SKY, 1.8));
    }
    text
}

fn hour_mark(y: f64, text: &str) -> String {
    words(LEFT - 8.0, y + 4.0, "end", FAINT, 11, text) + &line(LEFT - 5.0, y, LEFT, y, FAINT, 1.0)
}

/// The first day of each month, below a plot.
fn months(shown: &Shown<'_>, y: f64, step: f64) -> String {
    let mut text = String::new();
    for day in 0..shown.plan.days {
        let (_, month, of_month) = shown.plan.first.plus(day).civil();
        if of_month == 1 {
            let x = LEFT + step * day as f64;
            text.push_str(&line(x, y, x, y + 5.0, FAINT, 1.0));
            if shown.plan.days <= 800 {
                text.push_str(&words(x + 3.0, y + 14.0, "start", FAINT, 11, MONTHS[(month - 1) as usize]));
            }
        }
    }
    text
}

/// Light hours a day, between the whole hours around the least and the most.
fn curve(shown: &Shown<'_>, spells: &[Spell], top: f64, step: f64) -> String {
    let days = account::days(spells, shown.plan.days);
    let (least, most) = (days.iter().min().copied().unwrap_or(0), days.iter().max().copied().unwrap_or(0));
    let low = (least / HOUR - 1).max(0);
    let high = ((most + HOUR - 1) / HOUR + 1).min(24).max(low + 1);
    let y_of = |ms: i64| top + CURVE - CURVE * (ms - low * HOUR) as f64 / ((high - low) * HOUR) as f64;
    let mut text = rect(LEFT, top, PLOT, CURVE, "#ffffff", "");
    let each = if high - low > 8 { 4 } else { 1 };
    for hour in (low..=high).filter(|hour| hour % each == 0) {
        let y = y_of(hour * HOUR);
        text.push_str(&line(LEFT, y, LEFT + PLOT, y, "#d9d5ca", 1.0));
        text.push_str(&hour_mark(y, &format!("{hour} h")));
    }
    let points: Vec<(f64, f64)> = days.iter().enumerate().map(|(day, ms)| (LEFT + step * (day as f64 + 0.5), y_of(*ms))).collect();
    text.push_str(&polyline(&points, "#a8641a", 2.2));
    text.push_str(&months(shown, top + CURVE, step));
    let caption = format!("light hours a day: {} to {}", hours_text(least), hours_text(most));
    text.push_str(&words(LEFT, top - 8.0, "start", INK, 13, &caption));
    text
}
