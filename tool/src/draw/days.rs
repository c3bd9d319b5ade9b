//! A day's picture: a bar for each light, a strip for the sun, hours below.

use crate::account::{self, Spell};
use crate::day::report::{head, hours_text, time_text};
use crate::day::Shown;
use crate::grammar::DAYS;
use crate::play::DAY;
use crate::spell::percent;

use super::{colour, line, open, rect, words, CUT, FAINT, INK, NIGHT, SKY, UNTOLD};

const WIDTH: i64 = 1_000;
const LEFT: f64 = 150.0;
const PLOT: f64 = 640.0;
const ROW: f64 = 30.0;
const BAR: f64 = 22.0;
/// A spell is never narrower.
const LEAST: f64 = 2.0;

fn x_of(ms: i64) -> f64 {
    LEFT + PLOT * ms as f64 / DAY as f64
}

pub fn svg(shown: &Shown<'_>) -> String {
    let lights = shown.lights.len().max(1) as f64;
    let panel = 30.0 + 12.0 + lights * ROW + 30.0;
    let height = 46.0 + panel * shown.plan.days as f64 + 34.0;
    let mut text = open(WIDTH, height as i64, &head(shown));
    text.push_str(&words(16.0, 28.0, "start", INK, 17, head(shown).trim_end()));
    for day in 0..shown.plan.days {
        text.push_str(&day_panel(shown, day, 46.0 + panel * day as f64));
    }
    text.push_str(&legend(height - 16.0));
    text.push_str("</svg>\n");
    text
}

fn day_panel(shown: &Shown<'_>, day: i64, top: f64) -> String {
    let date = shown.plan.first.plus(day);
    let mut text = words(LEFT, top + 18.0, "start", INK, 13, &format!("{} {}", DAYS[date.weekday() as usize], date.text()));
    text.push_str(&words(LEFT + PLOT + 12.0, top + 18.0, "start", FAINT, 12, "light, longest dark"));
    let sun_y = top + 26.0;
    text.push_str(&words(LEFT - 10.0, sun_y + 9.0, "end", FAINT, 12, "sun"));
    text.push_str(&line(LEFT, sun_y + 5.0, LEFT + PLOT, sun_y + 5.0, FAINT, 0.7));
    if let Some((rise, set)) = shown.plan.sun_of(day).filter(|(rise, set)| rise < set) {
        let (from, to) = (i64::from(rise) * 60_000, i64::from(set) * 60_000);
        let title = format!("sun from {} to {}", time_text(from), time_text(to));
        text.push_str(&rect(x_of(from), sun_y, x_of(to) - x_of(from), 10.0, SKY, &title));
    }
    for (place, (name, spells)) in shown.lights.iter().enumerate() {
        text.push_str(&row(name, spells, day, sun_y + 18.0 + ROW * place as f64));
    }
    text.push_str(&hours(sun_y + 18.0, shown.lights.len().max(1) as f64 * ROW));
    text
}

fn row(name: &str, spells: &[Spell], day: i64, y: f64) -> String {
    let (from, to) = (day * DAY, (day + 1) * DAY);
    let shown: String = name.chars().take(20).collect();
    let mut text = words(LEFT - 10.0, y + 16.0, "end", INK, 13, &shown);
    text.push_str(&rect(LEFT, y, PLOT, BAR, NIGHT, ""));
    // Short spells are drawn last, so that nothing covers them.
    let mut here: Vec<&Spell> = spells.iter().filter(|spell| spell.from < to && spell.to > from).collect();
    here.sort_by_key(|spell| std::cmp::Reverse(spell.to.min(to) - spell.from.max(from)));
    for spell in here {
        let (begin, end) = (spell.from.max(from) - from, spell.to.min(to) - from);
        let fill = match (spell.cut, spell.ppm) {
            (true, _) => CUT.to_string(),
            (_, None) => UNTOLD.to_string(),
            (_, Some(0)) => NIGHT.to_string(),
            (_, Some(ppm)) => colour(ppm),
        };
        let what = match (spell.cut, spell.ppm) {
            (true, _) => "power cut".to_string(),
            (_, None) => "not told yet".to_string(),
            (_, Some(0)) => "dark".to_string(),
            (_, Some(ppm)) => format!("light {}", percent(u64::from(ppm / 100 * 100))),
        };
        let title = format!("{name}: {what} from {} to {}", time_text(begin), if end == DAY { "24:00".to_string() } else { time_text(end) });
        let wide = (x_of(end) - x_of(begin)).max(LEAST);
        let x = x_of(begin).min(LEFT + PLOT - wide);
        text.push_str(&rect(x, y, wide, BAR, &fill, &title));
    }
    let dark = match account::longest_dark(spells, from, to) {
        Some((begin, _)) if account::is_open(spells, begin) => "over a week".to_string(),
        Some((begin, end)) => hours_text(end - begin),
        None => "none".to_string(),
    };
    let hours = hours_text(account::lit(spells, from, to));
    text.push_str(&words(LEFT + PLOT + 12.0, y + 16.0, "start", INK, 12, &format!("{hours}, {dark}")));
    text
}

fn hours(top: f64, height: f64) -> String {
    let mut text = String::new();
    for hour in 0..=24 {
        let x = x_of(hour * 3_600_000);
        let mark = if hour % 3 == 0 { 6.0 } else { 3.0 };
        text.push_str(&line(x, top + height - 6.0, x, top + height - 6.0 + mark, FAINT, 1.0));
        if hour % 3 == 0 {
            text.push_str(&words(x, top + height + 14.0, "middle", FAINT, 11, &format!("{hour:02}:00")));
        }
        if hour % 6 == 0 && hour > 0 && hour < 24 {
            text.push_str("<g stroke-opacity=\"0.35\">\n");
            text.push_str(&line(x, top, x, top + height - 8.0, "#ffffff", 1.0));
            text.push_str("</g>\n");
        }
    }
    text
}

fn legend(y: f64) -> String {
    let mut text = String::new();
    let mut x = LEFT;
    let lights = [(1_000_000, "full"), (300_000, "30 %"), (30_000, "3 %")].map(|(ppm, name)| (colour(ppm), name));
    let others = [(NIGHT, "dark"), (UNTOLD, "not told yet"), (CUT, "power cut"), (SKY, "sun")].map(|(fill, name)| (fill.to_string(), name));
    for (fill, name) in lights.into_iter().chain(others) {
        text.push_str(&rect(x, y - 10.0, 14.0, 11.0, &fill, ""));
        text.push_str(&words(x + 19.0, y, "start", FAINT, 11, name));
        x += 32.0 + 7.2 * name.len() as f64;
    }
    text
}
