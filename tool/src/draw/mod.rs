//! Pictures of a played day: SVG, and a page around it.

mod days;
mod page;
mod year;

use crate::day::Shown;

pub use page::html;

/// Days that are drawn one below the other; more become a year's picture.
const MOST_ROWS: i64 = 14;

pub fn svg(shown: &Shown<'_>) -> String {
    match shown.plan.days <= MOST_ROWS {
        true => days::svg(shown),
        false => year::svg(shown),
    }
}

/// The text as it may stand in SVG and HTML.
fn escaped(text: &str) -> String {
    let mut out = String::new();
    for c in text.chars() {
        match c {
            '&' => out.push_str("&amp;"),
            '<' => out.push_str("&lt;"),
            '>' => out.push_str("&gt;"),
            '"' => out.push_str("&quot;"),
            c if c.is_control() => out.push(' '),
            c => out.push(c),
        }
    }
    out
}

pub(crate) const PAPER: &str = "#fbf9f4";
const INK: &str = "#22262e";
const FAINT: &str = "#6b7280";
const NIGHT: &str = "#232b3b";
const UNTOLD: &str = "#9aa1ad";
const CUT: &str = "#b3392f";
const SKY: &str = "#8fbfe8";

/// The colour of a light: from ember to yellow. The eye sees a tenth of the light as a third.
fn colour(ppm: u32) -> String {
    let part = (f64::from(ppm) / 1_000_000.0).clamp(0.0, 1.0).powf(0.45);
    let mix = |low: f64, high: f64| (low + (high - low) * part).round() as u32;
    format!("#{:02x}{:02x}{:02x}", mix(120.0, 255.0), mix(72.0, 209.0), mix(28.0, 64.0))
}

/// The opening of a picture with its own paper, so that it is legible on a light and on a dark page.
fn open(width: i64, height: i64, title: &str) -> String {
    format!(
        "<svg xmlns=\"http://www.w3.org/2000/svg\" width=\"{width}\" height=\"{height}\" viewBox=\"0 0 {width} {height}\" role=\"img\" \
         font-family=\"DejaVu Sans, Verdana, Arial, sans-serif\" font-size=\"13\">\n<title>{0}</title>\n\
         <rect x=\"0\" y=\"0\" width=\"{width}\" height=\"{height}\" fill=\"{PAPER}\"/>\n",
        escaped(title)
    )
}

fn rect(x: f64, y: f64, width: f64, height: f64, fill: &str, title: &str) -> String {
    let inner = if title.is_empty() { String::new() } else { format!("<title>{}</title>", escaped(title)) };
    format!("<rect x=\"{x:.1}\" y=\"{y:.1}\" width=\"{width:.1}\" height=\"{height:.1}\" fill=\"{fill}\">{inner}</rect>\n")
}

fn line(x1: f64, y1: f64, x2: f64, y2: f64, stroke: &str, width: f64) -> String {
    format!("<line x1=\"{x1:.1}\" y1=\"{y1:.1}\" x2=\"{x2:.1}\" y2=\"{y2:.1}\" stroke=\"{stroke}\" stroke-width=\"{width}\"/>\n")
}

/// `anchor` is start, middle or end.
fn words(x: f64, y: f64, anchor: &str, fill: &str, size: u32, text: &str) -> String {
    format!("<text x=\"{x:.1}\" y=\"{y:.1}\" text-anchor=\"{anchor}\" fill=\"{fill}\" font-size=\"{size}\">{}</text>\n", escaped(text))
}

fn polyline(points: &[(f64, f64)], stroke: &str, width: f64) -> String {
    let list: Vec<String> = points.iter().map(|(x, y)| format!("{x:.1},{y:.1}")).collect();
    format!("<polyline points=\"{}\" fill=\"none\" stroke=\"{stroke}\" stroke-width=\"{width}\"/>\n", list.join(" "))
}
