//! The options of `barn day` as a plan.

use crate::args::Args;
use crate::fault::nearest;
use crate::files::Stop;
use crate::names::Book;
use crate::play::{Plan, Sun, DAY, MINUTE};
use crate::schema::Sort;
use crate::sun::Date;

/// Ten years.
const MOST_DAYS: i64 = 3_660;

fn wrong(option: &str, value: &str, wanted: &str) -> Stop {
    Stop::usage(format!("barn day: {option} `{value}`: {wanted} expected; see `barn day --help`\n"))
}

/// `HH:MM` or `HH:MM:SS`, in milliseconds of the day.
pub fn clock(text: &str) -> Option<i64> {
    let parts: Vec<i64> = text.split(':').map(|part| part.parse().ok()).collect::<Option<_>>()?;
    let (hour, minute, second) = match parts.as_slice() {
        [hour, minute] => (*hour, *minute, 0),
        [hour, minute, second] => (*hour, *minute, *second),
        _ => return None,
    };
    let fits = (0..24).contains(&hour) && (0..60).contains(&minute) && (0..60).contains(&second);
    fits.then(|| (hour * 60 + minute) * MINUTE + second * 1_000)
}

/// `HH:MM-HH:MM`: the minutes of sunrise and sunset.
pub fn sun(command: &str, text: &str) -> Result<(u32, u32), Stop> {
    let minutes = |text: &str| clock(text).and_then(|ms| u32::try_from(ms / MINUTE).ok());
    let both = text.split_once('-').and_then(|(rise, set)| Some((minutes(rise)?, minutes(set)?)));
    both.filter(|(rise, set)| rise < set).ok_or_else(|| {
        let wanted = "HH:MM-HH:MM, sunrise before sunset,";
        Stop::usage(format!("barn {command}: --sun `{text}`: {wanted} expected; see `barn {command} --help`\n"))
    })
}

/// `[DAY/]HH:MM[:SS]` in milliseconds from the first midnight.
fn moment(text: &str, days: i64) -> Option<i64> {
    let (day, time) = match text.split_once('/') {
        Some((day, time)) => (day.parse::<i64>().ok().filter(|day| (1..=days).contains(day))?, time),
        None => (1, text),
    };
    Some((day - 1) * DAY + clock(time)?)
}

pub fn plan(args: &Args, book: &Book) -> Result<Plan, Stop> {
    let mut plan = Plan { from_new: args.has("--new"), ..Plan::default() };
    if let Some(text) = args.value("--days") {
        let days = text.parse().ok().filter(|days| (1..=MOST_DAYS).contains(days));
        plan.days = days.ok_or_else(|| wrong("--days", text, "1 to 3660"))?;
    }
    if let Some(text) = args.value("--date") {
        plan.first = Date::read(text).ok_or_else(|| wrong("--date", text, "a date YYYY-MM-DD"))?;
    }
    if let Some(text) = args.value("--sun") {
        let (rise, set) = sun("day", text)?;
        plan.sun = Sun::Fixed(rise, set);
    }
    if let Some(text) = args.value("--latitude") {
        if args.has("--sun") {
            return Err(Stop::usage("barn day: --sun and --latitude are two ways to say one thing: give one\n"));
        }
        let latitude = text.parse::<f64>().ok().filter(|degrees| (-90.0..=90.0).contains(degrees));
        plan.sun = Sun::Latitude(latitude.ok_or_else(|| wrong("--latitude", text, "-90 to 90"))?);
    }
    match args.value("--tick") {
        None | Some("1s") => {}
        Some("1min") => plan.seconds = false,
        Some(text) => return Err(wrong("--tick", text, "1s or 1min")),
    }
    match args.value("--after-cut") {
        None | Some("minutes") => {}
        Some("one-tick") => plan.catch_up = false,
        Some(text) => return Err(wrong("--after-cut", text, "minutes or one-tick")),
    }
    events(args, book, &mut plan)?;
    Ok(plan)
}

fn events(args: &Args, book: &Book, plan: &mut Plan) -> Result<(), Stop> {
    for text in args.all("--press") {
        let parts = text.split_once('@').and_then(|(rule, at)| Some((rule, moment(at, plan.days)?)));
        let (rule, at) = parts.ok_or_else(|| wrong("--press", text, "RULE@[DAY/]HH:MM on a day that is played"))?;
        let number = book.number(Sort::Rule, rule).ok_or_else(|| {
            let near = nearest(rule, book.of_sort(Sort::Rule).map(|(name, _)| name));
            let near = near.map_or(String::new(), |near| format!(" Is `{near}` meant?"));
            Stop::usage(format!("barn day: --press: no rule `{rule}`.{near}\n"))
        })?;
        plan.presses.push((number, at));
    }
    plan.presses.sort_by_key(|(_, at)| *at);
    for text in args.all("--cut") {
        let both = text.split_once('-').and_then(|(from, to)| {
            let from = moment(from, plan.days)?;
            let to = match to.contains('/') {
                true => moment(to, plan.days)?,
                false => from.div_euclid(DAY) * DAY + clock(to)?,
            };
            // A cut may pass midnight.
            Some((from, if to <= from { to + DAY } else { to }))
        });
        plan.cuts.push(both.ok_or_else(|| wrong("--cut", text, "[DAY/]HH:MM-HH:MM on a day that is played"))?);
    }
    plan.cuts.sort_unstable();
    if plan.cuts.windows(2).any(|two| two[1].0 < two[0].1) {
        return Err(Stop::usage("barn day: two power cuts overlap\n"));
    }
    for text in args.all("--set-clock") {
        let both = text.split_once('=').and_then(|(at, to)| Some((moment(at, plan.days)?, clock(to)? / MINUTE)));
        plan.clocks.push(both.ok_or_else(|| wrong("--set-clock", text, "[DAY/]HH:MM=HH:MM on a day that is played"))?);
    }
    plan.clocks.sort_unstable();
    Ok(())
}

#[cfg(test)]
mod tests {
    use super::{clock, moment};

    #[test]
    fn times_of_options() {
        assert_eq!(clock("05:00"), Some(18_000_000));
        assert_eq!(clock("05:00:30"), Some(18_030_000));
        for bad in ["24:00", "05:60", "5", "a:b", "", "-1:00", "1:2:3:4"] {
            assert_eq!(clock(bad), None, "{bad}");
        }
        assert_eq!(moment("2/00:01", 2), Some(86_460_000));
        assert_eq!(moment("3/00:01", 2), None);
    }
}
