//! The options of `barn day`, each with what it changes.

mod common;

use std::fs;

use common::{barn, example, folder, texts};

/// Standard output of a day that is played; its status is 0.
fn day(file: &str, options: &str) -> String {
    let path = example(file);
    let args: Vec<&str> = ["day", &path].into_iter().chain(options.split_whitespace()).collect();
    let (status, out, err) = texts(&barn(&args));
    assert_eq!(status, 0, "{options}: {err}");
    out
}

fn house(options: &str) -> String {
    day("layer-house.rules", options)
}

fn lamp(options: &str) -> String {
    day("inspection-light.rules", options)
}

#[test]
fn a_day_has_its_timeline_its_bar_and_its_hours() {
    let wanted = "layer-house.rules: 1 day from monday 2026-01-05, sun 06:00 to 18:00
05:00  morning  at time  light house dimmed
05:15  morning  at time  light house full
18:30  evening  at sun   light house dimmed
18:45  evening  at sun   light house off
18:45  evening  at sun   log \"lights out\"

house |          ###########################-          | light 13 h 45 min, longest dark 10 h 15 min (18:45 to 05:00)
";
    let out = house("");
    assert!(out.starts_with(wanted), "{out}");
}

#[test]
fn the_sun_by_times_and_by_latitude() {
    assert!(house("--sun 07:00-17:00").contains("17:30  evening  at sun   light house dimmed"));
    let june = house("--latitude 52.5 --date 2026-06-21");
    assert!(june.starts_with("layer-house.rules: 1 day from sunday 2026-06-21, sun of latitude 52.5\n"), "{june}");
    assert!(june.contains("light 16 h 11 min"), "{june}");
    let south = house("--latitude -52.5 --date 2026-12-21");
    assert!(south.contains("light 16 h 0") || south.contains("light 16 h 1"), "{south}");
    // Beyond the circle the rule of the evening does not run, and the house stays lit.
    let (_, out, err) = texts(&barn(&["day", &example("layer-house.rules"), "--latitude", "75", "--date", "2026-06-21"]));
    assert!(out.contains("light 24 h 00 min, longest dark none") && err.contains("the sun does not rise or does not set there"), "{out}{err}");
}

#[test]
fn presses_and_ticks() {
    assert!(lamp("--press inspection@12:00:30").contains("12:10:30  inspection_end  timer    light lamp off"));
    let minutes = lamp("--press inspection@12:00:30 --tick 1min");
    assert!(minutes.contains("12:11     inspection_end  timer    light lamp off"), "{minutes}");
    let second = lamp("--days 2 --press inspection@2/12:00 --press=inspection@2/12:09");
    assert!(second.contains("day 2 12:19  inspection_end  timer    light lamp off") && !second.contains("day 1 12"), "{second}");
    assert!(lamp("").contains("nothing happens"));
}

/// The store is kept over a cut: what waits goes on, and what was missed is made up for only where the host ticks for its minutes.
#[test]
fn power_cuts() {
    let cut = house("--cut 04:30-06:20");
    assert!(cut.contains("05:15  morning  at time  light house full   (late: told at 06:20 when power was back)"), "{cut}");
    assert!(cut.contains("longest dark 11 h 35 min (18:45 to 06:20)"), "{cut}");
    let one = house("--cut 04:30-06:20 --after-cut one-tick");
    assert!(!one.contains("morning") && one.contains("light 0 h 15 min"), "{one}");
    let waits = house("--cut 05:05-05:10 --after-cut one-tick");
    assert!(waits.contains("05:15  morning  at time  light house full\n") && waits.contains("light 13 h 40 min"), "{waits}");
    let night = house("--days 2 --cut 23:50-00:20");
    assert!(night.contains("day 2, tuesday 2026-01-06\nhouse |x "), "{night}");
    let (_, _, err) = texts(&barn(&["day", &example("layer-house.rules"), "--cut", "12:00-12:10", "--press", "morning@12:05"]));
    assert!(err.contains("a press inside a power cut does nothing"), "{err}");
}

#[test]
fn the_clock_is_set() {
    let autumn = house("--set-clock 02:59=02:00");
    assert!(autumn.contains("05:00  morning") && autumn.contains("(18:45 to 05:59)"), "{autumn}");
    let spring = house("--set-clock 04:30=05:30");
    assert!(spring.contains("05:30  morning  at time  light house dimmed"), "{spring}");
    // Over an hour ahead is over what a tick makes up for.
    assert!(!house("--set-clock 04:30=06:30").contains("morning"));
    let (_, _, err) = texts(&barn(&["day", &example("layer-house.rules"), "--set-clock", "02:59=02:00"]));
    assert!(err.contains("the timeline has the times of the clock that was set"), "{err}");
}

#[test]
fn many_days() {
    assert!(house("--new").contains("house |..........#"));
    let nine = house("--days 9");
    assert!(nine.contains("day 9, tuesday 2026-01-13\nhouse |") && !nine.contains("morning"), "{nine}");
    assert!(house("--days 9 --timeline").contains("day 9 05:00  morning"));
    let year = house("--days 365 --tick 1min --latitude 52.5 --date 2026-01-01");
    assert!(year.contains("house: light a day from 11 h 31 min (2026-12-1") && year.contains("  2026-12-01 11 h 36 min ######"), "{year}");
}

#[test]
fn files_of_a_day() {
    let folder = folder("day");
    let file = |name: &str| folder.join(name).to_string_lossy().into_owned();
    let rules = file("house.rules");
    fs::copy(example("layer-house.rules"), &rules).expect("copied");
    let (status, _, _) = texts(&barn(&["day", &rules, "--days", "2", "--csv", &file("d.csv"), "--svg", &file("d.svg"), "--html", &file("d.html")]));
    assert_eq!(status, 0);
    let csv = fs::read_to_string(file("d.csv")).expect("a table");
    assert!(csv.contains("event,2,2026-01-06,05:15,\"morning\",at time,\"light house full\",0,,,\n"), "{csv}");
    assert!(csv.contains("light,2,2026-01-06,,,,,,\"house\",13.750,10.250\n"), "{csv}");
    let html = fs::read_to_string(file("d.html")).expect("a page");
    let svg = fs::read_to_string(file("d.svg")).expect("a picture");
    assert!(html.contains(&svg) && html.contains("<td class=\"n\">13 h 45 min</td>"));
    // An image plays as its rules do.
    assert_eq!(texts(&barn(&["words", &rules, "-o", &file("house.img")])).0, 0);
    let body = |path: &str| texts(&barn(&["day", path])).1.split_once('\n').map(|(_, rest)| rest.to_string());
    assert_eq!(body(&file("house.img")), body(&rules));
    // What is read is not written over.
    for target in [&rules, &file("house.names")] {
        let (status, _, err) = texts(&barn(&["day", &rules, "--csv", target]));
        assert!(status == 2 && err.contains("not written over"), "{err}");
        assert_eq!(texts(&barn(&["words", &rules, "-o", target])).0, 2);
    }
    assert_eq!(fs::read(&rules).expect("rules"), fs::read(example("layer-house.rules")).expect("rules"));
}

/// A minute of dark and a minute without power, in a year's picture of a seventh of a pixel each, are two pixels tall.
#[test]
fn short_spells_of_a_year_are_drawn() {
    let folder = folder("short");
    let file = |name: &str| folder.join(name).to_string_lossy().into_owned();
    let rules = "light a = 1\nverb on = 1, off = 2\nrule dark\nat 12:00\ndo\nlight a off\nwait 1 min\nlight a on\nend\nend\n";
    fs::write(file("short.rules"), rules).expect("written");
    let args = ["day", &file("short.rules"), "--days", "40", "--cut", "2/18:00-18:01", "--svg", &file("short.svg")];
    assert_eq!(texts(&barn(&args)).0, 0);
    let svg = fs::read_to_string(file("short.svg")).expect("a picture");
    assert_eq!(svg.matches("height=\"2.0\" fill=\"#232b3b\"").count(), 40);
    assert_eq!(svg.matches("height=\"2.0\" fill=\"#b3392f\"").count(), 1);
}

#[test]
fn wrong_options_are_2() {
    let wrong = [
        "--days 0", "--days x", "--days 3661", "--sun 7-8", "--sun 10:00-09:00", "--latitude 91", "--latitude nan", "--date 2026-02-30",
        "--date 2026-01-9223372036854775807", "--tick 2s", "--press morning", "--press morning@25:00", "--press morning@2/05:00",
        "--press morning@9223372036854775807:00", "--press mornig@05:00", "--cut 05:00", "--cut 05:00-x", "--cut 05:00-06:00 --cut 05:30-07:00",
        "--after-cut no", "--set-clock 05:00", "--set-clock 05:00=24:00", "--svg", "--sun 07:00-17:00 --latitude 5", "--nope", "--svg /no/such/folder/x",
    ];
    for options in wrong {
        let path = example("layer-house.rules");
        let args: Vec<&str> = ["day", &path].into_iter().chain(options.split_whitespace()).collect();
        let (status, _, err) = texts(&barn(&args));
        assert!(status == 2 && err.starts_with("barn"), "{options}: {status} {err}");
    }
}
