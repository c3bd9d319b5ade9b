//! Errors and warnings, each with its place and its help.

use barn::fault::render;
use barn::names::Book;
use barn::{lint, parse};

const HEAD: &str = "light house = 1, lamp = 2\nverb full = 11, off = 12\ntext hello \"Hello\"\n";

fn errors(text: &str) -> String {
    match parse::file(text, &Book::default()) {
        Ok(_) => "no error".to_string(),
        Err(faults) => render("x.rules", text, &faults),
    }
}

/// Of a rule with these lines: the text of its errors.
fn error_of(lines: &str) -> String {
    errors(&format!("{HEAD}rule a\n{lines}\nend\n"))
}

fn warnings(text: &str) -> String {
    let text = format!("{HEAD}{text}");
    let file = parse::file(&text, &Book::default()).unwrap_or_else(|faults| panic!("{}", render("x.rules", &text, &faults)));
    render("x.rules", &text, &lint::warnings(&file))
}

/// What is said of each text has the wanted words.
fn holds<const N: usize>(table: [(String, String, &str); N]) {
    let wrong = table.iter().filter(|(_, said, wanted)| !said.contains(wanted));
    let wrong: String = wrong.map(|(text, said, wanted)| format!("{text}\nwanted: {wanted}\n{said}\n")).collect();
    assert!(wrong.is_empty(), "{wrong}");
}

#[test]
fn an_error_names_place_text_and_help() {
    let said = error_of("do\nlight huose full\nend");
    assert_eq!(said, "error: no light `huose`\n  --> x.rules:6:7\n    |\n  6 | light huose full\n    |       ^^^^^\n    = is `house` meant?\n");
}

#[test]
fn errors_of_triggers_and_conditions() {
    let table = [
        ("at 25:00", "`25:00` is no time of day"),
        ("at noon", "a time of day, `sunrise` or `sunset` expected, found `noon`"),
        ("at 05:00:30", "no seconds"),
        ("at 05:00 on mondya", "is `monday` meant?"),
        ("at 05:00 daily", "`on` or `every day` expected, found `daily`"),
        ("at sunset + 30", "a unit expected behind 30, found the end of the line"),
        ("at sunset + 700 h", "an offset from the sun is at most 24 days 20 h"),
        ("every 10", "a unit expected behind 10"),
        ("every 30 s 1 min", "a unit expected behind 1, found `min`"),
        ("cooldown 50000 h", "over 49 days 17 h"),
        ("when timer x fire", "`fires` expected, found `fire`"),
        ("cron \"0 5 * *\"", "`0 5 * *` is no crontab line"),
        ("cron \"0 5 1 * *\"", "a rule has no dates"),
        ("if lamp 0/5 level 3", "`=`, `!=`, `>=`, `<=`, `>` or `<` expected, found `3`"),
        ("if lamp 300/5 is on", "300 is out of range"),
        ("if lamp door is on", "declare it: `lamp door = adapter/id`"),
        ("if time 05:00 06:00", "`..` expected, found `06:00`"),
        ("if group 1/2 any of", "`on` expected, found `of`"),
        ("if var x > lamp 0/1 brightness", "`level`, `cct`, `on` or `last` expected, found `brightness`"),
        ("if var x > 99999999999999999999", "is no integer of 64 bits"),
        ("if sun is up and x", "the end of the line expected, found `and`"),
        ("cron \"* * * * *\"", "1440 starts a day, and an image has room for 508"),
    ];
    holds(table.map(|(lines, wanted)| (lines.to_string(), error_of(lines), wanted)));
}

#[test]
fn errors_of_steps() {
    let table = [
        ("do\nlight house full softly\nend", "expected, found `softly`"),
        ("do\nlight house 0.05 %\nend", "this light has no level on the bus"),
        ("do\nlight house 40\nend", "`%` expected, found the end of the line"),
        ("do\nrecall 256\nend", "256 is out of range: a scene is 0 to 255"),
        ("do\ncycle 1, 2, evning\nend", "no scene `evning`"),
        ("do\nset x = text nowhere\nend", "the length of text `nowhere` is not known"),
        ("do\nrule enable b\nend", "no rule `b`"),
        ("do\ncall b\nend", "no block `b`"),
        ("do\nrepeat 300\nlog hello\nend\nend", "300 is out of range: how often is 0 to 255"),
        ("do\nwiat 5 s\nend", "is `wait` meant?"),
        ("do\nend\ndo\nend", "a second `do`"),
        ("do\nlog hello end\nend", "the end of the line expected, found `end`"),
        ("light house full", "steps stand between `do` and its `end`"),
        ("do\nlog \"Hello", "a text without its closing"),
    ];
    holds(table.map(|(lines, wanted)| (lines.to_string(), error_of(lines), wanted)));
}

#[test]
fn errors_of_a_whole_file() {
    let table = [
        ("rule a\nend\nrule a\nend\n", "a second rule `a`"),
        ("rule a\ndo\nwait 1 s\nrule b\nend\n", "`rule` begins inside `do` of line 2"),
        ("rule a\n", "the file ends inside `rule` of line 1"),
        ("end\n", "there is an `end` too many above"),
        ("limits budget 0\n", "the budget limit is 1 to 256"),
        ("limits budget 500\n", "500 is out of range"),
        ("limits bugdet 5\n", "is `budget` meant?"),
        ("weekday monday = 7\n", "7 is out of range"),
        ("light a = 1, b = 1\n", "number 1 is light `a` already"),
        ("light a = 1\nlight a = 2\n", "light `a` is declared twice"),
        ("light hold = 1\n", "`hold` is a word of the language and no name"),
        ("verb x = 1 200 %\n", "the light of a verb is 0 % to 100 %"),
        ("ligth a = 1\n", "is `light` meant?"),
        ("expect\nlight a lit at 05:00 on day 2\nend\nlight a = 1\n", "day 2 is not played"),
        ("expect\nnothing from 22:00 to 04:00 on day 2\nend\n", "day 2 is not played"),
        ("rule a\nend\nexpect\npress a at 04:00 on day 3\nend\n", "--> x.rules:4:1\n"),
        ("expect\ncut 04:00 on day 2 to 05:00 on day 2\nend\n", "day 2 is not played"),
        ("expect\nlihgt a lit at 05:00\nend\n", "is `light` meant?"),
        ("expect\nnothing from 05:00 to 04:00\nend\n", "it ends before it begins"),
        ("expect\nsun 17:00 to 07:00\nend\n", "the sun sets before it rises"),
        ("expect\ndate 2026-02-30\nend\n", "there is no such day"),
    ];
    holds(table.map(|(text, wanted)| (text.to_string(), errors(text), wanted)));
}

#[test]
fn several_errors_are_found_at_once() {
    let said = error_of("at 25:00\nevery 5\ndo\nlihgt house full\nlight huose full\nend");
    assert_eq!(said.matches("error: ").count(), 4, "{said}");
}

#[test]
fn a_number_of_the_file_of_names_does_not_change() {
    let known = Book::read("rule a 7\nrule z 9\nlight house 3\n").expect("names");
    let said = |text: &str| match parse::file(text, &known) {
        Ok(file) => format!("{:?}", file.book.number(barn::schema::Sort::Rule, "a")),
        Err(faults) => render("x", text, &faults),
    };
    assert!(said("rule a = 8\nend\n").contains("has number 7 in the file of names, not 8"));
    assert_eq!(said("rule a\nend\nrule b\nend\n"), "Some(7)");
    assert!(said("rule a\nend\nrule b\nend\nrule c\nend\n").contains("no number is left for rule `b`, `c` between `a` (7) and `z` (9)"));
}

/// The file of names knows which number Monday has; a file of rules without `weekday` is read by it.
#[test]
fn monday_of_the_file_of_names() {
    let known = Book::read("monday 3\n").expect("names");
    let bits = |text: &str| parse::file(text, &known).unwrap_or_else(|faults| panic!("{faults:?}")).set.rules[0].triggers[0].word(2);
    assert_eq!(bits("rule a\nat 05:00 on monday\nend\n"), 1 << 3);
    assert_eq!(bits("rule a\nat 05:00 on monday\nend\nweekday monday = 1\n"), 1 << 1);
}

#[test]
fn warnings_of_what_loses_light() {
    let logs = |count: usize| "log hello\n".repeat(count);
    let table = [
        ("limits budget 2\nrule a\ndo\nlog hello\nwait 1 s\nlog hello\nend\nend\n".to_string(), "takes 3 steps and the budget is 2: what is behind step 2 never runs"),
        ("limits budget 3\nrule a\ndo\nlog hello\nafter 1 s\nlog hello\nlog hello\nend\nend\nend\n".to_string(), "the end of the after never runs"),
        (format!("rule a\ndo\n{}end\nend\n", logs(257)), "a list holds 256 steps"),
        ("rule a\ndo\nrepeat 200\nlog hello\nlog hello\nend\nend\nend\n".to_string(), "of this repeat 128 of 200 copies fit"),
        ("missing block b\nrule a\ndo\ncall b\nend\nend\n".to_string(), "no block `b` in this set"),
        ("missing rule b\nrule a\ndo\nrule enable b\nend\nend\n".to_string(), "no rule `b` in this set: this step fails"),
        ("missing rule b\nrule a\nif rule b enabled\ndo\nlog hello\nend\nend\n".to_string(), "this condition always says no"),
        ("rule a\ndo\nafter 1 s\nafter 1 s\nlog hello\nend\nend\nend\nend\n".to_string(), "after in an after"),
        ("rule a\ndo\nrepeat 2\nrepeat 2\nlog hello\nend\nend\nend\nend\n".to_string(), "repeat in a repeat"),
        ("rule a\ndo\nwhen sun is up\nwhen sun is up\nlog hello\nend\nend\nend\nend\n".to_string(), "conditional in a conditional"),
        ("rule a\ndo\nrepeat 2\ncall b\nend\nend\nend\nblock b\nrepeat 2\nlog hello\nend\nend\n".to_string(), "repeat in a repeat, through calls too"),
        ("limits depth 1\nrule a\ndo\ncall b\nend\nend\nblock b\ncall b\nend\n".to_string(), "2 calls deep, and the depth limit is 1"),
        ("rule a\ndo\nrepeat 0\nlog hello\nend\nend\nend\n".to_string(), "a repeat of 0: it is a step that fails"),
        ("rule a\nat 05:00 on no day\ndo\nlog hello\nend\nend\n".to_string(), "this trigger is never due"),
        ("rule a\nif day in no day\ndo\nlog hello\nend\nend\n".to_string(), "this condition always says no"),
        ("rule a\nevery 0 s\ndo\nlog hello\nend\nend\n".to_string(), "every 0 s is due in every tick"),
        ("rule a\ndo\ntimer start dwan 5 s\nend\nend\nrule b\nwhen timer dawn fires\ndo\nlog hello\nend\nend\n".to_string(), "nobody awaits timer `dwan`"),
        ("rule b\nwhen timer dawn fires\ndo\nlog hello\nend\nend\n".to_string(), "nobody starts timer `dawn`"),
        ("rule a\ndo\nlight house full\nafter 10 min\nlight house off\nend\nend\nend\n".to_string(), "`timer restart NAME 10 min` here"),
        (
            "rule a\nat 05:00\ndo\nlight house full\nend\nend\nrule b\nat 04:45 on monday\ndo\nwait 15 min\nlight house off\nend\nend\n".to_string(),
            "at 05:00 rule `a` says `light house full` and rule `b` says `light house off`",
        ),
        ("rule a\ndo\ncall b\nafter 10 min\nlight house off\nend\nend\nend\nblock b\nlight house full\nend\n".to_string(), "`timer restart NAME 10 min` here"),
        ("rule a\ndo\nlight house full\nwait 10 min\nlight house off\nend\nend\n".to_string(), "`timer restart NAME 10 min` here"),
        ("rule a\nat 05:00\ndo\nlight lamp full\nend\nend\n".to_string(), "light `lamp` is switched on, and no rule switches it off"),
        ("rule a\nif var x > 5\ndo\nlog hello\nend\nend\n".to_string(), "nobody sets variable `x`"),
        ("limits text 3\nrule a\ndo\nset x = text hello\nend\nend\n".to_string(), "a text of 5 bytes, and the text limit is 3"),
        ("rule a\ndo\nlight house ppm 500\nend\nend\n".to_string(), "this value has no level on the bus"),
        ("rule b = 1\nend\nrule a = 2\nend\n".to_string(), "their numbers are not in the order of their names"),
    ];
    holds(table.map(|(text, wanted)| (text.clone(), warnings(&text), wanted)));
}

/// Two rules, each with its lines before `do` and its steps: whether their lights clash.
fn clash(first: [&str; 2], second: [&str; 2]) -> bool {
    let rule = |name: &str, [head, steps]: [&str; 2]| format!("rule {name}\n{head}\ndo\n{steps}\nend\nend\n");
    let text = rule("a", first) + &rule("b", second) + "block full_later\nwait 10 min\nlight house full\nend\n\
        rule t\ndo\ntimer start t 5 s\ntimer start u 5 s\nend\nend\nrule u\nwhen timer u fires\nwhen timer t fires\ndo\nlight lamp off\nend\nend\n";
    let said = warnings(&text);
    assert!(said.matches("warning: ").count() == said.matches("has the last word").count(), "{said}");
    said.contains("rule `a` says `light house full` and rule `b` says `light house off`")
}

#[test]
fn lights_that_clash_and_lights_that_do_not() {
    let (full, off) = ("light house full", "light house off");
    let clashes = [
        (["at 05:10", full], ["at 05:10", off]),
        (["at 05:00", "call full_later"], ["at 05:10", off]),
        (["at 05:00", "repeat 2\nwait 5 min\nend\nlight house full"], ["at 05:10", off]),
        (["at 23:55 on sunday", "call full_later"], ["at 00:05 on monday", off]),
        (["at sunset + 90 s", full], ["at sunset + 1 min", off]),
        (["when timer t fires", full], ["when timer t fires", off]),
        (["every 10 min", full], ["every 20 min", off]),
        (["at 05:10", full], ["at 05:10\nif sun is up", off]),
        (["at 05:10\nif sun is up", full], ["at 05:10\nif sun is up", off]),
        (["at 05:10\nif day in monday", full], ["at 05:10 on monday to friday", off]),
    ];
    let apart = [
        (["at 05:10", full], ["at 05:11", off]),
        (["at 05:00", "call full_later"], ["at 05:00", off]),
        (["at 23:55 on sunday", "call full_later"], ["at 00:05 on sunday", off]),
        (["at sunset", full], ["at sunrise", off]),
        (["when timer t fires", full], ["when timer u fires", off]),
        (["every 10 min", full], ["every 15 min", off]),
        (["at 05:10\nif sun is up", full], ["at 05:10\nif sun is down", off]),
        (["at 05:10\nif day in monday", full], ["at 05:10 on tuesday", off]),
        (["at 05:10", "light house full\nlight house off"], ["at 05:10", off]),
        (["at 05:10", "when sun is up\nlight house full\nend"], ["at 05:10", off]),
        (["at 05:10\noff", full], ["at 05:10", off]),
    ];
    for (first, second) in clashes {
        assert!(clash(first, second), "{first:?} {second:?}");
    }
    for (first, second) in apart {
        assert!(!clash(first, second), "{first:?} {second:?}");
    }
}

#[test]
fn no_warning_without_a_reason() {
    let fine = [
        "rule a\nat 05:00 on monday\ndo\nlight house full\nend\nend\nrule b\nat 05:00 on tuesday\ndo\nlight house off\nend\nend\n",
        "rule a\ndo\nrepeat 128\nlog hello\nlog hello\nend\nend\nend\n",
        "rule a\nat 05:00\ndo\nlight house full\nafter 10 min\nlight house off\nend\nend\nend\n",
        "rule a\ndo\nlight house full\ntimer restart t 5 s\nend\nend\nrule b\nwhen timer t fires\ndo\nlight house off\nend\nend\n",
    ];
    for text in fine {
        assert_eq!(warnings(text), "", "{text}");
    }
}
