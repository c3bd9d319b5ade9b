//! What `--help` prints.

pub const COMMANDS: [&str; 8] = ["check", "words", "show", "explain", "day", "test", "log", "watch"];

pub const SHORT: &str = "usage: barn check|words|show|explain|day|test|log|watch ..; `barn --help` tells more\n";

pub const ALL: &str = "barn: lighting rules as text, a day as a picture, refusals explained

  barn check FILE.rules                errors and warnings
  barn words FILE.rules [-o IMAGE]     the rule image, and FILE.names
  barn show IMAGE|STORE [NAMES]        the text again; of a store also what it holds
  barn explain IMAGE|SNAPSHOT|STORE    the refusal that applies, and where
  barn day FILE.rules ..               plays the rules: timeline, light hours, pictures
  barn test FILE.rules                 the `expect` blocks of a file
  barn log FILE [NAMES]                answers of ticks and runs, in words
  barn watch STORE [NAMES]             what waits

`barn COMMAND --help` tells more; docs/RULES.md has the language.
Exit status: 0 fine, 1 the rules, words or expectations fail, 2 wrong usage.
This program is not proved. The proved `load` judges every image that it makes; the proved `tick` and `run` make every day that it prints.
";

pub fn of(command: &str) -> Option<&'static str> {
    Some(match command {
        "check" => CHECK,
        "words" => WORDS,
        "show" => SHOW,
        "explain" => EXPLAIN,
        "day" => DAY,
        "test" => TEST,
        "log" => LOG,
        "watch" => WATCH,
        _ => return None,
    })
}

const CHECK: &str = "usage: barn check FILE.rules [--strict]

Reads the rules, has the proved `load` judge them, and warns of what loads and then silently loses light. Says how large the set is, and
what memory a controller lends for its outcomes and effects.

  --strict   warnings fail too (exit status 1)
";

const WORDS: &str = "usage: barn words FILE.rules [-o IMAGE] [--no-names]

Writes the rule image: decimal words, a record a line, to standard output or to IMAGE; bytes, four a word and the lowest first, where IMAGE
ends with .img. Writes FILE.names beside the rules: NAME NUMBER pairs that stay for the life of a store, rules and timers in byte order of
their names. A new name takes the middle of the gap between its neighbours; a name that is gone keeps its line.

  -o IMAGE     where to write
  --no-names   leave FILE.names as it is
";

const SHOW: &str = "usage: barn show IMAGE|STORE [NAMES]

Writes an image as text that `barn words` turns into the same set. Of a store (16384 words) also, as comments: last time, rules, what waits,
timers, Every slots, variables, counters. Without NAMES, FILE.names beside the words is taken if it is there.
The file has decimal words with `#` comments, or bytes, four a word and the lowest first.
";

const EXPLAIN: &str = "usage: barn explain FILE [NAMES] [--as image|snapshot|store]

Tells the refusal that applies to an image (10 to 17), a snapshot (20 to 22) or a store (1, 2), down to table, record, word and field, with the
allowed range and the rule that reaches the record. Exit status 1 if there is one.

  --as ..    what the words are; without it: by the file's end (.img, .snap, .store), by their number, or what accepts them
";

const DAY: &str = "usage: barn day FILE.rules|IMAGE [options]

Plays the rules, or an image that ends with .img or .words, on the proved engine and prints a timeline, a bar for each light, the light hours
of each light and day, and the longest dark stretch. The week before is played too, unseen, so that the day begins with the lights as they are.

  --days N                 so many days (1); over 7 the timeline is left out unless --timeline is given, over 31 the bars too
  --sun HH:MM-HH:MM        sunrise and sunset of every day (06:00-18:00)
  --latitude D             sunrise and sunset by date and latitude, -90 to 90, at the time zone's meridian, without summer time
  --date YYYY-MM-DD        the first day (2026-01-05, a Monday)
  --tick 1s|1min           how often the controller ticks (1s; seconds in which nothing can be due are left out)
  --press RULE@[DAY/]HH:MM[:SS]
                           runs a rule by hand; may be given several times
  --cut [DAY/]HH:MM-HH:MM  a power cut: the store is saved before it and restored behind it, lights are dark
  --after-cut minutes|one-tick
                           the host behind a cut ticks once for each minute that went by (minutes), or once (one-tick)
  --set-clock [DAY/]HH:MM=HH:MM
                           the wall clock is set at this time
  --new                    begin with a new store instead of the week before
  --timeline               print the timeline of more than 7 days too
  --svg F, --html F, --csv F
                           write the picture, the picture with tables as one page, the timeline
";

const TEST: &str = "usage: barn test FILE.rules..

Plays the `expect` blocks of each file on the proved engine. What differs is shown with the timeline around it; exit status 1 if anything does.
";

const LOG: &str = "usage: barn log FILE [NAMES]

Reads the lines that `play` prints (tick and run with their outcomes and effects, deadline, counters, refusals) and says them in words.
`-` is standard input. Without NAMES, FILE.names beside the log is taken if it is there.
";

const WATCH: &str = "usage: barn watch STORE [NAMES] [--sun HH:MM-HH:MM] [--every SECONDS]

Tells what waits in a saved store: rule, next step, due time, budget left; timers, Every slots, and the next start by the clock (the proved
call's answer, from the minute of the last tick on).

  --sun HH:MM-HH:MM   sunrise and sunset, for the next start of rules by the sun; without it they are left out
  --every SECONDS     read the store again and again
";
