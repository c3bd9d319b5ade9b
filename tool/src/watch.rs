//! `barn watch`: what waits in a saved store.

use std::io::Write as _;
use std::time::Duration;

use crate::args::Args;
use crate::command::{names_for, Said};
use crate::day::options;
use crate::explain;
use crate::files::{self, Stop};
use crate::help;
use crate::state::Teller;
use crate::store::State;

pub fn command(args: &[String]) -> Result<Said, Stop> {
    let args = Args::read("watch", args, &["--every", "--sun"], &[])?;
    let (path, names) = match args.given.as_slice() {
        [path] => (path, None),
        [path, names] => (path, Some(names)),
        _ => return Err(Stop::usage(help::of("watch").unwrap_or_default())),
    };
    let sun = args.value("--sun").map(|text| options::sun("watch", text)).transpose()?;
    let Some(every) = args.value("--every") else { return look(path, names, sun) };
    let seconds = every.parse::<f64>().ok().filter(|seconds| (0.1..=86_400.0).contains(seconds));
    let seconds = seconds.ok_or_else(|| Stop::usage(format!("barn watch: --every `{every}`: seconds, 0.1 to 86400, expected\n")))?;
    loop {
        // A store that is being written may be read half: it is told, and read again.
        let text = look(path, names, sun).map_or_else(|stop| stop.text, |said| said.out);
        if writeln!(std::io::stdout(), "{text}").and_then(|()| std::io::stdout().flush()).is_err() {
            return Ok(Said::default());
        }
        std::thread::sleep(Duration::from_secs_f64(seconds));
    }
}

fn look(path: &str, names: Option<&String>, sun: Option<(u32, u32)>) -> Result<Said, Stop> {
    let words = files::read_words(path)?;
    let book = names_for(path, names)?;
    if let Some(refusal) = explain::store::refusal(&words, &book) {
        return Err(Stop::fails(explain::text(&refusal, "every call but new", &[])));
    }
    let state = State::of(&words).ok_or_else(|| Stop::fails(format!("barn: {path} is no store\n")))?;
    let teller = Teller::new(&state, &book);
    Ok(Said { out: teller.rules_text() + &teller.waits_text() + &teller.next_start(sun), ..Said::default() })
}
