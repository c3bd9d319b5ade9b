//! `oracle shrink PROGRAM ARG.. < SCRIPT`: the smallest script found on which the
//! program, fed with it, prints something else than the oracle.

use std::io::{Read, Write};
use std::process::{Command, Stdio};

use super::shrink;
use crate::house::Call;
use crate::script;

pub fn command(args: &[String]) -> u8 {
    let Some((program, rest)) = args.split_first() else {
        complain("usage: oracle shrink PROGRAM ARG.. < SCRIPT");
        return 2;
    };
    let mut text = String::new();
    if std::io::stdin().read_to_string(&mut text).is_err() {
        complain("oracle shrink: the script is no text");
        return 2;
    }
    let calls: Vec<Call> = text.lines().filter_map(|line| script::parse(line).ok().flatten()).collect();
    let differs = |calls: &[Call]| {
        let text = script_of(calls);
        printed_by(program, rest, &text).is_none_or(|printed| printed != script::play(&text))
    };
    if !differs(&calls) {
        print("# no difference\n");
        return 1;
    }
    print(&script_of(&shrink(&calls, &differs)));
    0
}

fn complain(text: &str) {
    let _ = writeln!(std::io::stderr(), "{text}");
}

fn print(text: &str) {
    // A reader that closed early wants no more.
    let _ = std::io::stdout().write_all(text.as_bytes());
}

fn script_of(calls: &[Call]) -> String {
    calls.iter().map(|call| script::line(call) + "\n").collect()
}

/// What a program prints when it is fed with a script; None if it does not run.
fn printed_by(program: &str, args: &[String], text: &str) -> Option<String> {
    let mut child = Command::new(program)
        .args(args)
        .stdin(Stdio::piped())
        .stdout(Stdio::piped())
        .spawn()
        .ok()?;
    let mut input = child.stdin.take()?;
    let script = text.to_owned();
    // The script is written beside the reading, so that neither pipe fills up.
    let writer = std::thread::spawn(move || input.write_all(script.as_bytes()));
    let output = child.wait_with_output().ok()?;
    let _ = writer.join();
    String::from_utf8(output.stdout).ok()
}
