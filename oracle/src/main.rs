//! The program `oracle`. Its first word is the sub-command; see `USAGE`.

mod histories;

use std::io::{self, BufRead, BufReader, BufWriter, Write};
use std::process::ExitCode;

use oracle::script::Player;

const USAGE: &str = "usage:
  oracle play < SCRIPT               print the answers to a script
  oracle edges DIR                   compare the edges of a folder with their expected lines
  oracle random SEED COUNT           run generated histories, print one line
  oracle answers SEED COUNT          run generated histories, print a digest for each
  oracle generate SEED COUNT         print generated histories as scripts
  oracle coverage SEED COUNT         print the coverage table
  oracle shrink PROGRAM ARG.. < SCRIPT
                                     cut a script on which PROGRAM answers otherwise
  oracle vectors-write SEED COUNT FILE [EDGES]
                                     record generated histories (and edges) with their answers
  oracle vectors-check FILE          replay recorded histories, compare their answers";

fn main() -> ExitCode {
    let args: Vec<String> = std::env::args_os()
        .skip(1)
        .map(|arg| arg.to_string_lossy().into_owned())
        .collect();
    let status = match args.split_first() {
        Some((command, rest)) => run(command, rest),
        None => usage(),
    };
    ExitCode::from(status)
}

fn run(command: &str, args: &[String]) -> u8 {
    match command {
        "play" if args.is_empty() => written(play()),
        "edges" => match args {
            [folder] => oracle::edges::command(folder),
            _ => usage(),
        },
        "random" | "answers" | "generate" => match histories::seeds(args) {
            None => usage(),
            Some(seeds) => written(match command {
                "random" => histories::print_summary(seeds),
                "answers" => histories::print_digests(seeds),
                _ => histories::print_scripts(seeds),
            }),
        },
        "coverage" => oracle::coverage::command(args),
        "shrink" => oracle::shrink::command(args),
        "vectors-write" => oracle::vectors::write_command(args),
        "vectors-check" => oracle::vectors::check_command(args),
        _ => usage(),
    }
}

fn usage() -> u8 {
    complain(USAGE);
    2
}

/// Unlike `eprintln!`, does not panic where standard error is closed.
fn complain(text: &str) {
    let _ = writeln!(io::stderr(), "{text}");
}

/// The exit status of what was written.
fn written(result: io::Result<()>) -> u8 {
    match result {
        Ok(()) => 0,
        // A reader that closed early has all it wanted.
        Err(error) if error.kind() == io::ErrorKind::BrokenPipe => 0,
        Err(error) => {
            complain(&format!("oracle: {error}"));
            1
        }
    }
}

/// Line by line, so that a long script needs no memory and a waiting reader gets its answers.
fn play() -> io::Result<()> {
    let mut input = BufReader::new(io::stdin().lock());
    let mut output = BufWriter::new(io::stdout().lock());
    let mut player = Player::default();
    let mut line = Vec::new();
    while input.read_until(b'\n', &mut line)? > 0 {
        output.write_all(player.feed_bytes(&line).as_bytes())?;
        line.clear();
        if input.buffer().is_empty() {
            output.flush()?;
        }
    }
    output.flush()
}
