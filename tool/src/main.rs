//! The program `barn`.

use std::io::Write as _;
use std::process::ExitCode;

/// Rules may be nested some hundred lists deep.
const STACK: usize = 256 << 20;

fn main() -> ExitCode {
    let args: Vec<String> = std::env::args_os().skip(1).map(|arg| arg.to_string_lossy().into_owned()).collect();
    let thread = std::thread::Builder::new().stack_size(STACK).spawn(move || barn::command::run(&args));
    let said = match thread.map(std::thread::JoinHandle::join) {
        Ok(Ok(said)) => said,
        _ => barn::command::Said { err: "barn: no room for its work\n".to_string(), status: 2, ..Default::default() },
    };
    // A reader that has closed early has all it wanted.
    let _ = std::io::stdout().write_all(said.out.as_bytes());
    let _ = std::io::stdout().flush();
    let _ = std::io::stderr().write_all(said.err.as_bytes());
    ExitCode::from(said.status)
}
