//! The words of a command line: what stands alone, and options.

use crate::fault::nearest;
use crate::files::Stop;

pub struct Args {
    pub given: Vec<String>,
    options: Vec<(&'static str, String)>,
}

impl Args {
    /// `known` are the options with a value, `flags` those without.
    pub fn read(command: &str, args: &[String], known: &[&'static str], flags: &[&'static str]) -> Result<Args, Stop> {
        let mut read = Args { given: Vec::new(), options: Vec::new() };
        let mut rest = args.iter();
        while let Some(arg) = rest.next() {
            if !arg.starts_with('-') || arg == "-" {
                read.given.push(arg.clone());
                continue;
            }
            let (name, inline) = match arg.split_once('=') {
                Some((name, value)) if name.starts_with("--") => (name, Some(value.to_string())),
                _ => (arg.as_str(), None),
            };
            if let Some(flag) = flags.iter().find(|flag| **flag == name) {
                read.options.push((flag, String::new()));
            } else if let Some(option) = known.iter().find(|option| **option == name) {
                let value = inline.or_else(|| rest.next().cloned());
                let value = value.ok_or_else(|| Stop::usage(format!("barn {command}: {name} needs a value; see `barn {command} --help`\n")))?;
                read.options.push((option, value));
            } else {
                let all = known.iter().chain(flags).copied();
                let near = nearest(name, all).map_or(String::new(), |near| format!(" Is `{near}` meant?"));
                return Err(Stop::usage(format!("barn {command}: no option `{name}`.{near} See `barn {command} --help`\n")));
            }
        }
        Ok(read)
    }

    pub fn has(&self, name: &str) -> bool {
        self.options.iter().any(|(option, _)| *option == name)
    }

    /// The last value of an option.
    pub fn value(&self, name: &str) -> Option<&str> {
        self.options.iter().rev().find(|(option, _)| *option == name).map(|(_, value)| value.as_str())
    }

    pub fn all<'a>(&'a self, name: &'a str) -> impl Iterator<Item = &'a str> {
        self.options.iter().filter(move |(option, _)| *option == name).map(|(_, value)| value.as_str())
    }
}
