//! Files: rules with their names, and words as decimal text or as bytes.

use std::fs;
use std::path::{Path, PathBuf};

use crate::fault::{render, Fault};
use crate::names::Book;
use crate::parse::{self, File};

/// A command that ends without its answer: what is said, and the exit status.
#[derive(Debug)]
pub struct Stop {
    pub text: String,
    pub status: u8,
}

impl Stop {
    /// The rules or the words are wrong: status 1.
    pub fn fails(text: impl Into<String>) -> Stop {
        Stop { text: text.into(), status: 1 }
    }

    /// The command is used wrongly: status 2.
    pub fn usage(text: impl Into<String>) -> Stop {
        Stop { text: text.into(), status: 2 }
    }
}

fn read(path: &str) -> Result<Vec<u8>, Stop> {
    fs::read(path).map_err(|error| Stop::usage(format!("barn: {path}: {error}\n")))
}

fn read_text(path: &str) -> Result<String, Stop> {
    String::from_utf8(read(path)?).map_err(|error| {
        let at = error.utf8_error().valid_up_to();
        let line = error.as_bytes()[..at].iter().filter(|byte| **byte == b'\n').count() + 1;
        Stop::fails(format!("error: this file is no text: byte {} is no UTF-8\n  --> {path}:{line}\n", at + 1))
    })
}

/// Writes a file, but not over one that was read.
pub fn write(path: &str, bytes: &[u8], read: &[&Path]) -> Result<(), Stop> {
    let whole = |path: &Path| fs::canonicalize(path).ok();
    let own = whole(Path::new(path));
    if own.is_some() && read.iter().any(|other| whole(other) == own) {
        return Err(Stop::usage(format!("barn: {path} is a file that this command reads: it is not written over\n")));
    }
    fs::write(path, bytes).map_err(|error| Stop::usage(format!("barn: {path}: {error}\n")))
}

/// The names, whole or not at all: a store remembers rules by their numbers.
pub fn write_names(path: &Path, text: &str) -> Result<(), Stop> {
    let fresh = path.with_extension("names.new");
    let written = fs::write(&fresh, text).and_then(|()| fs::rename(&fresh, path));
    written.map_err(|error| Stop::usage(format!("barn: {}: {error}\n", path.display())))
}

/// FILE.names beside FILE.rules.
pub fn names_path(rules: &str) -> PathBuf {
    Path::new(rules).with_extension("names")
}

pub fn read_names(path: &Path) -> Result<Book, Stop> {
    let shown = path.to_string_lossy();
    let text = read_text(&shown)?;
    Book::read(&text).map_err(|(line, what)| {
        let length = text.lines().nth(line - 1).map_or(1, |line| line.chars().count());
        let spot = crate::tree::Spot { line, column: 1, length };
        Stop::fails(render(&shown, &text, &[Fault::error(spot, what)]))
    })
}

/// The names beside a file of rules; none where there is no such file.
pub fn known_names(rules: &str) -> Result<Book, Stop> {
    let path = names_path(rules);
    match path.exists() {
        true => read_names(&path),
        false => Ok(Book::default()),
    }
}

pub struct Rules {
    pub path: String,
    pub source: String,
    pub file: File,
}

pub fn read_rules(path: &str) -> Result<Rules, Stop> {
    let source = read_text(path)?;
    let known = known_names(path)?;
    match parse::file(&source, &known) {
        Ok(file) => Ok(Rules { path: path.to_string(), source, file }),
        Err(faults) => {
            let count = faults.len();
            let tail = format!("{path}: {count} {}\n", if count == 1 { "error" } else { "errors" });
            Err(Stop::fails(render(path, &source, &faults) + &tail))
        }
    }
}

// WORDS ------------------------------------------------------------------------------------------------------------------------------------

/// More words than any image, snapshot or store has, so that a large file is not turned into words.
const MOST_WORDS: usize = 1 << 20;

/// The words of a file: decimal numbers with blanks between them and `#` comments, or bytes, four a word, the lowest first.
pub fn read_words(path: &str) -> Result<Vec<u32>, Stop> {
    let bytes = read(path)?;
    if bytes.len() > 4 * MOST_WORDS {
        return Err(Stop::fails(format!("barn: {path}: {} bytes are more than an image, a snapshot or a store has\n", bytes.len())));
    }
    match std::str::from_utf8(&bytes).ok().filter(|text| is_decimal(text)) {
        Some(text) => decimal(path, text),
        None => binary(path, &bytes),
    }
}

/// Whether a file looks like decimal words: the first line that is no comment has digits and blanks only.
fn is_decimal(text: &str) -> bool {
    let mut lines = text.lines().map(|line| line.split('#').next().unwrap_or("").trim());
    let first = lines.find(|line| !line.is_empty()).unwrap_or("");
    first.chars().all(|c| c.is_ascii_digit() || c.is_whitespace()) && !first.is_empty() && !text.contains('\0')
}

fn decimal(path: &str, text: &str) -> Result<Vec<u32>, Stop> {
    let mut words = Vec::new();
    for (number, line) in text.lines().enumerate() {
        for word in line.split('#').next().unwrap_or("").split_whitespace() {
            let parsed = word.parse::<u32>().map_err(|_| {
                let column = line.find(word).map_or(1, |at| line[..at].chars().count() + 1);
                let spot = crate::tree::Spot { line: number + 1, column, length: word.chars().count() };
                Stop::fails(render(path, text, &[Fault::error(spot, format!("`{word}` is no word: a number of 0 to 4294967295"))]))
            })?;
            words.push(parsed);
        }
    }
    Ok(words)
}

fn binary(path: &str, bytes: &[u8]) -> Result<Vec<u32>, Stop> {
    if bytes.len() % 4 != 0 {
        let text = format!("barn: {path}: {} bytes are no whole number of words of 4 bytes\n", bytes.len());
        return Err(Stop::fails(text));
    }
    Ok(words_of(bytes))
}

/// Four bytes a word, the lowest first.
pub fn bytes_of(words: &[u32]) -> Vec<u8> {
    words.iter().flat_map(|word| word.to_le_bytes()).collect()
}

pub fn words_of(bytes: &[u8]) -> Vec<u32> {
    bytes.chunks_exact(4).map(|four| u32::from_le_bytes([four[0], four[1], four[2], four[3]])).collect()
}

/// Words as bytes for `.img`, as decimal text otherwise: a record a line.
pub fn image_bytes(path: &str, words: &[u32]) -> Vec<u8> {
    match path.ends_with(".img") {
        true => bytes_of(words),
        false => image_text(words).into_bytes(),
    }
}

pub fn image_text(words: &[u32]) -> String {
    let mut text = String::new();
    let mut place = 0;
    let starts = words.len().checked_sub(8).map_or(&[][..], |at| &words[at..]);
    let rules = starts.get(1).map_or(0, |word| *word as usize);
    let body = words.len().saturating_sub(13);
    while place < words.len() {
        let width = match place {
            at if at < rules => 16,
            at if at < body => 8.min(body - at),
            _ => 13,
        };
        let line: Vec<String> = words[place..(place + width).min(words.len())].iter().map(u32::to_string).collect();
        text.push_str(&line.join(" "));
        text.push('\n');
        place += width;
    }
    text
}

#[cfg(test)]
mod tests {
    use super::{image_text, is_decimal};

    #[test]
    fn decimal_text_is_known() {
        assert!(is_decimal("# an image\n1 2 3\n"));
        assert!(!is_decimal("\u{1}\0\0\0"));
        assert!(!is_decimal("light house"));
        assert!(!is_decimal(""));
    }

    #[test]
    fn every_word_is_written_once() {
        let words: Vec<u32> = (0..61).collect();
        let read: Vec<u32> = image_text(&words).split_whitespace().map(|word| word.parse().unwrap()).collect();
        assert_eq!(read, words);
    }
}
