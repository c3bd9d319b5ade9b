//! Lines of tokens. One statement a line; `#` begins a comment.

use crate::fault::Fault;
use crate::tree::Spot;

#[derive(Clone, Debug, PartialEq)]
pub enum Kind {
    /// Letters, digits and `_`, not beginning with a digit.
    Word,
    /// Digits, maybe with a point and further digits.
    Number,
    /// `05:00` or `05:00:30`.
    Clock,
    /// Between quotation marks; the token's text has none.
    Quoted,
    Sign,
}

#[derive(Clone, Debug)]
pub struct Token {
    pub kind: Kind,
    pub text: String,
    pub spot: Spot,
}

#[derive(Clone, Debug)]
pub struct Line {
    pub tokens: Vec<Token>,
    /// Just behind the last token.
    pub end: Spot,
}

const SIGNS: [&str; 4] = ["..", ">=", "<=", "!="];

/// The lines of a file that hold a statement.
pub fn lines(source: &str) -> (Vec<Line>, Vec<Fault>) {
    let (mut lines, mut faults) = (Vec::new(), Vec::new());
    for (number, text) in source.lines().enumerate() {
        match line(text, number + 1) {
            Ok(tokens) => {
                if let Some(last) = tokens.last() {
                    let quotes = if last.kind == Kind::Quoted { 2 } else { 0 };
                    let column = last.spot.column + last.text.chars().count() + quotes;
                    let end = Spot { line: number + 1, column, length: 1 };
                    lines.push(Line { tokens, end });
                }
            }
            Err(fault) => faults.push(fault),
        }
    }
    (lines, faults)
}

fn is_word(c: char) -> bool {
    c.is_alphanumeric() || c == '_'
}

fn line(text: &str, number: usize) -> Result<Vec<Token>, Fault> {
    let chars: Vec<char> = text.chars().collect();
    let mut tokens = Vec::new();
    let mut at = 0;
    while at < chars.len() {
        let c = chars[at];
        if c.is_whitespace() || c == '\u{feff}' {
            at += 1;
            continue;
        }
        if c == '#' {
            break;
        }
        let (kind, length) = token(&chars[at..]);
        let spot = Spot { line: number, column: at + 1, length };
        let inner = match kind {
            Kind::Quoted if length < 2 || chars[at + length - 1] != '"' => {
                return Err(Fault::error(spot, "a text without its closing `\"`"));
            }
            Kind::Quoted => &chars[at + 1..at + length - 1],
            _ => &chars[at..at + length],
        };
        tokens.push(Token { kind, text: inner.iter().collect(), spot });
        at += length;
    }
    Ok(tokens)
}

/// The kind and length of the token that a line begins with.
fn token(chars: &[char]) -> (Kind, usize) {
    let count = |from: usize, test: fn(char) -> bool| chars.iter().skip(from).take_while(|c| test(**c)).count();
    match chars[0] {
        '"' => {
            let inner = count(1, |c| c != '"');
            (Kind::Quoted, (inner + 2).min(chars.len()))
        }
        c if c.is_ascii_digit() => number(chars),
        c if is_word(c) => (Kind::Word, count(0, is_word)),
        _ => {
            let two: String = chars.iter().take(2).collect();
            (Kind::Sign, if SIGNS.contains(&two.as_str()) { 2 } else { 1 })
        }
    }
}

fn number(chars: &[char]) -> (Kind, usize) {
    let digits = |from: usize| chars.iter().skip(from).take_while(|c| c.is_ascii_digit()).count();
    let mut length = digits(0);
    let mut kind = Kind::Number;
    if chars.get(length) == Some(&'.') && digits(length + 1) > 0 {
        return (kind, length + 1 + digits(length + 1));
    }
    while chars.get(length) == Some(&':') && digits(length + 1) > 0 {
        kind = Kind::Clock;
        length += 1 + digits(length + 1);
    }
    (kind, length)
}

#[cfg(test)]
mod tests {
    use super::{lines, Kind};

    fn texts(source: &str) -> Vec<(Kind, String)> {
        let (lines, faults) = lines(source);
        assert!(faults.is_empty());
        lines.into_iter().flat_map(|line| line.tokens).map(|token| (token.kind, token.text)).collect()
    }

    #[test]
    fn tokens_of_each_kind() {
        let found = texts("at 05:00:30 12.5 % \"a # b\" >= x_1 # rest\n\n10min");
        let wanted = [
            (Kind::Word, "at"),
            (Kind::Clock, "05:00:30"),
            (Kind::Number, "12.5"),
            (Kind::Sign, "%"),
            (Kind::Quoted, "a # b"),
            (Kind::Sign, ">="),
            (Kind::Word, "x_1"),
            (Kind::Number, "10"),
            (Kind::Word, "min"),
        ];
        assert_eq!(found, wanted.map(|(kind, text)| (kind, text.to_string())));
    }

    #[test]
    fn ranges_and_open_texts() {
        assert_eq!(texts("1..2").len(), 3);
        assert_eq!(lines("log \"abc").1.len(), 1);
        assert_eq!(lines("log \"").1.len(), 1);
    }
}
