//! Lists of steps: up to their `end`, with what is nested in them.

use crate::fault::{nearest, Fault};
use crate::grammar::forms;
use crate::lex::{Kind, Line};
use crate::schema::{Table, AFTER, CONDITIONAL, REPEAT};
use crate::tree::{Part, Record, Spot};

use super::matcher::{fault_of, Matcher, Miss};
use super::Parser;

/// An image has room for about 500 actions, so that no accepted one is nested deeper.
const MOST_NESTED: usize = 512;

/// A list of steps was left because the file ended or something began that no list has.
pub(super) struct Left;

impl<'a> Parser<'a> {
    /// The steps up to their `end`, or to `else` where one may stand: whether it was one.
    pub(super) fn steps(&mut self, what: &str, opened: Spot, depth: usize, with_else: bool) -> Result<(Vec<Record>, bool), Left> {
        let mut steps = Vec::new();
        while let Some(head) = self.first() {
            let line = &self.lines[self.next];
            match head {
                "end" => {
                    self.alone();
                    return Ok((steps, false));
                }
                "else" if with_else => {
                    self.alone();
                    return Ok((steps, true));
                }
                "rule" | "block" | "expect" if begins_part(line) => break,
                _ if depth > MOST_NESTED => {
                    self.fault(Fault::error(line.tokens[0].spot, format!("more than {MOST_NESTED} lists inside each other")));
                    self.next = self.lines.len();
                    return Err(Left);
                }
                _ => {
                    self.next += 1;
                    let step = self.step(line, depth)?;
                    steps.extend(step);
                }
            }
        }
        self.unclosed(what, opened);
        Err(Left)
    }

    fn step(&mut self, line: &'a Line, depth: usize) -> Result<Option<Record>, Left> {
        let mut matcher = Matcher { line, at: 0, uses: &mut self.uses, places: &self.declared.places };
        let head = line.tokens[0].text.as_str();
        let spot = line.tokens[0].spot;
        let fit = matcher.record(Table::Actions, true).map_err(|miss| step_fault(miss, line));
        let mut read = match fit {
            Ok(step) => Some(step),
            Err(fault) => {
                self.fault(fault);
                // What it holds is read all the same, so that one error stays one.
                match opens_list(line) {
                    true => None,
                    false => return Ok(None),
                }
            }
        };
        if read.as_ref().is_some_and(|step| !matches!(step.kind, AFTER | REPEAT | CONDITIONAL)) {
            return Ok(read);
        }
        let (body, has_else) = self.steps(head, spot, depth + 1, head == "when")?;
        let other = if has_else { self.steps("else", spot, depth + 1, false)?.0 } else { Vec::new() };
        if let Some(step) = &mut read {
            step.parts[1] = Part::List(body);
            if step.kind == CONDITIONAL {
                step.parts[3] = Part::List(other);
            }
        }
        Ok(read)
    }
}

/// A step's message: where its first word is none, the words that begin a step.
fn step_fault(miss: Miss, line: &Line) -> Fault {
    if miss.at > 0 || miss.fault.is_some() {
        return fault_of(miss, line);
    }
    let mut heads: Vec<&str> = forms(Table::Actions).iter().filter_map(|form| form.text.split(' ').next()).collect();
    heads.dedup();
    heads.sort_unstable();
    heads.dedup();
    let token = &line.tokens[0];
    let fault = Fault::error(token.spot, format!("a step expected, found `{}`", token.text));
    match nearest(&token.text, heads.iter().copied()) {
        Some(near) => fault.help(format!("is `{near}` meant?")),
        None => fault.help(format!("steps begin with {}", heads.join(", "))),
    }
}

/// Whether a line begins a rule, a block or an expectation, and is no step such as `rule enable night`.
pub(super) fn begins_part(line: &Line) -> bool {
    let word = |place: usize| line.tokens.get(place).map(|token| token.text.as_str());
    match word(0) {
        Some("rule") => !(matches!(word(1), Some("enable" | "disable")) && line.tokens.get(2).is_some_and(|token| token.kind == Kind::Word)),
        Some("block") => true,
        Some("expect") => true,
        _ => false,
    }
}

/// Whether a line opens a list that an `end` closes.
pub(super) fn opens_list(line: &Line) -> bool {
    match line.tokens[0].text.as_str() {
        "do" | "after" | "repeat" => true,
        "when" => line.tokens.last().is_none_or(|token| token.text != "fires"),
        _ => false,
    }
}
