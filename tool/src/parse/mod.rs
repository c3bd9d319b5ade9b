//! The text form of a rule set: one statement a line, blocks close with `end`. Several errors are found in one reading: a line that cannot be
//! read is passed over.

pub mod decl;
pub mod items;
pub mod matcher;
pub mod resolve;
mod steps;
mod values;

use crate::cron;
use crate::expect::{self, Expect};
use crate::fault::{nearest, Fault};
use crate::lex::{self, Line};
use crate::names::Book;
use crate::schema::{Sort, Table};
use crate::tree::{Block, Limits, Record, Rule, Set, Spot};

use decl::{heads, Declared, Def, Places};
use matcher::{fault_of, Matcher, Use};
use steps::{begins_part, opens_list, Left};

const MOST_FAULTS: usize = 20;

/// What a file says.
pub struct File {
    pub set: Set,
    pub book: Book,
    pub places: Places,
    pub expects: Vec<Expect>,
    /// The names that are declared and the places where names stand, for warnings.
    pub defs: Vec<Def>,
    pub uses: Vec<Use>,
}

/// Reads a file; `known` has the numbers that its names have already.
pub fn file(source: &str, known: &Book) -> Result<File, Vec<Fault>> {
    let (lines, faults) = lex::lines(source);
    let mut parser = Parser { lines: &lines, faults, ..Parser::default() };
    parser.declared.places.monday = known.monday;
    parser.declarations();
    parser.file();
    let mut faults = std::mem::take(&mut parser.faults);
    let resolved = match faults.is_empty() {
        true => resolve::resolve(parser, known),
        // A declaration that cannot be read would make its names unknown too.
        false if parser.bad_declaration => Err(Vec::new()),
        false => Err(resolve::undeclared(&parser.declared.defs, &parser.uses)),
    };
    match resolved {
        Ok(file) => Ok(file),
        Err(more) => {
            faults.extend(more);
            faults.sort_by_key(|fault| (fault.spot.line, fault.spot.column));
            faults.truncate(MOST_FAULTS);
            Err(faults)
        }
    }
}

#[derive(Default)]
pub(crate) struct Parser<'a> {
    lines: &'a [Line],
    /// Which lines are declarations.
    declared_lines: Vec<bool>,
    next: usize,
    pub(crate) declared: Declared,
    pub(crate) uses: Vec<Use>,
    pub(crate) rules: Vec<Rule>,
    pub(crate) blocks: Vec<Block>,
    pub(crate) expects: Vec<Expect>,
    bad_declaration: bool,
    faults: Vec<Fault>,
}

impl<'a> Parser<'a> {
    fn fault(&mut self, fault: Fault) {
        self.faults.push(fault);
    }

    fn first(&self) -> Option<&'a str> {
        self.lines.get(self.next).map(|line| line.tokens[0].text.as_str())
    }

    /// The line that is next, and goes on to the one behind it.
    fn line(&mut self) -> Option<&'a Line> {
        let line = self.lines.get(self.next)?;
        self.next += 1;
        Some(line)
    }

    // DECLARATIONS --------------------------------------------------------------------------------------------------------------------------

    /// Declarations may stand behind the rules that use them, so they are read first.
    fn declarations(&mut self) {
        let mut open = 0_usize;
        for line in self.lines {
            let head = line.tokens[0].text.as_str();
            let is_declaration = open == 0 && heads().contains(&head);
            self.declared_lines.push(is_declaration);
            if is_declaration {
                if let Err(fault) = self.declared.line(line) {
                    self.bad_declaration = true;
                    self.fault(fault);
                }
            }
            match head {
                "rule" | "block" | "expect" if begins_part(line) => open = 1,
                "end" => open = open.saturating_sub(1),
                _ if open > 0 && opens_list(line) => open += 1,
                _ => {}
            }
        }
    }

    fn file(&mut self) {
        while let Some(head) = self.first() {
            let line = &self.lines[self.next];
            match head {
                _ if self.declared_lines[self.next] => self.next += 1,
                "rule" => self.rule(),
                "block" => self.block(),
                "expect" => self.expect(),
                other => {
                    let mut known = heads();
                    known.extend(["rule", "block", "expect"]);
                    let fault = Fault::error(line.tokens[0].spot, format!("`{other}` begins nothing here"));
                    let help = match nearest(other, known.iter().copied()) {
                        Some(near) if near != other => format!("is `{near}` meant?"),
                        _ if other == "end" => "there is an `end` too many above".to_string(),
                        _ => format!("a file has: {}", known.join(", ")),
                    };
                    self.fault(fault.help(help));
                    self.next += 1;
                }
            }
        }
    }

    // RULES AND BLOCKS ----------------------------------------------------------------------------------------------------------------------

    /// `rule NAME [= NUMBER]`: the place of its use.
    fn header(&mut self, sort: Sort) -> (u32, Spot) {
        let Some(line) = self.line() else { return (0, Spot::default()) };
        let use_at = self.uses.len() as u32;
        let places = self.declared.places.clone();
        let mut uses = Vec::new();
        let mut matcher = Matcher { line, at: 1, uses: &mut uses, places: &places };
        let mut read = || {
            matcher.name(sort)?;
            let number = match matcher.take("=") {
                true => Some(matcher.number("a number", u64::from(u32::MAX))? as u32),
                false => None,
            };
            matcher.end().map(|()| number)
        };
        let fit = read();
        match fit {
            Ok(number) => {
                let Use { name, spot, .. } = uses[0].clone();
                self.defs_of_header(sort, &name, spot, number);
                self.uses.push(Use { sort, name, spot });
                (use_at, spot)
            }
            Err(miss) => {
                let fault = fault_of(miss, line);
                self.fault(fault);
                let spot = line.tokens[0].spot;
                self.uses.push(Use { sort, name: String::new(), spot });
                (use_at, spot)
            }
        }
    }

    fn defs_of_header(&mut self, sort: Sort, name: &str, spot: Spot, number: Option<u32>) {
        let first = self.declared.defs.iter().find(|def| def.sort == sort && def.name == name).cloned();
        match first {
            Some(first) if sort == Sort::Rule || first.missing => {
                let fault = Fault::error(spot, format!("a second {} `{name}`", sort.word()));
                self.fault(fault.help(format!("the first stands on line {}", first.spot.line)));
            }
            // Of two blocks of one name the first counts; `lint` says so.
            Some(_) => {}
            None => {
                let (words, bright, missing) = (None, None, false);
                self.declared.defs.push(Def { sort, name: name.to_string(), spot, number, words, bright, missing });
            }
        }
    }

    fn rule(&mut self) {
        let (name, spot) = self.header(Sort::Rule);
        let mut rule = Rule { name, enabled: true, spot, ..Rule::default() };
        let mut has_steps = false;
        while let Some(head) = self.first() {
            let line = &self.lines[self.next];
            match head {
                "end" => {
                    self.alone();
                    self.rules.push(rule);
                    return;
                }
                "rule" | "block" | "expect" if begins_part(line) => break,
                "do" if has_steps => {
                    self.fault(Fault::error(line.tokens[0].spot, "a second `do`").help("a rule has one list of steps"));
                    self.next += 1;
                }
                "do" => {
                    has_steps = true;
                    self.alone();
                    match self.steps("do", line.tokens[0].spot, 1, false) {
                        Ok((steps, _)) => rule.steps = steps,
                        Err(Left) => return,
                    }
                }
                _ => self.rule_line(&mut rule),
            }
        }
        self.unclosed("rule", spot);
    }

    fn rule_line(&mut self, rule: &mut Rule) {
        let Some(line) = self.line() else { return };
        let spot = line.tokens[0].spot;
        let mut matcher = Matcher { line, at: 1, uses: &mut self.uses, places: &self.declared.places };
        let fit = match line.tokens[0].text.as_str() {
            "off" => {
                rule.enabled = false;
                matcher.end()
            }
            "hold" => {
                rule.hold = true;
                matcher.end()
            }
            "cooldown" => matcher.span().and_then(|span| {
                rule.cooldown = span;
                matcher.end()
            }),
            "if" => matcher.record(Table::Conditions, true).map(|condition| rule.conditions.push(Record { spot, ..condition })),
            "when" | "every" | "at" | "other" => {
                matcher.at = 0;
                matcher.record(Table::Triggers, true).map(|trigger| rule.triggers.push(trigger))
            }
            "cron" => match cron::triggers(line, self.declared.places.monday) {
                Ok(triggers) => {
                    rule.triggers.extend(triggers);
                    Ok(())
                }
                Err(fault) => return self.fault(*fault),
            },
            _ => return self.fault(no_line_of_rule(line)),
        };
        if let Err(miss) = fit {
            let fault = fault_of(miss, line);
            self.fault(fault);
        }
    }

    fn block(&mut self) {
        let (name, spot) = self.header(Sort::Block);
        if let Ok((steps, _)) = self.steps("block", spot, 1, false) {
            self.blocks.push(Block { name, steps, spot });
        }
    }

    fn expect(&mut self) {
        let from = self.next;
        self.next += 1;
        let mut lines = Vec::new();
        while let Some(head) = self.first() {
            let line = &self.lines[self.next];
            if head == "end" {
                self.alone();
                let read = expect::read(&self.lines[from], &lines, &mut self.uses, &self.declared.places);
                match read {
                    Ok(expect) => self.expects.push(expect),
                    Err(faults) => self.faults.extend(faults),
                }
                return;
            }
            if matches!(head, "rule" | "block" | "expect") && begins_part(line) {
                break;
            }
            lines.push(line);
            self.next += 1;
        }
        self.unclosed("expect", self.lines[from].tokens[0].spot);
    }

    /// The line has nothing behind its first word.
    fn alone(&mut self) {
        if let Some(line) = self.line() {
            if let Some(token) = line.tokens.get(1) {
                let fault = Fault::error(token.spot, format!("the end of the line expected, found `{}`", token.text));
                self.fault(fault.help(format!("`{}` stands alone on its line", line.tokens[0].text)));
            }
        }
    }

    fn unclosed(&mut self, what: &str, spot: Spot) {
        let at = self.lines.get(self.next).map(|line| line.tokens[0].spot);
        let found = self.lines.get(self.next).map_or("the file ends".to_string(), |line| format!("`{}` begins", line.tokens[0].text));
        let fault = Fault::error(at.unwrap_or(spot), format!("{found} inside `{what}` of line {}", spot.line));
        self.fault(fault.help("an `end` is missing above"));
    }

    pub(crate) fn limits(&self) -> Limits {
        self.declared.limits.unwrap_or(Limits::LARGEST)
    }
}

/// The message of a line that no rule has.
fn no_line_of_rule(line: &Line) -> Fault {
    let head = line.tokens[0].text.as_str();
    let known = ["at", "every", "when", "cron", "if", "cooldown", "off", "hold", "do", "end"];
    let is_step = crate::grammar::forms(Table::Actions).iter().any(|form| form.text.split(' ').next() == Some(head));
    let help = match nearest(head, known) {
        Some(near) => format!("is `{near}` meant?"),
        None if is_step => "steps stand between `do` and its `end`".to_string(),
        None => format!("a rule has: {}", known.join(", ")),
    };
    Fault::error(line.tokens[0].spot, format!("`{head}` is nothing that a rule has")).help(help)
}
