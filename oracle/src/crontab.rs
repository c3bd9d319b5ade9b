//! Request 2 of document 02: a line of a crontab as AtTime triggers. The published engine has no such call. This reader is written from the
//! text of POSIX for `crontab`, which it quotes, and from the request's own sentences.

use std::fmt::Write;
use std::ops::RangeInclusive;

use crate::script::Given;

/// The words of a trigger record.
pub const RECORD: usize = 8;
pub const WEEK: u32 = 10_080;
const DAY: u32 = 1_440;
const HOUR: u32 = 60;

/// "Each of these patterns can be either an asterisk (meaning all valid values), an element, or a list of elements separated by commas. An
/// element shall be either a number or two numbers separated by a hyphen-minus (meaning an inclusive range)."
#[derive(Debug, PartialEq)]
enum Pattern {
    All,
    Elements(Vec<RangeInclusive<u32>>),
}

/// "The first five fields shall be integer patterns."
#[derive(Debug, PartialEq)]
pub struct Line {
    minute: Pattern,
    hour: Pattern,
    day_of_month: Pattern,
    month: Pattern,
    day_of_week: Pattern,
}

/// Why a line has no triggers.
#[derive(Clone, Copy, Debug, PartialEq, Eq, PartialOrd, Ord)]
pub enum Wrong {
    Sunday,
    BlankFirst,
    FewFields,
    /// The field with this number, from 0, is no pattern.
    Field(usize),
    DayOfMonth,
    Month,
    Room,
}

impl Wrong {
    /// "Answers: 50 line not of the POSIX form or Sunday's number above 6, 51 day of month or month not an asterisk, 52 more pairs than the
    /// lent store holds."
    #[must_use]
    pub fn number(self) -> u32 {
        match self {
            Wrong::Sunday | Wrong::BlankFirst | Wrong::FewFields | Wrong::Field(_) => 50,
            Wrong::DayOfMonth | Wrong::Month => 51,
            Wrong::Room => 52,
        }
    }
}

/// What an AtTime trigger says.
#[derive(Clone, Copy, Debug, PartialEq, Eq)]
pub struct Trigger {
    pub hour: u32,
    pub minute: u32,
    pub days: u32,
}

impl Pattern {
    fn read(field: &[u8], valid: &RangeInclusive<u32>) -> Option<Pattern> {
        if field == b"*" {
            return Some(Pattern::All);
        }
        let elements = field.split(|byte| *byte == b',').map(|text| element(text, valid));
        Some(Pattern::Elements(elements.collect::<Option<_>>()?))
    }

    fn has(&self, value: u32) -> bool {
        match self {
            Pattern::All => true,
            Pattern::Elements(elements) => elements.iter().any(|range| range.contains(&value)),
        }
    }
}

/// "A range whose first number is above its second is not of the form."
fn element(text: &[u8], valid: &RangeInclusive<u32>) -> Option<RangeInclusive<u32>> {
    let numbers = text.split(|byte| *byte == b'-').map(number).collect::<Option<Vec<_>>>()?;
    let range = match numbers[..] {
        [only] => only..=only,
        [first, last] if first <= last => first..=last,
        _ => return None,
    };
    (valid.contains(range.start()) && valid.contains(range.end())).then_some(range)
}

/// "A number is decimal digits, leading zeros allowed." One of more than nine digits behind the zeros is above every valid value.
fn number(text: &[u8]) -> Option<u32> {
    if text.is_empty() || !text.iter().all(u8::is_ascii_digit) {
        return None;
    }
    let digits = std::str::from_utf8(text).ok()?.trim_start_matches('0');
    match digits.len() {
        0 => Some(0),
        1..=9 => digits.parse().ok(),
        _ => None,
    }
}

/// The valid values of the five fields, in their order.
const VALID: [RangeInclusive<u32>; 5] = [0..=59, 0..=23, 1..=31, 1..=12, 0..=6];

impl Line {
    /// "Spaces or tabs part the fields, none before the first; what follows the fifth after a blank is the command."
    pub fn read(line: &[u8]) -> Result<Line, Wrong> {
        let blank = |byte: &u8| *byte == b' ' || *byte == b'\t';
        if line.first().is_some_and(blank) {
            return Err(Wrong::BlankFirst);
        }
        let fields: Vec<&[u8]> = line.split(blank).filter(|field| !field.is_empty()).take(5).collect();
        let fields: [&[u8]; 5] = fields.try_into().map_err(|_| Wrong::FewFields)?;
        let pattern = |place: usize| Pattern::read(fields[place], &VALID[place]).ok_or(Wrong::Field(place));
        Ok(Line {
            minute: pattern(0)?,
            hour: pattern(1)?,
            day_of_month: pattern(2)?,
            month: pattern(3)?,
            day_of_week: pattern(4)?,
        })
    }

    /// Whether the line is due at a minute of the week here, its day of month and month aside.
    #[must_use]
    pub fn at(&self, sunday: u32, week_minute: u32) -> bool {
        let days_behind_sunday = (week_minute / DAY + 7 - sunday) % 7;
        self.minute.has(week_minute % HOUR)
            && self.hour.has(week_minute % DAY / HOUR)
            && self.day_of_week.has(days_behind_sunday)
    }

    fn days(&self, sunday: u32) -> u32 {
        (0..7).filter(|day| self.day_of_week.has(*day)).map(|day| 1 << ((sunday + day) % 7)).sum()
    }
}

/// The triggers of a line, or why it has none; `words` is the size of the lent store.
pub fn triggers(line: &[u8], sunday: u32, words: usize) -> Result<Vec<Trigger>, Wrong> {
    if sunday > 6 {
        return Err(Wrong::Sunday);
    }
    let line = Line::read(line)?;
    if line.day_of_month != Pattern::All {
        return Err(Wrong::DayOfMonth);
    }
    if line.month != Pattern::All {
        return Err(Wrong::Month);
    }
    let days = line.days(sunday);
    let minutes = (0..DAY).map(|minute| Trigger { hour: minute / HOUR, minute: minute % HOUR, days });
    let due: Vec<Trigger> =
        minutes.filter(|trigger| line.hour.has(trigger.hour) && line.minute.has(trigger.minute)).collect();
    if due.len() > words / RECORD {
        return Err(Wrong::Room);
    }
    Ok(due)
}

/// What the player prints for `crontab SUNDAY ROOM TEXT`.
pub fn answer(given: &Given) -> Result<String, u32> {
    let found = triggers(&given.text, given.word(0), given.word(1) as usize).map_err(Wrong::number)?;
    let mut text = format!("crontab {}\n", found.len());
    for Trigger { hour, minute, days } in found {
        let _ = writeln!(text, "trigger {hour} {minute} {days}");
    }
    Ok(text)
}

#[cfg(test)]
mod tests {
    use super::{Line, Trigger, Wrong, WEEK};

    fn triggers(line: &[u8], sunday: u32, words: usize) -> Result<Vec<Trigger>, u32> {
        super::triggers(line, sunday, words).map_err(Wrong::number)
    }

    fn answer(line: &str) -> Result<Vec<Trigger>, u32> {
        triggers(line.as_bytes(), 6, 11_520)
    }

    fn times(line: &str) -> Vec<(u32, u32)> {
        answer(line).expect("accepted").iter().map(|trigger| (trigger.hour, trigger.minute)).collect()
    }

    #[test]
    fn patterns_that_are_not_of_the_form() {
        for field in ["7", "*/5", "*,5", "mon", "1,", ",1", "5-4", "1-2-3", "+5", "-", "1-", "-1", "", "4294967301", "**"] {
            assert_eq!(answer(&format!("5 4 * * {field}")), Err(50), "{field}");
        }
        for line in ["60 * * * *", "* 24 * * *", "* * 0 * *", "* * 32 * *", "* * * 0 *", "* * * 13 *", "* * * * 7"] {
            assert_eq!(answer(line), Err(50), "{line}");
        }
    }

    #[test]
    fn lines_that_are_not_of_the_form() {
        for line in ["", " * * * * *", "\t* * * * *", "* * * *", "* * * * ", "* * * * *\r", "# * * * *", "* * * * *#", "*\r * * * *"] {
            assert_eq!(answer(line), Err(50), "{line:?}");
        }
        for line in ["5 4 * * *", "5\t 4 * \t* *  ", "5 4 * * * \r", "5 4 * * *\tfeed %\u{ff}", "005 0000000000004 * * *"] {
            assert_eq!(times(line), [(4, 5)], "{line:?}");
        }
    }

    #[test]
    fn refusals_lowest_first() {
        assert_eq!(answer("* * 1-31 * *"), Err(51));
        assert_eq!(answer("* * * 1-12 *"), Err(51));
        assert_eq!(answer("* * 1 * 7"), Err(50));
        assert_eq!(triggers(b"* * 1 * *", 6, 0), Err(51));
        assert_eq!(triggers(b"* * * * *", 6, 11_519), Err(52));
        assert_eq!(triggers(b"* * 1 * *", 7, 0), Err(50));
        assert_eq!(triggers(b"5 4 * * *", u32::MAX, 8), Err(50));
        assert_eq!(triggers(b"5 4 * * *", 0, 7), Err(52));
        assert_eq!(answer("* * * * *").map(|list| list.len()), Ok(1_440));
    }

    #[test]
    fn pairs_by_hour_and_minute_each_once() {
        assert_eq!(times("5,5,3-6 4 * * *"), [(4, 3), (4, 4), (4, 5), (4, 6)]);
        assert_eq!(times("30,0 22,1 * * *"), [(1, 0), (1, 30), (22, 0), (22, 30)]);
    }

    #[test]
    fn days_from_sunday_on() {
        let days = |field: &str, sunday| triggers(format!("0 0 * * {field}").as_bytes(), sunday, 8).map(|list| list[0].days);
        assert_eq!(days("0", 6), Ok(64));
        assert_eq!(days("1", 6), Ok(1));
        assert_eq!(days("1-5", 0), Ok(62));
        assert_eq!(days("6,0", 3), Ok(4 + 8));
        assert_eq!(days("*", 2), Ok(127));
    }

    #[test]
    fn a_line_is_due_when_a_trigger_is() {
        for (text, sunday) in [("5,7 4-6 * * 0,3-4", 6), ("* * * * *", 2), ("0 0 * * 0", 0), ("59 23 * * 6", 5)] {
            let line = Line::read(text.as_bytes()).expect("of the form");
            let list = triggers(text.as_bytes(), sunday, 11_520).expect("accepted");
            for minute in 0..WEEK {
                let due = list.iter().any(|trigger| {
                    trigger.days >> (minute / 1_440) & 1 == 1 && trigger.hour * 60 + trigger.minute == minute % 1_440
                });
                assert_eq!(line.at(sunday, minute), due, "{text} {minute}");
            }
        }
    }
}
