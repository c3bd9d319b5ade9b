//! `cron "0 5 * * 1-5"`: the AtTime triggers of a crontab line (document 02, request 2). The proved function reads the line; nothing here does.

use cerambiu::Refused;

use crate::fault::Fault;
use crate::lex::{Kind, Line};
use crate::tree::Record;

/// A line of a crontab has at most one trigger for each minute of a day, and a record has eight words.
const MOST_TRIGGERS: usize = 1440;
const RECORD_WORDS: usize = 8;
/// An image of 4,096 words with its trailer and one rule.
const MOST_IN_IMAGE: u32 = (4_096 - 13 - 16) / 8;
/// Hour, minute and days.
const FIELDS: std::ops::Range<usize> = 1..4;
const WEEK_DAYS: u32 = 7;

/// The triggers of a line `cron "TEXT"`, in a house where Monday has this number.
pub fn triggers(line: &Line, monday: u32) -> Result<Vec<Record>, Box<Fault>> {
    let spot = line.tokens[0].spot;
    let text = match &line.tokens[1..] {
        [text] if text.kind == Kind::Quoted => text,
        [text, extra, ..] if text.kind == Kind::Quoted => {
            return Err(Box::new(Fault::error(extra.spot, format!("the end of the line expected, found `{}`", extra.text))));
        }
        others => {
            let at = others.first().map_or(line.end, |token| token.spot);
            let fault = Fault::error(at, "the five fields of a crontab line expected, between quotation marks");
            return Err(Box::new(fault.help("minute, hour, day of month, month, weekday: `cron \"0 5 * * 1-5\"`")));
        }
    };
    let sunday = (monday + WEEK_DAYS - 1) % WEEK_DAYS;
    let mut words = vec![0; MOST_TRIGGERS * RECORD_WORDS];
    match cerambiu::crontab(text.text.as_bytes(), sunday, &mut words) {
        Ok(count) if count > MOST_IN_IMAGE => {
            let what = format!("this line has {count} starts a day, and an image has room for {MOST_IN_IMAGE}");
            Err(Box::new(Fault::error(text.spot, what).help("`every 1 min` and the like start a rule more often")))
        }
        Ok(count) => {
            let records = words.chunks(RECORD_WORDS).take(count as usize);
            Ok(records.map(|record| Record { spot, ..Record::new(record[0], &record[FIELDS]) }).collect())
        }
        Err(Refused(51)) => {
            let fault = Fault::error(text.spot, "a rule has no dates: day of month and month must be `*`");
            Err(Box::new(fault.help("choose days of the week with the fifth field")))
        }
        Err(Refused(_)) => {
            let fault = Fault::error(text.spot, format!("`{}` is no crontab line", text.text));
            Err(Box::new(fault.help("minute 0 to 59, hour 0 to 23, `*`, `*`, weekday 0 (Sunday) to 6; each `*`, or numbers and ranges joined by commas")))
        }
    }
}

#[cfg(test)]
mod tests {
    use super::*;
    use crate::lex::lines;

    fn read(text: &str, monday: u32) -> Result<Vec<[u32; 3]>, String> {
        let (lines, faults) = lines(text);
        assert!(faults.is_empty());
        let found = triggers(&lines[0], monday).map_err(|fault| fault.what.clone())?;
        Ok(found.iter().map(|record| [record.word(0), record.word(1), record.word(2)]).collect())
    }

    #[test]
    fn working_days_in_two_houses() {
        assert_eq!(read("cron \"0 5 * * 1-5\"", 0), Ok(vec![[5, 0, 0b001_1111]]));
        assert_eq!(read("cron \"0 5 * * 1-5\"", 1), Ok(vec![[5, 0, 0b011_1110]]));
        assert_eq!(read("cron \"30,45 22 * * 0\"", 0), Ok(vec![[22, 30, 0b100_0000], [22, 45, 0b100_0000]]));
    }

    #[test]
    fn what_is_no_line() {
        assert_eq!(read("cron \"0 5 * *\"", 0), Err("`0 5 * *` is no crontab line".to_string()));
        assert_eq!(read("cron \"0 5 1 * *\"", 0), Err("a rule has no dates: day of month and month must be `*`".to_string()));
        assert_eq!(read("cron \"* * * * *\"", 0), Err("this line has 1440 starts a day, and an image has room for 508".to_string()));
        assert_eq!(read("cron 0 5", 0), Err("the five fields of a crontab line expected, between quotation marks".to_string()));
        assert_eq!(read("cron \"0 5 * * *\" daily", 0), Err("the end of the line expected, found `daily`".to_string()));
    }
}
