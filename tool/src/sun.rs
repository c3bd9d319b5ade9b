//! Dates, and the sun by date and latitude. The engine is told sunrise and sunset; how they are found is this program's matter alone.

/// A day, counted from 1970-01-01.
#[derive(Clone, Copy, Debug, PartialEq, Eq, PartialOrd, Ord)]
pub struct Date(pub i64);

impl Date {
    /// A Monday.
    pub const FIRST: Date = Date(20_458);

    pub fn of(year: i64, month: i64, day: i64) -> Option<Date> {
        if !(1..=9_999).contains(&year) || !(1..=12).contains(&month) || !(1..=31).contains(&day) {
            return None;
        }
        let shifted = if month <= 2 { year - 1 } else { year };
        let era = shifted.div_euclid(400);
        let of_era = shifted.rem_euclid(400);
        let of_year = (153 * ((month + 9) % 12) + 2) / 5 + day - 1;
        let date = Date(era * 146_097 + of_era * 365 + of_era / 4 - of_era / 100 + of_year - 719_468);
        (date.civil() == (year, month, day)).then_some(date)
    }

    /// Year, month, day.
    pub fn civil(self) -> (i64, i64, i64) {
        let days = self.0 + 719_468;
        let era = days.div_euclid(146_097);
        let of_era = days.rem_euclid(146_097);
        let year = (of_era - of_era / 1_460 + of_era / 36_524 - of_era / 146_096) / 365;
        let of_year = of_era - (365 * year + year / 4 - year / 100);
        let month = (5 * of_year + 2) / 153;
        let day = of_year - (153 * month + 2) / 5 + 1;
        let month = if month < 10 { month + 3 } else { month - 9 };
        (era * 400 + year + i64::from(month <= 2), month, day)
    }

    pub fn read(text: &str) -> Option<Date> {
        let parts: Vec<i64> = text.split('-').map(|part| part.parse().ok()).collect::<Option<_>>()?;
        match parts.as_slice() {
            [year, month, day] => Date::of(*year, *month, *day),
            _ => None,
        }
    }

    pub fn text(self) -> String {
        let (year, month, day) = self.civil();
        format!("{year:04}-{month:02}-{day:02}")
    }

    /// 0 for Monday.
    pub fn weekday(self) -> u32 {
        (self.0 + 3).rem_euclid(7) as u32
    }

    pub fn plus(self, days: i64) -> Date {
        Date(self.0 + days)
    }

    /// 0 for the first of January.
    fn of_year(self) -> i64 {
        let (year, _, _) = self.civil();
        self.0 - Date::of(year, 1, 1).map_or(0, |first| first.0)
    }
}

/// Sunrise and sunset in minutes of the day, at the meridian of the time zone; None where the sun does not rise, or does not set. The formulas
/// are those of the NOAA solar calculator: right to a few minutes.
pub fn sunrise_and_sunset(date: Date, latitude: f64) -> Option<(u32, u32)> {
    let angle = 2.0 * std::f64::consts::PI * date.of_year() as f64 / 365.0;
    let (sin, cos) = (f64::sin, f64::cos);
    let ahead = 229.18
        * (0.000075 + 0.001868 * cos(angle) - 0.032077 * sin(angle) - 0.014615 * cos(2.0 * angle) - 0.040849 * sin(2.0 * angle));
    let tilt = 0.006918 - 0.399912 * cos(angle) + 0.070257 * sin(angle) - 0.006758 * cos(2.0 * angle) + 0.000907 * sin(2.0 * angle)
        - 0.002697 * cos(3.0 * angle)
        + 0.00148 * sin(3.0 * angle);
    let latitude = latitude.to_radians();
    let turn = cos(90.833_f64.to_radians()) / (cos(latitude) * cos(tilt)) - latitude.tan() * tilt.tan();
    if !(-1.0..=1.0).contains(&turn) {
        return None;
    }
    let half = 4.0 * turn.acos().to_degrees();
    let minute = |value: f64| (value.round() as i64).clamp(0, 1_439) as u32;
    Some((minute(720.0 - half - ahead), minute(720.0 + half - ahead)))
}

#[cfg(test)]
mod tests {
    use super::{sunrise_and_sunset, Date};

    #[test]
    fn dates() {
        assert_eq!(Date::of(1970, 1, 1), Some(Date(0)));
        assert_eq!(Date(0).weekday(), 3);
        assert_eq!(Date::FIRST.text(), "2026-01-05");
        assert_eq!(Date::FIRST.weekday(), 0);
        assert_eq!(Date::read("2024-02-29").map(|date| date.plus(1).text()), Some("2024-03-01".to_string()));
        assert_eq!(Date::read("2026-02-29"), None);
        assert_eq!(Date::read("2026-13-01"), None);
        assert_eq!(Date::read("x"), None);
        assert_eq!(Date::read("2026-01-9223372036854775807"), None);
        assert!((-1_000..1_000).all(|day| Date::read(&Date(day * 97).text()) == Some(Date(day * 97))));
    }

    /// Berlin lies near the meridian of its zone; the almanac has 08:15 and 15:54 there, 04:43 and 21:33 with summer time.
    #[test]
    fn the_sun_of_berlin() {
        let near = |found: Option<(u32, u32)>, rise: u32, set: u32| {
            let (found_rise, found_set) = found.expect("a day");
            assert!(found_rise.abs_diff(rise) <= 8 && found_set.abs_diff(set) <= 8, "{found_rise} {found_set}");
        };
        near(sunrise_and_sunset(Date::of(2026, 12, 21).unwrap(), 52.5), 8 * 60 + 11, 15 * 60 + 50);
        near(sunrise_and_sunset(Date::of(2026, 6, 21).unwrap(), 52.5), 3 * 60 + 39, 20 * 60 + 29);
    }

    #[test]
    fn no_sun_beyond_the_circle() {
        assert_eq!(sunrise_and_sunset(Date::of(2026, 12, 21).unwrap(), 70.0), None);
        assert_eq!(sunrise_and_sunset(Date::of(2026, 6, 21).unwrap(), 70.0), None);
        assert!(sunrise_and_sunset(Date::of(2026, 3, 20).unwrap(), -90.0).is_none_or(|(rise, set)| rise < 1_440 && set < 1_440));
    }
}
