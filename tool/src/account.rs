//! Light hours and dark stretches, from what the lights were told.

use std::collections::BTreeMap;

use crate::play::{Played, DAY};

/// A span of time in which a light has one brightness; None: it was not told yet.
#[derive(Clone, Copy, Debug, PartialEq)]
pub struct Spell {
    pub from: i64,
    pub to: i64,
    pub ppm: Option<u32>,
    /// Dark because of a power cut.
    pub cut: bool,
}

impl Spell {
    pub fn is_lit(&self) -> bool {
        self.ppm.is_some_and(|ppm| ppm > 0) && !self.cut
    }
}

/// The spells of each light, from the beginning to the end without a gap.
pub fn spells(played: &Played, start: i64, end: i64) -> BTreeMap<u32, Vec<Spell>> {
    let mut told: BTreeMap<u32, Vec<(i64, u32)>> = BTreeMap::new();
    for setting in &played.lights {
        told.entry(setting.light).or_default().push((setting.time, setting.ppm));
    }
    told.into_iter().map(|(target, told)| (target, spells_of(&told, &played.cuts, start, end))).collect()
}

fn spells_of(told: &[(i64, u32)], cuts: &[(i64, i64)], start: i64, end: i64) -> Vec<Spell> {
    let mut list = vec![Spell { from: start, to: end, ppm: None, cut: false }];
    for (time, ppm) in told {
        let Some(last) = list.last_mut() else { continue };
        if *time > last.from {
            let from = *time;
            last.to = from;
            list.push(Spell { from, to: end, ppm: Some(*ppm), cut: false });
        } else {
            last.ppm = Some(*ppm);
        }
    }
    for (from, to) in cuts {
        list = list.into_iter().flat_map(|spell| split(spell, *from, *to)).collect();
    }
    list.retain(|spell| spell.from < spell.to);
    merged(list)
}

/// A spell before, in and behind a cut.
fn split(spell: Spell, from: i64, to: i64) -> [Spell; 3] {
    let clip = |low: i64, high: i64, cut: bool| Spell { from: spell.from.max(low), to: spell.to.min(high), cut: spell.cut || cut, ..spell };
    [clip(i64::MIN, from, false), clip(from, to, true), clip(to, i64::MAX, false)]
}

fn merged(list: Vec<Spell>) -> Vec<Spell> {
    let mut out: Vec<Spell> = Vec::new();
    for spell in list {
        match out.last_mut() {
            Some(last) if last.ppm == spell.ppm && last.cut == spell.cut => last.to = spell.to,
            _ => out.push(spell),
        }
    }
    out
}

/// How long a light is lit within a span.
pub fn lit(spells: &[Spell], from: i64, to: i64) -> i64 {
    spells.iter().filter(|spell| spell.is_lit()).map(|spell| (spell.to.min(to) - spell.from.max(from)).max(0)).sum()
}

/// The dark stretches of a light: from and to.
pub fn dark(spells: &[Spell]) -> Vec<(i64, i64)> {
    let mut out: Vec<(i64, i64)> = Vec::new();
    for spell in spells.iter().filter(|spell| !spell.is_lit()) {
        match out.last_mut() {
            Some(last) if last.1 == spell.from => last.1 = spell.to,
            _ => out.push((spell.from, spell.to)),
        }
    }
    out
}

/// A dark stretch in words: one that began before the time that was played has no known length.
pub fn is_open(spells: &[Spell], begin: i64) -> bool {
    spells.first().is_some_and(|first| first.from == begin)
}

/// The longest dark stretch that ends within a span, or is not over at its end; it may have begun before.
pub fn longest_dark(spells: &[Spell], from: i64, to: i64) -> Option<(i64, i64)> {
    let clipped = dark(spells).into_iter().map(|(begin, end)| (begin, end.min(to))).filter(|(begin, end)| *end > from && begin < end);
    clipped.max_by_key(|(begin, end)| (end - begin, -begin))
}

/// The brightness at a time.
pub fn at(spells: &[Spell], time: i64) -> Option<Spell> {
    spells.iter().find(|spell| (spell.from..spell.to).contains(&time)).copied()
}

/// Lit milliseconds of each day.
pub fn days(spells: &[Spell], days: i64) -> Vec<i64> {
    (0..days).map(|day| lit(spells, day * DAY, (day + 1) * DAY)).collect()
}

#[cfg(test)]
mod tests {
    use super::{at, dark, lit, longest_dark, spells};
    use crate::play::{Played, Setting};

    #[test]
    fn spells_of_a_light_with_a_cut() {
        let lights = [(-10, 0), (5, 500), (5, 700), (20, 0)].map(|(time, ppm)| Setting { time, light: 1, ppm, told: [0, 0] }).to_vec();
        let played = Played { lights, cuts: vec![(8, 10)], ..Played::default() };
        let all = spells(&played, -20, 40);
        let one = &all[&1];
        assert_eq!(lit(one, 0, 40), 13);
        assert_eq!(lit(one, 6, 9), 2);
        assert_eq!(dark(one), [(-20, 5), (8, 10), (20, 40)]);
        assert_eq!(longest_dark(one, 0, 40), Some((-20, 5)));
        assert_eq!(longest_dark(one, 6, 40), Some((20, 40)));
        assert_eq!(at(one, 6).and_then(|spell| spell.ppm), Some(700));
        assert!(at(one, 9).is_some_and(|spell| spell.cut));
        assert_eq!(at(one, -15).and_then(|spell| spell.ppm), None);
    }
}
