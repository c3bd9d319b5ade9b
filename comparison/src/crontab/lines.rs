//! Lines of a crontab: every short field, random lines, and these damaged.

use oracle::random::Random;

const BYTES: &[u8; 7] = b"0159*,-";
const FIELDS: usize = 5;
/// What the other fields are while one is varied.
const PLAIN: [&[u8]; FIELDS] = [b"5", b"4", b"*", b"*", b"1"];
/// The largest numbers of the fields, and the smallest.
const LAST: [u32; FIELDS] = [59, 23, 31, 12, 6];
const FIRST: [u32; FIELDS] = [0, 0, 1, 1, 0];
/// Bytes that a damaged line gets: those of the form, and some that are not.
const DAMAGE: &[u8; 24] = b"0123456789*,- \t#/+\r\x00\xffLmW";

/// Every text of up to so many of the bytes.
fn texts(most: usize) -> Vec<Vec<u8>> {
    let mut all = vec![Vec::new()];
    let mut from = 0;
    for _ in 0..most {
        let until = all.len();
        for at in from..until {
            all.extend(BYTES.iter().map(|byte| [all[at].as_slice(), &[*byte]].concat()).collect::<Vec<_>>());
        }
        from = until;
    }
    all
}

/// A line with each of the texts of up to three bytes in each place.
pub fn short_fields() -> Vec<Vec<u8>> {
    let texts = texts(3);
    let at = |place: usize| {
        texts.iter().map(move |text| {
            let mut fields = PLAIN;
            fields[place] = text;
            fields.join(&b' ')
        })
    };
    (0..FIELDS).flat_map(at).collect()
}

/// A line of the form, but for a number out of its range or a range that falls, now and then.
pub fn random(random: &mut Random) -> Vec<u8> {
    let mut line = Vec::new();
    for place in 0..FIELDS {
        if place > 0 {
            blanks(random, &mut line);
        }
        let all = if place == 2 || place == 3 { !random.once_in(40) } else { random.once_in(4) };
        if all {
            line.push(b'*');
        } else {
            elements(random, place, &mut line);
        }
    }
    if random.bit() == 0 {
        blanks(random, &mut line);
        let command = random.below(12);
        line.extend((0..command).map(|_| other_than_newline(random.word() as u8)));
    }
    line
}

fn other_than_newline(byte: u8) -> u8 {
    if byte == b'\n' {
        b'#'
    } else {
        byte
    }
}

fn blanks(random: &mut Random, line: &mut Vec<u8>) {
    let more = if random.once_in(4) { random.below(3) } else { 0 };
    line.extend((0..=more).map(|_| if random.once_in(4) { b'\t' } else { b' ' }));
}

fn elements(random: &mut Random, place: usize, line: &mut Vec<u8>) {
    let more = if random.bit() == 0 { random.below(6) } else { 0 };
    for at in 0..=more {
        if at > 0 {
            line.push(b',');
        }
        let first = value(random, place);
        number(random, first, line);
        if random.once_in(3) {
            line.push(b'-');
            let last = if random.once_in(40) { value(random, place) } else { random.from_to(first, LAST[place].max(first)) };
            number(random, last, line);
        }
    }
}

/// A number of the field, mostly.
fn value(random: &mut Random, place: usize) -> u32 {
    match random.below(120) {
        0 => LAST[place] + 1,
        1 => 0,
        2 => random.word(),
        _ => random.from_to(FIRST[place], LAST[place]),
    }
}

/// Decimal digits, with zeros before them or 2^32 added, now and then.
fn number(random: &mut Random, value: u32, line: &mut Vec<u8>) {
    if random.once_in(8) {
        line.extend(vec![b'0'; random.below(12) as usize]);
    }
    let value = if random.once_in(200) { u64::from(value) + (1 << 32) } else { u64::from(value) };
    line.extend(value.to_string().bytes());
}

/// The line with one to three bytes changed, put in or taken out, or cut.
pub fn damaged(random: &mut Random, mut line: Vec<u8>) -> Vec<u8> {
    for _ in 0..random.from_to(1, 3) {
        // The command is not read, so that damage stands in front mostly.
        let end = line.len().min(if random.once_in(8) { line.len() } else { 16 });
        let place = random.below(end as u32) as usize;
        let byte = random.pick(*DAMAGE);
        match random.below(4) {
            0 if place < line.len() => line[place] = byte,
            1 if place < line.len() => drop(line.remove(place)),
            2 => line.truncate(place),
            _ => line.insert(place, byte),
        }
    }
    line
}

#[cfg(test)]
mod tests {
    use super::{damaged, random, short_fields, texts};
    use oracle::random::Random;

    #[test]
    fn every_short_field_once() {
        let mut all = texts(3);
        assert_eq!(all.len(), 1 + 7 + 49 + 343);
        all.sort();
        all.dedup();
        assert_eq!(all.len(), 400);
        assert_eq!(short_fields().len(), 2_000);
        assert!(short_fields().contains(&b"5 4 * * 1-5".to_vec()));
    }

    #[test]
    fn no_line_has_a_newline() {
        let mut source = Random::new(1);
        for _ in 0..10_000 {
            let line = random(&mut source);
            assert!(!line.contains(&b'\n'));
            assert!(!damaged(&mut source, line).contains(&b'\n'));
        }
    }
}
