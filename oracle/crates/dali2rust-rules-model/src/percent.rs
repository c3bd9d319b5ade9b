//! Request 1 of document 02, which the published model does not have: the level of a value in parts per million of full light.
//!
//! Written from the request's text alone, to be held against the proved table and its search: the table is found here from the
//! request's inequality over whole numbers, and the nearest entry by looking at all 254.

use std::cmp::Ordering;
use std::sync::OnceLock;

/// Levels 1 to 254 have an entry.
pub const ENTRIES: usize = 254;
const STEPS: u32 = 253;

/// A whole number as its digits to the base 2^32, lowest first, the last one not 0.
#[derive(Clone, Debug, PartialEq, Eq)]
struct Whole(Vec<u32>);

impl Whole {
    fn from(number: u32) -> Whole {
        Whole(if number == 0 { Vec::new() } else { vec![number] })
    }

    fn times(&self, other: &Whole) -> Whole {
        let mut digits = vec![0u32; self.0.len() + other.0.len()];
        for (at, one) in self.0.iter().enumerate() {
            let mut carry = 0u64;
            for (by, two) in other.0.iter().enumerate() {
                let sum = u64::from(*one) * u64::from(*two) + u64::from(digits[at + by]) + carry;
                digits[at + by] = sum as u32;
                carry = sum >> 32;
            }
            digits[at + other.0.len()] = carry as u32;
        }
        while digits.last() == Some(&0) {
            digits.pop();
        }
        Whole(digits)
    }

    fn power(number: u32, exponent: u32) -> Whole {
        let mut result = Whole::from(1);
        let base = Whole::from(number);
        for bit in (0..u32::BITS).rev() {
            result = result.times(&result);
            if exponent >> bit & 1 == 1 {
                result = result.times(&base);
            }
        }
        result
    }

    fn compare(&self, other: &Whole) -> Ordering {
        let by_length = self.0.len().cmp(&other.0.len());
        by_length.then_with(|| self.0.iter().rev().cmp(other.0.iter().rev()))
    }
}

/// "(2v−1)^253 ≤ 2000^253 × 10^(3(n−1)) < (2v+1)^253": Less where v lies too low, Greater where it lies too high.
fn place(middle: &Whole, v: u32) -> Ordering {
    if Whole::power(2 * v - 1, STEPS).compare(middle) == Ordering::Greater {
        Ordering::Greater
    } else if middle.compare(&Whole::power(2 * v + 1, STEPS)) == Ordering::Less {
        Ordering::Equal
    } else {
        Ordering::Less
    }
}

/// The v that the inequality names for n, looked for from a number that is at most v.
fn entry(n: u32, from: u32) -> u32 {
    let middle = Whole::power(2_000, STEPS).times(&Whole::power(10, 3 * (n - 1)));
    let (mut low, mut high) = (from, 2 * from);
    while low < high {
        let v = low + (high - low) / 2;
        match place(&middle, v) {
            Ordering::Less => low = v + 1,
            Ordering::Equal => return v,
            Ordering::Greater => high = v,
        }
    }
    low
}

/// Entry n stands at place n - 1.
#[must_use]
pub fn table() -> &'static [u32; ENTRIES] {
    static TABLE: OnceLock<[u32; ENTRIES]> = OnceLock::new();
    TABLE.get_or_init(|| {
        let mut last = 1_000;
        std::array::from_fn(|place| {
            last = entry(place as u32 + 1, last);
            last
        })
    })
}

/// "Zero gives level 0; 1,000 to 1,000,000 gives the nearest level, the lower at a tie; any other value .. has no level"
#[must_use]
pub fn level(value: i64) -> Option<u8> {
    if value == 0 {
        return Some(0);
    }
    let value = u32::try_from(value).ok().filter(|value| (1_000..=1_000_000).contains(value))?;
    let distances = table().iter().map(|entry| entry.abs_diff(value));
    // `min_by_key` gives the first of several that are equally near.
    let nearest = (1u8..).zip(distances).min_by_key(|(_, distance)| *distance);
    nearest.map(|(level, _)| level)
}

#[cfg(test)]
mod tests {
    use super::{level, place, table, Ordering, Whole};

    #[test]
    fn whole_numbers() {
        assert_eq!(Whole::power(10, 0).0, [1]);
        assert_eq!(Whole::power(10, 19).0, [0x89e8_0000, 0x8ac7_2304]);
        assert_eq!(Whole::power(0, 3).0, []);
        assert_eq!(Whole::power(3, 40).compare(&Whole::power(9, 20)), Ordering::Equal);
        assert_eq!(Whole::power(3, 41).compare(&Whole::power(9, 20)), Ordering::Greater);
        assert_eq!(Whole::power(2, 64).compare(&Whole::power(2, 65)), Ordering::Less);
    }

    #[test]
    fn every_entry_lies_on_the_curve() {
        for (at, v) in table().iter().enumerate() {
            let middle = Whole::power(2_000, 253).times(&Whole::power(10, 3 * at as u32));
            assert_eq!(place(&middle, *v), Ordering::Equal, "entry {}", at + 1);
        }
        assert!(table().windows(2).all(|pair| pair[0] < pair[1]));
        assert_eq!([table()[0], table()[1], table()[253]], [1_000, 1_028, 1_000_000]);
    }

    #[test]
    fn levels_of_the_request() {
        let known = [
            (0, Some(0)),
            (1_000, Some(1)),
            (1_014, Some(1)),
            (1_015, Some(2)),
            (500_000, Some(229)),
            (986_533, Some(253)),
            (986_534, Some(254)),
            (1_000_000, Some(254)),
            (1, None),
            (999, None),
            (1_000_001, None),
            ((1 << 32) + 1_000, None),
            (-1, None),
            (-1_000, None),
            (i64::MIN, None),
        ];
        for (value, wanted) in known {
            assert_eq!(level(value), wanted, "{value}");
        }
    }
}
