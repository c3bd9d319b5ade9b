//! All short lists of a set of actions, which the published engine does not have: written from the request, by making every list in its order.

use std::fmt::Write;

use crate::check::image_refusal;
use crate::script::Given;

pub const NO_SET: u32 = 70;
pub const UNFIT: u32 = 71;
pub const NO_LIST: u32 = 72;

/// The rule that a list is played as.
pub const RULE: u32 = 5;

const RECORD: usize = 8;
const MOST_RECORDS: usize = 8;
const LONGEST: usize = 3;
/// After, Repeat and Conditional.
const WITH_LISTS: [u32; 3] = [24, 26, 27];
const LIMITS: [u32; 5] = [256, 8, 255, 255, 255];

/// Action records, and the values and pool words that they may lead to.
#[derive(Clone, Copy, Debug)]
pub struct Set<'a> {
    pub actions: &'a [u32],
    pub values: &'a [u32],
    pub pool: &'a [u32],
}

impl Set<'_> {
    /// How many records there are, or 70.
    fn records(&self) -> Result<usize, u32> {
        let count = self.actions.len() / RECORD;
        if !(1..=MOST_RECORDS).contains(&count) || !self.actions.len().is_multiple_of(RECORD) {
            return Err(NO_SET);
        }
        Ok(count)
    }

    /// The image of one rule that has the records at these places and nothing else.
    #[must_use]
    pub fn image(&self, places: &[usize]) -> Vec<u32> {
        let actions = places.iter().flat_map(|place| &self.actions[place * RECORD..][..RECORD]);
        let mut rule = [0; 16];
        rule[..2].copy_from_slice(&[RULE, 1]);
        rule[9] = places.len() as u32;
        let none: &[u32] = &[];
        let actions: Vec<u32> = actions.copied().collect();
        let (mut words, mut trailer) = (Vec::new(), LIMITS.to_vec());
        for table in [&rule, none, none, none, &actions, self.values, none, self.pool] {
            trailer.push(words.len() as u32);
            words.extend(table);
        }
        words.extend(trailer);
        words
    }

    /// Whether a record may be in a list.
    fn fits(&self, place: usize) -> bool {
        !WITH_LISTS.contains(&self.actions[place * RECORD]) && image_refusal(&self.image(&[place; 3])).is_none()
    }

    /// List k.
    ///
    /// # Errors
    /// 70: no record, more than 8, or no whole number of them; 71: a record that may be in no list; 72: no list has this number.
    pub fn list(&self, k: u32) -> Result<Vec<usize>, u32> {
        let records = self.records()?;
        if !(0..records).all(|place| self.fits(place)) {
            return Err(UNFIT);
        }
        lists(records).get(k as usize).cloned().ok_or(NO_LIST)
    }
}

/// Every list of up to three places: shorter first, and each list that is one longer begins with one of those before it.
#[must_use]
pub fn lists(records: usize) -> Vec<Vec<usize>> {
    let mut all = vec![Vec::new()];
    let mut shorter = 0;
    for _ in 0..LONGEST {
        let end = all.len();
        for begin in all[shorter..end].to_vec() {
            all.extend((0..records).map(|place| [begin.as_slice(), &[place]].concat()));
        }
        shorter = end;
    }
    all
}

/// What a player prints for a line: number of the list, how many action, value and pool words follow, and these words.
pub fn answer(given: &Given) -> Result<String, u32> {
    let (actions, rest) = given.list.split_at(given.word(1) as usize);
    let (values, pool) = rest.split_at(given.word(2) as usize);
    let places = Set { actions, values, pool }.list(given.word(0))?;
    let mut text = format!("shortlist {}", places.len());
    for place in 0..LONGEST {
        let _ = write!(text, " {}", places.get(place).unwrap_or(&0));
    }
    text.push('\n');
    Ok(text)
}

#[cfg(test)]
mod tests {
    use super::*;

    fn log(text: u32) -> [u32; 8] {
        [21, text, 0, 0, 0, 0, 0, 0]
    }

    fn list(k: u32, actions: &[u32], values: &[u32], pool: &[u32]) -> Result<Vec<usize>, u32> {
        Set { actions, values, pool }.list(k)
    }

    #[test]
    fn shorter_first_and_the_first_place_weighs_most() {
        let eight = log(7).repeat(8);
        for (k, wanted) in
            [(0, vec![]), (8, vec![7]), (9, vec![0, 0]), (10, vec![0, 1]), (17, vec![1, 0]), (73, vec![0; 3]), (584, vec![7; 3])]
        {
            assert_eq!(list(k, &eight, &[], &[]), Ok(wanted));
        }
        assert_eq!(list(585, &eight, &[], &[]), Err(72));
        assert_eq!(lists(1), [vec![], vec![0], vec![0, 0], vec![0; 3]]);
        let mut sorted = lists(8);
        sorted.sort_by_key(|list| (list.len(), list.clone()));
        sorted.dedup();
        assert_eq!(sorted, lists(8));
        assert_eq!(sorted.len(), 585);
    }

    #[test]
    fn whole_records_one_to_eight() {
        assert_eq!(list(0, &[], &[], &[]), Err(70));
        assert_eq!(list(0, &log(1)[..7], &[], &[]), Err(70));
        assert_eq!(list(0, &log(1).repeat(9), &[], &[]), Err(70));
        assert_eq!(list(9, &[24; 7], &[], &[]), Err(70));
    }

    #[test]
    fn a_record_that_no_list_may_have() {
        for kind in [24, 26, 27, 29] {
            assert_eq!(list(0, &[kind, 0, 0, 0, 0, 0, 0, 0], &[], &[]), Err(71));
        }
        for kind in [21, 23, 25] {
            assert_eq!(list(1, &[kind, 9, 0, 0, 0, 0, 0, 0], &[], &[]), Ok(vec![0]));
        }
        let percent = [28, 1, 2, 0, 0, 0, 0, 0];
        assert_eq!(list(1, &percent, &[0; 8], &[]), Ok(vec![0]));
        assert_eq!(list(1, &percent, &[], &[]), Err(71));
        let (cycle, scenes) = ([3, 0, 2, 0, 0, 0, 0, 0], [1, 2]);
        assert_eq!(list(0, &[log(1), cycle].concat(), &[], &scenes), Ok(vec![]));
        assert_eq!(list(0, &[log(1), cycle].concat(), &[], &scenes[1..]), Err(71));
    }

    #[test]
    fn values_and_pool_that_no_record_mentions() {
        assert_eq!(list(0, &log(1), &[0; 7], &[]), Err(71));
        assert_eq!(list(0, &log(1), &[], &[256]), Err(71));
        assert_eq!(list(0, &log(1), &[], &[255; 4_043]), Ok(vec![]));
        assert_eq!(list(0, &log(1), &[], &[255; 4_044]), Err(71));
        assert_eq!(list(4, &log(1), &[0; 7], &[]), Err(71));
    }
}
