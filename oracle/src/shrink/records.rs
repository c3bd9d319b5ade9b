//! Images without a record, snapshots without a row, with what points past it
//! set right.

use crate::tables::{count, mentions, starts, Starts, ACTIONS, BLOCKS, LIMITS, POOL, RULES, TRAILER, VALUES, WIDTHS};

const ROWS: [usize; 5] = [9, 5, 3, 11, 3];
const HEADER: usize = 14;
const COUNTS: usize = 9;

/// The image without its record number `part`, counted from the end of the last
/// table; one whose tables are out of place loses words instead.
pub(super) fn image_without(image: &[u32], part: usize) -> Option<Vec<u32>> {
    let Some(starts) = starts(image) else {
        return without_word(image, part);
    };
    let mut left = part;
    for table in (0..8).rev() {
        let count = count(&starts, table);
        if left < count {
            return Some(drop_record(image, &starts, table, count - 1 - left));
        }
        left -= count;
    }
    None
}

fn without_word(words: &[u32], part: usize) -> Option<Vec<u32>> {
    let place = words.len().checked_sub(part + 1)?;
    let mut shorter = words.to_vec();
    shorter.remove(place);
    Some(shorter)
}

fn drop_record(image: &[u32], starts: &Starts, table: usize, index: usize) -> Vec<u32> {
    let mut words = image.to_vec();
    for holder in 0..POOL {
        for record in words[starts[holder]..starts[holder + 1]].chunks_exact_mut(WIDTHS[holder]) {
            set_right(record, holder, table, index as u32);
        }
    }
    let trailer = words.len() - TRAILER;
    for start in &mut words[trailer + LIMITS + table + 1..] {
        *start -= WIDTHS[table] as u32;
    }
    let first = starts[table] + index * WIDTHS[table];
    words.drain(first..first + WIDTHS[table]);
    words
}

/// Changes the lists and indices of a record for the loss of `lost` in `table`.
fn set_right(record: &mut [u32], holder: usize, table: usize, lost: u32) {
    for mention in mentions(holder, record).iter().filter(|mention| mention.table == table) {
        let [first, count] = mention.of(record);
        if first > lost {
            record[mention.word] -= 1;
        } else if mention.is_list && u64::from(lost) < u64::from(first) + u64::from(count) {
            record[mention.word + 1] -= 1;
        }
    }
}

/// The image with one list of actions replaced by a list nested in a member of it.
pub(super) fn image_hoisted(image: &[u32], part: usize) -> Option<Vec<u32>> {
    let starts = starts(image)?;
    let (place, [first, count]) = hoists(image, &starts).nth(part)?;
    let mut words = image.to_vec();
    words[place] = first;
    words[place + 1] = count;
    Some(words)
}

/// The lists of actions by their place in the image, each with a nested list of a member.
fn hoists<'a>(
    image: &'a [u32],
    starts: &'a Starts,
) -> impl Iterator<Item = (usize, [u32; 2])> + 'a {
    action_lists(image, starts).flat_map(move |place| {
        let first = starts[ACTIONS] as u64 + 8 * u64::from(image[place]);
        let end = first + 8 * u64::from(image[place + 1]);
        let members = (first..end.min(starts[VALUES] as u64)).step_by(8);
        members.flat_map(move |member| {
            let record = &image[member as usize..member as usize + 8];
            let nested = mentions(ACTIONS, record).iter().filter(|mention| mention.table == ACTIONS);
            nested.map(move |mention| (place, mention.of(record)))
        })
    })
}

/// The places of all lists of actions: of rules, blocks and actions.
fn action_lists<'a>(image: &'a [u32], starts: &'a Starts) -> impl Iterator<Item = usize> + 'a {
    [RULES, BLOCKS, ACTIONS].into_iter().flat_map(move |table| {
        let records = (starts[table]..starts[table + 1]).step_by(WIDTHS[table]);
        records.flat_map(move |record| {
            let all = mentions(table, &image[record..record + WIDTHS[table]]);
            let to_actions = all.iter().filter(|mention| mention.table == ACTIONS);
            to_actions.map(move |mention| record + mention.word)
        })
    })
}

/// The snapshot without its row number `part`; one of another length than counted
/// loses words instead.
pub(super) fn snapshot_without(snapshot: &[u32], part: usize) -> Option<Vec<u32>> {
    if !counted(snapshot) {
        return without_word(snapshot, part);
    }
    let mut left = part;
    let mut first = HEADER;
    for (table, size) in ROWS.into_iter().enumerate() {
        let count = snapshot[COUNTS + table] as usize;
        if left < count {
            let mut words = snapshot.to_vec();
            words[COUNTS + table] -= 1;
            let start = first + left * size;
            words.drain(start..start + size);
            return Some(words);
        }
        left -= count;
        first += count * size;
    }
    None
}

fn counted(snapshot: &[u32]) -> bool {
    if snapshot.len() < HEADER {
        return false;
    }
    let rows = ROWS.iter().zip(&snapshot[COUNTS..]);
    let words: u64 = rows.map(|(size, count)| *size as u64 * u64::from(*count)).sum();
    HEADER as u64 + words == snapshot.len() as u64
}
