//! Request 11 of document 02: one image for one rule set. The published engine has no such call. This is written from the request, whose sentences it quotes.

use std::fmt::Write;

use crate::check::image_refusal;
use crate::tables::{count, mentions, starts, Starts, BLOCKS, LIMITS, RULES, TRAILER, WIDTHS};

/// "40, the new image would exceed 4,096 words; 41, the lent store is shorter than the new image"
pub const TOO_LARGE: u32 = 40;
pub const NO_ROOM: u32 = 41;

const MOST_WORDS: usize = 4_096;

/// More than 4,096 words: a walk stops there, since a short image can describe a tree that is too large to be walked.
struct TooLarge;

struct Walk<'a> {
    image: &'a [u32],
    starts: &'a Starts,
    /// The tables of the new image, and how many words it has so far.
    new: [Vec<u32>; 8],
    words: usize,
}

impl Walk<'_> {
    /// "a list is written whole, as load's order demands, then record by record what it mentions, each with all inside it before the next". Its first record
    /// in the new image.
    fn list(&mut self, table: usize, [first, count]: [u32; 2]) -> Result<u32, TooLarge> {
        // "an empty list has first 0"
        if count == 0 {
            return Ok(0);
        }
        let width = WIDTHS[table];
        let old = self.starts[table] + first as usize * width;
        let list = &self.image[old..old + count as usize * width];
        self.words += list.len();
        if self.words > MOST_WORDS {
            return Err(TooLarge);
        }
        let place = self.new[table].len();
        self.new[table].extend(list);
        for record in 0..count as usize {
            self.inside(table, place + record * width)?;
        }
        Ok((place / width) as u32)
    }

    /// What the record at this place of a new table mentions: "written once for each mention".
    fn inside(&mut self, table: usize, place: usize) -> Result<(), TooLarge> {
        let record = self.new[table][place..place + WIDTHS[table]].to_vec();
        for mention in mentions(table, &record) {
            let first = self.list(mention.table, mention.of(&record))?;
            self.new[table][place + mention.word] = first;
        }
        Ok(())
    }
}

/// "The walk goes through rules, then blocks, fields in order". The words of an image whose tables are in order and whose mentions lie inside them; None for
/// more than 4,096.
fn written(image: &[u32]) -> Option<Vec<u32>> {
    let starts = starts(image)?;
    let limits = &image[image.len() - TRAILER..][..LIMITS];
    let mut walk = Walk { image, starts: &starts, new: Default::default(), words: TRAILER };
    for table in [RULES, BLOCKS] {
        walk.list(table, [0, count(&starts, table) as u32]).ok()?;
    }
    let mut trailer = limits.to_vec();
    let mut words = Vec::new();
    for table in walk.new {
        trailer.push(words.len() as u32);
        words.extend(table);
    }
    words.extend(trailer);
    Some(words)
}

/// The words of an image written anew, where `room` words are lent for them, or the refusal's number.
///
/// # Errors
/// 10 to 17 as load answers; 40: over 4,096 words; 41: more words than the room holds.
pub fn rewrite(room: usize, image: &[u32]) -> Result<Vec<u32>, u32> {
    if let Some(number) = image_refusal(image) {
        return Err(number);
    }
    let words = written(image).ok_or(TOO_LARGE)?;
    if words.len() > room {
        return Err(NO_ROOM);
    }
    Ok(words)
}

/// What a player prints: the number of words, and the words.
pub fn line(room: usize, image: &[u32]) -> Result<String, u32> {
    let words = rewrite(room, image)?;
    let mut text = format!("rewrite {}", words.len());
    for word in words {
        let _ = write!(text, " {word}");
    }
    text.push('\n');
    Ok(text)
}

#[cfg(test)]
mod tests;
