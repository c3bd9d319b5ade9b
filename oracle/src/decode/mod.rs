//! Words to the engine's types, for words that the checker accepted. A word that an accepted image
//! or snapshot cannot hold is read as some value of its field; nothing here panics.

mod actions;
mod conditions;
mod image;
mod snapshot;
#[cfg(test)]
mod tests;

pub use image::{conditions_and_values, rule_set};
pub use snapshot::world;

/// A name keeps its number's order as text: ten digits, leading zeros.
#[must_use]
pub fn name(number: u32) -> String {
    format!("{number:010}")
}

/// The number that `name` was made from.
#[must_use]
pub fn number(name: &str) -> u32 {
    name.parse().unwrap_or(0)
}

/// A 64-bit value is two words, low first.
#[must_use]
pub fn pair(low: u32, high: u32) -> u64 {
    u64::from(high) << 32 | u64::from(low)
}

/// A signed word is two's complement.
fn signed(word: u32) -> i32 {
    word as i32
}

fn bit(word: u32) -> bool {
    word != 0
}

fn byte(word: u32) -> u8 {
    word as u8
}

fn half(word: u32) -> u16 {
    word as u16
}
