//! Refusals 10 to 17 of rule images and 20 to 22 of snapshots, read from
//! documents 01 and 02 alone. Nothing here is shared with the decoder, so that a
//! misreading in one of the two shows as a disagreement.
//!
//! Document 01: "Lowest number wins, and a refusal returns its number only."

mod fields;
mod flat;
mod image;
mod room;
mod snapshot;
#[cfg(test)]
mod tests_flat;
#[cfg(test)]
mod tests_image;
#[cfg(test)]
mod tests_snapshot;

pub use flat::Size;
pub use image::image_refusal;
pub use room::{room, Room};
pub use snapshot::snapshot_refusal;

/// What refusal 16 counts of an image that passes the tests before it.
pub fn flat_size(image: &[u32]) -> Option<Size> {
    image::flat_size(image)
}
