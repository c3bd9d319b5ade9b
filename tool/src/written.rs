//! The written form of an image (document 02, request 11), by the proved function. `image::write` writes in its order; that both write the same words is held by
//! the tests.

use cerambiu::{Refused, IMAGE_MAX_WORDS};

/// The written form of an image: equal sets have equal words.
///
/// # Errors
/// 10 to 17 as load, or 40: written anew it would have more than 4,096 words.
pub fn written(image: &[u32]) -> Result<Vec<u32>, Refused> {
    let mut words = vec![0; IMAGE_MAX_WORDS];
    let count = cerambiu::rewrite(image, &mut words)?;
    words.truncate(count as usize);
    Ok(words)
}
