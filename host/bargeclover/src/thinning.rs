//! Even cover.

use crate::{Keypoint, Refusal, entries};

/// The positions in the list, ascending, of the keypoints that a quota and a depth of 0 to 12 keep of a frame: at most `quota`.
/// Width and height are those of octave 0. Refused with 1 or 5.
pub fn thin(
    width: usize,
    height: usize,
    keypoints: &[Keypoint],
    quota: usize,
    depth: u32,
) -> Result<Vec<usize>, Refusal> {
    let words: Vec<[u32; Keypoint::WORDS]> = keypoints.iter().map(Keypoint::to_words).collect();
    let mut kept = vec![0; quota.min(keypoints.len())];
    let words = words.as_flattened();
    let (number, count) = entries::thin(width, height, words, quota, depth, &mut kept);
    Refusal::from_answer(number, count)?;
    Ok(kept[..count].iter().map(|&p| p as usize).collect())
}
