//! The descriptor, and what it is asked with.

use crate::{Oriented, Picture, Refusal, entries};

/// Where a descriptor is taken: in the cells of the octave's picture.
#[derive(Clone, Copy, Debug, PartialEq)]
pub struct Aim {
    pub x: f32,
    pub y: f32,
    /// 0.125 to 64.
    pub scale: f32,
    /// In degrees, 0 to 360, counted the other way round than an oriented keypoint's.
    pub angle: f32,
}

/// The inputs of an oriented keypoint in an octave, 0 to 15.
pub fn descriptor_inputs(oriented: &Oriented, octave: i32) -> Result<Aim, Refusal> {
    let mut words = [0; 4];
    let number = entries::descriptor_inputs(&oriented.to_words(), octave, &mut words);
    Refusal::from_answer(number, words.len())?;
    let [x, y, scale, angle] = words.map(f32::from_bits);
    Ok(Aim { x, y, scale, angle })
}

/// The values of a patch.
#[derive(Clone, Debug, PartialEq)]
pub struct Descriptor {
    /// Whole numbers from 0 to 255.
    pub values: [f32; Descriptor::VALUES],
    /// The cells used. Where the values are all zero and this is not, the patch is flat; where both are zero, nothing was read.
    pub samples: usize,
}

impl Descriptor {
    pub const VALUES: usize = 128;
}

/// The descriptor of the patch about a position in the Gaussian plane of a keypoint's layer.
pub fn compute_descriptor(picture: &Picture, aim: &Aim) -> Result<Descriptor, Refusal> {
    let mut values = [0.0; Descriptor::VALUES];
    let (number, count, samples) = entries::compute_descriptor(picture, aim, &mut values);
    Refusal::from_answer(number, count)?;
    Ok(Descriptor { values, samples })
}
