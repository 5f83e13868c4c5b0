//! Orientation.

use crate::{Keypoint, Refusal, entries};

/// A Gaussian plane, row after row.
#[derive(Clone, Copy, Debug, PartialEq)]
pub struct Picture<'a> {
    pub samples: &'a [f32],
    pub width: usize,
    pub height: usize,
}

/// A keypoint with a direction.
#[derive(Clone, Copy, Debug, PartialEq)]
pub struct Oriented {
    pub x: f32,
    pub y: f32,
    pub size: f32,
    pub response: f32,
    /// The keypoint's octave word.
    pub octave: u32,
    /// In degrees.
    pub angle: f32,
}

impl Oriented {
    /// The words that an oriented keypoint goes out as.
    pub const WORDS: usize = 6;

    /// A keypoint has at most so many: no two neighbours of the 36 bins are peaks.
    pub const MOST: usize = 18;

    pub fn from_words(w: &[u32; Oriented::WORDS]) -> Oriented {
        Oriented {
            x: f32::from_bits(w[0]),
            y: f32::from_bits(w[1]),
            size: f32::from_bits(w[2]),
            response: f32::from_bits(w[3]),
            octave: w[4],
            angle: f32::from_bits(w[5]),
        }
    }

    pub fn to_words(&self) -> [u32; Oriented::WORDS] {
        [
            self.x.to_bits(),
            self.y.to_bits(),
            self.size.to_bits(),
            self.response.to_bits(),
            self.octave,
            self.angle.to_bits(),
        ]
    }
}

/// The directions of a keypoint.
#[derive(Clone, Debug, PartialEq)]
pub struct Orientations {
    /// One for each peak; none where there is no peak.
    pub list: Vec<Oriented>,
    /// The cells that were read.
    pub samples: usize,
}

/// The directions of a keypoint in the Gaussian plane of its layer.
pub fn assign_orientations(
    picture: &Picture,
    keypoint: &Keypoint,
) -> Result<Orientations, Refusal> {
    let mut words = [0; Oriented::MOST * Oriented::WORDS];
    let (number, count, samples) =
        entries::assign_orientations(picture, &keypoint.to_words(), &mut words);
    Refusal::from_answer(number, count)?;
    let (list, _) = words.as_chunks();
    Ok(Orientations {
        list: list[..count].iter().map(Oriented::from_words).collect(),
        samples,
    })
}
