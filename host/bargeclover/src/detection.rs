//! Threshold and extrema.

use crate::{Refusal, entries};

/// What a frame is searched with.
#[derive(Clone, Copy, Debug, PartialEq)]
pub struct Settings {
    /// 0 to 1.
    pub contrast: f64,
    /// 1 to 1,000.
    pub edge: f64,
    /// 0.5 to 16.
    pub sigma: f64,
    /// The layers of an octave that are searched: 1 to 15.
    pub layers: usize,
}

impl Default for Settings {
    fn default() -> Settings {
        Settings {
            contrast: 0.04,
            edge: 10.0,
            sigma: 1.6,
            layers: 3,
        }
    }
}

/// Difference planes, plane after plane, row after row.
#[derive(Clone, Copy, Debug, PartialEq)]
pub struct Stack<'a> {
    pub samples: &'a [f32],
    pub width: usize,
    pub height: usize,
    pub planes: usize,
}

/// A refined extremum.
#[derive(Clone, Copy, Debug, PartialEq)]
pub struct Keypoint {
    /// Column and row in pixels of octave 0.
    pub x: f32,
    pub y: f32,
    /// The diameter of the neighbourhood.
    pub size: f32,
    /// The contrast.
    pub response: f32,
    /// Octave in the low byte, layer in the next, the code of the sub-layer offset in the third.
    pub octave: u32,
    pub layer: u32,
    /// The sub-layer offset.
    pub xi: f32,
    /// The cell.
    pub column: u32,
    pub row: u32,
    /// The refinement moves made before it settled, 0 to 4.
    pub moves: u32,
}

impl Keypoint {
    /// The words that a keypoint goes out as.
    pub const WORDS: usize = 10;

    pub fn from_words(w: &[u32; Keypoint::WORDS]) -> Keypoint {
        Keypoint {
            x: f32::from_bits(w[0]),
            y: f32::from_bits(w[1]),
            size: f32::from_bits(w[2]),
            response: f32::from_bits(w[3]),
            octave: w[4],
            layer: w[5],
            xi: f32::from_bits(w[6]),
            column: w[7],
            row: w[8],
            moves: w[9],
        }
    }

    pub fn to_words(&self) -> [u32; Keypoint::WORDS] {
        [
            self.x.to_bits(),
            self.y.to_bits(),
            self.size.to_bits(),
            self.response.to_bits(),
            self.octave,
            self.layer,
            self.xi.to_bits(),
            self.column,
            self.row,
            self.moves,
        ]
    }
}

/// The threshold of detection. Refused with 2 for layers not in 1 to 15, with 4 for a contrast not in 0 to 1.
pub fn threshold(contrast: f64, layers: usize) -> Result<f32, Refusal> {
    let (number, bits) = entries::threshold(contrast, layers);
    Refusal::from_answer(number, 0)?;
    Ok(f32::from_bits(bits))
}

/// Room for this many keypoints is tried first.
const FIRST_ROOM: usize = 1024;

/// The keypoints of one layer, row by row.
pub fn find_extrema(
    stack: &Stack,
    layer: usize,
    octave: u32,
    settings: &Settings,
) -> Result<Vec<Keypoint>, Refusal> {
    let mut words = vec![0; FIRST_ROOM * Keypoint::WORDS];
    let mut answer = entries::find_extrema(stack, layer, octave, settings, &mut words);
    if let (7, needed) = answer {
        words.resize(needed * Keypoint::WORDS, 0);
        answer = entries::find_extrema(stack, layer, octave, settings, &mut words);
    }
    let (number, count) = answer;
    Refusal::from_answer(number, count)?;
    let (keypoints, _) = words[..count * Keypoint::WORDS].as_chunks();
    Ok(keypoints.iter().map(Keypoint::from_words).collect())
}
