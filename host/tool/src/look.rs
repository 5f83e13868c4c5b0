//! How a mark is drawn: the colour of its octave, or, where its 128 values are all zero, white with a sign; and red where a sheet differs.

use crate::canvas::Colour;
use crate::patch::Patch;

/// Octave by octave; after the last it starts anew.
pub const COLOURS: [Colour; 8] = [
    [64, 224, 255],
    [255, 214, 64],
    [255, 110, 70],
    [214, 120, 255],
    [120, 240, 120],
    [255, 150, 200],
    [150, 180, 255],
    [240, 240, 150],
];
pub const ZERO: Colour = [255, 255, 255];
/// No octave has it.
pub const DIFFERS: Colour = [255, 30, 30];

pub fn colour(octave: u32) -> Colour {
    COLOURS[octave as usize % COLOURS.len()]
}

/// How a mark is drawn.
#[derive(Clone, Copy, Debug, PartialEq)]
pub struct Look {
    pub colour: Colour,
    pub dashed: bool,
    /// What is drawn in its circle, or about it, from its middle, where the circle is 1: lines.
    pub inside: &'static [[(f32, f32); 2]],
    /// The least radius that it is drawn with, in cells of the picture.
    pub least: f32,
    /// How many times as bold as others it is.
    pub bold: f32,
}

/// Those with values have the colour of their octave. A level patch has a level line through its circle, a blank one is dashed and
/// crossed out, and one of which nothing is known is dashed.
pub fn look(patch: Option<Patch>, octave: u32) -> Look {
    const LEVEL: &[[(f32, f32); 2]] = &[[(-1.0, 0.0), (1.0, 0.0)]];
    const CROSS: &[[(f32, f32); 2]] = &[[(-0.6, -0.6), (0.6, 0.6)], [(-0.6, 0.6), (0.6, -0.6)]];
    let zero = |dashed, inside| Look {
        colour: ZERO,
        dashed,
        inside,
        least: 8.0,
        bold: 1.0,
    };
    match patch {
        None | Some(Patch::Values) => Look {
            colour: colour(octave),
            dashed: false,
            inside: &[],
            least: 1.5,
            bold: 1.0,
        },
        Some(Patch::Level) => zero(false, LEVEL),
        Some(Patch::Blank) => zero(true, CROSS),
        Some(Patch::Unknown) => zero(true, &[]),
    }
}

/// The record in which a sheet differs is in a square, so that it is found, and dashed where it is missing.
pub fn differs(missing: bool) -> Look {
    const FAR: f32 = 1.6;
    const SQUARE: &[[(f32, f32); 2]] = &[
        [(-FAR, -FAR), (FAR, -FAR)],
        [(FAR, -FAR), (FAR, FAR)],
        [(FAR, FAR), (-FAR, FAR)],
        [(-FAR, FAR), (-FAR, -FAR)],
    ];
    Look {
        colour: DIFFERS,
        dashed: missing,
        inside: SQUARE,
        least: 8.0,
        bold: 1.5,
    }
}

#[cfg(test)]
mod tests {
    use super::*;

    #[test]
    fn a_difference_looks_like_nothing_else() {
        for octave in 0..16 {
            for patch in Patch::ALL {
                let other = look(Some(patch), octave);
                assert_ne!(other.colour, DIFFERS);
                assert_ne!(other.inside, differs(false).inside);
            }
        }
        assert_ne!(differs(false), differs(true));
    }
}
