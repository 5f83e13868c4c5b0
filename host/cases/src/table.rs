//! The table of refusals (rule A2), rendered a second time: from the page of rules, in wide integers and open intervals, and not
//! from the library's definitions. Each line is a rule, and the first that is true gives its number.

use crate::detection::Case;
use bargeclover::Settings;

pub(crate) fn first(lines: &[(u32, bool)]) -> u32 {
    lines.iter().find(|l| l.1).map_or(0, |l| l.0)
}

/// Rule A4.
pub(crate) fn shape(width: usize, height: usize) -> bool {
    [width, height].iter().any(|s| !(1..=8192).contains(s))
}

/// Rule A5, of detection.
pub(crate) fn layers(layer: usize, layers: usize, planes: usize) -> bool {
    let [layer, layers, planes] = [layer, layers, planes].map(|n| n as i128);
    let ordered = 1 <= layer && layer <= layers && layers <= planes - 2;
    !ordered || layers > 15 || planes > 17
}

/// Outside lo to hi, or not-a-number.
fn outside(x: f64, lo: f64, hi: f64) -> bool {
    x.is_nan() || x < lo || x > hi
}

/// Rule A7, of the settings.
pub(crate) fn settings(s: &Settings) -> bool {
    outside(s.contrast, 0.0, 1.0) || outside(s.edge, 1.0, 1000.0) || outside(s.sigma, 0.5, 16.0)
}

/// Rule A13, of one sample.
pub fn sample(x: f32) -> bool {
    x.is_nan() || x.is_infinite() || f64::from(x).abs() > 1048576.0
}

/// The number that `find_extrema` gives before it looks at its room.
pub fn detection(c: &Case) -> u32 {
    let s = &c.settings;
    let need = c.planes as u128 * c.width as u128 * c.height as u128;
    // 3 stands before 4 and 6 and after 1 and 2, so the product is small wherever it decides.
    first(&[
        (1, shape(c.width, c.height)),
        (2, layers(c.layer, s.layers, c.planes)),
        (3, c.samples.len() as u128 != need),
        (4, settings(s) || c.octave > 15),
        (6, c.samples.iter().any(|&x| sample(x))),
    ])
}

/// The number that `threshold` gives.
pub fn threshold(contrast: f64, layers: usize) -> u32 {
    first(&[
        (2, !(1..=15).contains(&layers)),
        (4, outside(contrast, 0.0, 1.0)),
    ])
}

/// 1 and 3 of an entry that takes a picture, before what else it takes is looked at.
pub fn picture(width: usize, height: usize, samples: usize) -> u32 {
    let need = width as u128 * height as u128;
    first(&[(1, shape(width, height)), (3, samples as u128 != need)])
}
