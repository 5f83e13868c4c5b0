//! The entries as they are in C, made safe by slices: numbers, counts and words, and nothing allocated. Each answers the
//! number of rule A2 and what it carries. On a refusal nothing is written and all else is 0, but for the count needed beside a 7.

use crate::{Aim, Picture, Settings, Stack, ffi};

/// The number, and the threshold by its bits.
pub fn threshold(contrast: f64, layers: usize) -> (u32, u32) {
    let mut bits = 0;
    // SAFETY: the pointer is good for one value.
    let number = unsafe { ffi::bargeclover_threshold(contrast, layers, &mut bits) };
    (number, bits)
}

/// The number, and the count of keypoints; ten words of `out` for each.
pub fn find_extrema(
    stack: &Stack,
    layer: usize,
    octave: u32,
    settings: &Settings,
    out: &mut [u32],
) -> (u32, usize) {
    let mut count = 0;
    // SAFETY: each pointer is good for its length, and what is written is lent to nobody else.
    let number = unsafe {
        ffi::bargeclover_find_extrema(
            stack.samples.as_ptr(),
            stack.samples.len(),
            stack.width,
            stack.height,
            stack.planes,
            layer,
            octave,
            settings.layers,
            settings.contrast,
            settings.edge,
            settings.sigma,
            out.as_mut_ptr(),
            out.len(),
            &mut count,
        )
    };
    (number, count)
}

/// The number, and the count of positions; a word of `out` for each.
pub fn thin(
    width: usize,
    height: usize,
    words: &[u32],
    quota: usize,
    depth: u32,
    out: &mut [u32],
) -> (u32, usize) {
    let mut count = 0;
    // SAFETY: each pointer is good for its length, and what is written is lent to nobody else.
    let number = unsafe {
        ffi::bargeclover_thin(
            width,
            height,
            words.as_ptr(),
            words.len(),
            quota,
            depth,
            out.as_mut_ptr(),
            out.len(),
            &mut count,
        )
    };
    (number, count)
}

/// The number; 139 words of `out`, which has 139: those of a record of edition 2.
pub fn make_record(
    keypoint: &[u32],
    oriented: &[u32],
    values: &[f32],
    samples: usize,
    out: &mut [u32],
) -> u32 {
    // SAFETY: each pointer is good for its length, and what is written is lent to nobody else.
    unsafe {
        ffi::bargeclover_make_record(
            keypoint.as_ptr(),
            keypoint.len(),
            oriented.as_ptr(),
            oriented.len(),
            values.as_ptr(),
            values.len(),
            samples,
            out.as_mut_ptr(),
            out.len(),
        )
    }
}

/// The number, and the count of bytes. A record is 138 words of `words` in edition 1 and 139 in edition 2.
pub fn write_sheet(
    edition: u32,
    width: usize,
    height: usize,
    layers: usize,
    words: &[u32],
    out: &mut [u8],
) -> (u32, usize) {
    let mut count = 0;
    // SAFETY: each pointer is good for its length, and what is written is lent to nobody else.
    let number = unsafe {
        ffi::bargeclover_write_sheet(
            edition,
            width,
            height,
            layers,
            words.as_ptr(),
            words.len(),
            out.as_mut_ptr(),
            out.len(),
            &mut count,
        )
    };
    (number, count)
}

/// The number, the count of records, 139 words of `out` for each, the edition, and width, height and layers.
pub fn read_sheet(sheet: &[u8], out: &mut [u32]) -> (u32, usize, u32, [usize; 3]) {
    let (mut count, mut edition) = (0, 0);
    let (mut width, mut height, mut layers) = (0, 0, 0);
    // SAFETY: each pointer is good for its length, and what is written is lent to nobody else.
    let number = unsafe {
        ffi::bargeclover_read_sheet(
            sheet.as_ptr(),
            sheet.len(),
            out.as_mut_ptr(),
            out.len(),
            &mut count,
            &mut edition,
            &mut width,
            &mut height,
            &mut layers,
        )
    };
    (number, count, edition, [width, height, layers])
}

/// The number, the verdict, the record and the field. `base` is the width and the height of octave 0.
pub fn check_sheet(
    stack: &Stack,
    gauss: &[f32],
    octave: u32,
    settings: &Settings,
    base: (usize, usize),
    sheet: &[u8],
) -> (u32, u32, usize, u32) {
    let (mut verdict, mut record, mut field) = (0, 0, 0);
    // SAFETY: each pointer is good for its length, and what is written is lent to nobody else.
    let number = unsafe {
        ffi::bargeclover_check_sheet(
            stack.samples.as_ptr(),
            stack.samples.len(),
            gauss.as_ptr(),
            gauss.len(),
            stack.width,
            stack.height,
            stack.planes,
            octave,
            settings.layers,
            settings.contrast,
            settings.edge,
            settings.sigma,
            base.0,
            base.1,
            sheet.as_ptr(),
            sheet.len(),
            &mut verdict,
            &mut record,
            &mut field,
        )
    };
    (number, verdict, record, field)
}

/// The number, the count of oriented keypoints and the cells read; six words of `out` for each.
pub fn assign_orientations(
    picture: &Picture,
    keypoint: &[u32],
    out: &mut [u32],
) -> (u32, usize, usize) {
    let (mut count, mut samples) = (0, 0);
    // SAFETY: each pointer is good for its length, and what is written is lent to nobody else.
    let number = unsafe {
        ffi::bargeclover_assign_orientations(
            picture.samples.as_ptr(),
            picture.samples.len(),
            picture.width,
            picture.height,
            keypoint.as_ptr(),
            keypoint.len(),
            out.as_mut_ptr(),
            out.len(),
            &mut count,
            &mut samples,
        )
    };
    (number, count, samples)
}

/// The number; four words of `out`, which has four: x, y, scale and angle by their bits.
pub fn descriptor_inputs(oriented: &[u32], octave: i32, out: &mut [u32]) -> u32 {
    // SAFETY: each pointer is good for its length, and what is written is lent to nobody else.
    unsafe {
        ffi::bargeclover_descriptor_inputs(
            oriented.as_ptr(),
            oriented.len(),
            octave,
            out.as_mut_ptr(),
            out.len(),
        )
    }
}

/// The number, the count of values and the samples used; `out` has 128.
pub fn compute_descriptor(picture: &Picture, aim: &Aim, out: &mut [f32]) -> (u32, usize, usize) {
    let (mut count, mut samples) = (0, 0);
    // SAFETY: each pointer is good for its length, and what is written is lent to nobody else.
    let number = unsafe {
        ffi::bargeclover_compute_descriptor(
            picture.samples.as_ptr(),
            picture.samples.len(),
            picture.width,
            picture.height,
            aim.x,
            aim.y,
            aim.scale,
            aim.angle,
            out.as_mut_ptr(),
            out.len(),
            &mut count,
            &mut samples,
        )
    };
    (number, count, samples)
}
