//! The record of an oriented keypoint, by the library: its descriptor, and whether that read any cell.

use crate::Trouble;
use crate::find::{inside, keypoints, orient};
use crate::pyramid::Octave;
use bargeclover::{
    Keypoint, Oriented, Record, Settings, compute_descriptor, descriptor_inputs, make_record,
};

/// The octave is the keypoint's.
pub fn describe(octave: &Octave, k: &Keypoint, o: &Oriented) -> Result<Record, Trouble> {
    let picture = octave.picture(k.layer as usize);
    let made = descriptor_inputs(o, octave.number as i32)
        .and_then(|aim| compute_descriptor(&picture, &aim))
        .and_then(|d| make_record(k, o, &d));
    made.map_err(inside)
}

/// All records of an octave, in the order of a sheet.
pub fn records(octave: &Octave, settings: &Settings) -> Result<Vec<Record>, Trouble> {
    let mut all = Vec::new();
    for keypoint in &keypoints(octave, settings).map_err(inside)? {
        orient(octave, keypoint, &mut |octave, k, o| {
            all.push(describe(octave, k, o)?);
            Ok(())
        })?;
    }
    Ok(all)
}
