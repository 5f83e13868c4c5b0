//! From a frame to a sheet: every oriented keypoint with its descriptor, in the order in which they are found (see `find`), and then
//! the points that are given, in their order.

use crate::Trouble;
use crate::cover::Tally;
use crate::describe::describe;
use crate::find::{self, EDITION, Wanted, octave_of};
use crate::fit::Fit;
use crate::patch::{self, Patch};
use crate::pgm::Frame;
use crate::points::Points;
use crate::progress::Progress;
use crate::pyramid::Octave;
use bargeclover::{Keypoint, Oriented, Refusal, Sheet, assign_orientations, write_sheet};

/// What a sheet is to be beside what is found.
#[derive(Clone, Debug)]
pub struct Order {
    pub edition: u32,
    /// Points set by hand.
    pub points: Points,
}

impl Default for Order {
    fn default() -> Order {
        Order {
            edition: EDITION,
            points: Points::default(),
        }
    }
}

impl Order {
    /// Asks the library whether it writes such an edition, of a frame of one cell without records.
    pub fn accepted(&self) -> Result<(), Trouble> {
        let empty = Sheet {
            edition: self.edition,
            width: 1,
            height: 1,
            layers: 1,
            records: Vec::new(),
        };
        let told = write_sheet(&empty);
        told.map(|_| ())
            .map_err(|r| Trouble::refused(r, "give --edition 2 or 1"))
    }
}

/// A frame's sheet. Its records tell level from blank, also where its edition will not.
pub struct Extracted {
    pub sheet: Sheet,
    /// Keypoints found, or kept of those found, each with its directions or none.
    pub keypoints: usize,
    /// What a quota left.
    pub tally: Option<Tally>,
}

impl Extracted {
    /// How many records have 128 zeros, and why.
    pub fn zeros(&self) -> Option<String> {
        patch::zeros(self.sheet.records.iter().map(Patch::of))
    }
}

/// The directions of a point: the one that is given, or those that are found, or 0 where none is.
fn directions(octave: &Octave, k: &Keypoint, given: Option<f32>) -> Result<Vec<Oriented>, Trouble> {
    let towards = |angle| Oriented {
        x: k.x,
        y: k.y,
        size: k.size,
        response: k.response,
        octave: k.octave,
        angle,
    };
    if let Some(angle) = given {
        return Ok(vec![towards(angle)]);
    }
    let picture = octave.picture(k.layer as usize);
    let found = assign_orientations(&picture, k).map_err(find::inside)?;
    Ok(match found.list {
        none if none.is_empty() => vec![towards(0.0)],
        some => some,
    })
}

/// The most records of a sheet.
const MOST: usize = 1_048_575;

pub fn extract(
    frame: &Frame,
    wanted: &Wanted,
    order: &Order,
    progress: &mut Progress,
) -> Result<Extracted, Trouble> {
    order.accepted()?;
    find::accepted(frame, wanted)?;
    let given = Fit::new(frame, &wanted.settings, wanted.double).keypoints(&order.points)?;
    let mut records = Vec::new();
    let mut push = |octave: &Octave, k: &Keypoint, o: &Oriented| {
        if records.len() == MOST {
            let change = "a sheet has at most 1048575 records: raise --contrast, give a --quota or cut the frame";
            return Err(Trouble::refused(Refusal::Field, change));
        }
        records.push(describe(octave, k, o)?);
        Ok(())
    };
    let mut octaves = Vec::new();
    let found = find::each_with_planes(frame, wanted, progress, &mut push, |mut octave| {
        if !given.iter().any(|k| octave_of(k) == octaves.len()) {
            octave.gaussian = Vec::new();
        }
        octaves.push(octave);
    })?;
    for (k, p) in given.iter().zip(&order.points.list) {
        progress.say(|| format!("the point of line {}", p.line));
        let octave = &octaves[octave_of(k)];
        for o in directions(octave, k, p.angle)? {
            push(octave, k, &o)?;
        }
    }
    let (width, height) = find::size(frame, wanted.double);
    Ok(Extracted {
        sheet: Sheet {
            edition: order.edition,
            width,
            height,
            layers: wanted.settings.layers,
            records,
        },
        keypoints: found.keypoints,
        tally: found.tally,
    })
}
