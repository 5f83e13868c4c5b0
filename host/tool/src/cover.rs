//! Even cover: which keypoints of a frame are kept, by the library, and what an operator is told of it. Where regions are cut is
//! found here by counting, for the picture alone; it decides nothing.

use crate::Trouble;
use bargeclover::{Keypoint, Refusal, thin};
use std::fmt;

/// What is asked for.
#[derive(Clone, Copy, Debug, PartialEq, Eq)]
pub struct Cover {
    pub quota: usize,
    pub depth: u32,
}

/// The depth where none is given.
pub const DEPTH: u32 = 12;

impl Cover {
    /// Asks the library whether it will take them, on a frame of one cell without keypoints.
    pub fn accepted(&self) -> Result<(), Trouble> {
        let tried = |quota, depth, change| {
            let told = thin(1, 1, &[], quota, depth);
            told.map_err(|r| Trouble::refused(r, change))
        };
        tried(self.quota, DEPTH, "give --quota of 1 or more")?;
        tried(1, self.depth, "give --depth from 0 to 12")?;
        Ok(())
    }

    /// The keypoints of all octaves, thinned; width and height are octave 0's.
    pub fn thinned(
        &self,
        (width, height): (usize, usize),
        keypoints: Vec<Keypoint>,
    ) -> Result<Thinned, Refusal> {
        let kept = thin(width, height, &keypoints, self.quota, self.depth)?;
        Ok(Thinned {
            cover: *self,
            width,
            height,
            keypoints,
            kept,
        })
    }
}

/// A frame's keypoints in the order of a sheet, and the positions of those that are kept, ascending.
pub struct Thinned {
    cover: Cover,
    width: usize,
    height: usize,
    pub keypoints: Vec<Keypoint>,
    pub kept: Vec<usize>,
}

/// A line between two places of octave 0.
pub type Line = [(usize, usize); 2];

impl Thinned {
    pub fn tally(&self) -> Tally {
        let kept = self.kept.iter().map(|&p| &self.keypoints[p]);
        Tally {
            found: self.keypoints.len(),
            kept: self.kept.len(),
            before: self.fields(self.keypoints.iter()),
            after: self.fields(kept),
        }
    }

    /// The positions of those that are not kept.
    pub fn dropped(&self) -> impl Iterator<Item = usize> {
        let mut kept = vec![false; self.keypoints.len()];
        for &p in &self.kept {
            kept[p] = true;
        }
        (0..kept.len()).filter(move |&p| !kept[p])
    }

    /// How many of the frame's fields have one of these.
    fn fields<'a>(&self, keypoints: impl Iterator<Item = &'a Keypoint>) -> usize {
        let at = |v: f32, side: usize| (f64::from(v) * FIELDS as f64 / side as f64) as usize;
        let mut seen = [[false; FIELDS]; FIELDS];
        for k in keypoints {
            seen[at(k.y, self.height)][at(k.x, self.width)] = true;
        }
        seen.as_flattened().iter().filter(|s| **s).count()
    }

    /// The lines along which regions were cut: two for each, none where a half is empty.
    pub fn cuts(&self) -> Vec<Line> {
        let whole = Region {
            across: [0, self.width],
            down: [0, self.height],
        };
        let mut lines = Vec::new();
        let members = self.keypoints.iter().collect();
        cut(&mut lines, members, whole, self.cover);
        lines
    }
}

struct Region {
    across: [usize; 2],
    down: [usize; 2],
}

fn middle([from, to]: [usize; 2]) -> usize {
    from + (to - from) / 2
}

fn cut(lines: &mut Vec<Line>, members: Vec<&Keypoint>, region: Region, c: Cover) {
    if members.len() <= c.quota || c.quota < 4 || c.depth == 0 {
        return;
    }
    let ([left, right], [top, bottom]) = (region.across, region.down);
    let (x, y) = (middle(region.across), middle(region.down));
    if x > left {
        lines.push([(x, top), (x, bottom)]);
    }
    if y > top {
        lines.push([(left, y), (right, y)]);
    }
    let (above, below) = members.into_iter().partition(|k| k.y < y as f32);
    let rows: [(Vec<&Keypoint>, _); 2] = [(above, [top, y]), (below, [y, bottom])];
    let mut quotas = (0..4).map(|k| (c.quota + 3 - k) / 4);
    for (members, down) in rows {
        let (before, behind) = members.into_iter().partition(|k| k.x < x as f32);
        for (members, across) in [(before, [left, x]), (behind, [x, right])] {
            let quarter = Cover {
                quota: quotas.next().unwrap_or(0),
                depth: c.depth - 1,
            };
            cut(lines, members, Region { across, down }, quarter);
        }
    }
}

/// So many fields on a side of a frame are looked at.
const FIELDS: usize = 8;

/// How many keypoints are kept, and how many fields of the frame have one, before and after.
#[derive(Clone, Copy, Debug, PartialEq, Eq)]
pub struct Tally {
    pub found: usize,
    pub kept: usize,
    pub before: usize,
    pub after: usize,
}

impl fmt::Display for Tally {
    fn fmt(&self, f: &mut fmt::Formatter<'_>) -> fmt::Result {
        write!(
            f,
            "kept {} of {} keypoints; of {FIELDS} x {FIELDS} fields of the frame {} have a keypoint before and {} after",
            self.kept, self.found, self.before, self.after
        )
    }
}

#[cfg(test)]
mod tests {
    use super::*;

    fn at(x: f32, y: f32) -> Keypoint {
        Keypoint {
            x,
            y,
            ..Keypoint::from_words(&[0; Keypoint::WORDS])
        }
    }

    fn thinned(keypoints: &[(f32, f32)], quota: usize, depth: u32) -> Thinned {
        let list = keypoints.iter().map(|&(x, y)| at(x, y)).collect();
        Cover { quota, depth }.thinned((21, 16), list).unwrap()
    }

    #[test]
    fn only_what_is_cut_is_lined_in() {
        let crowd = [(0.5, 0.5); 9];
        assert!(thinned(&crowd, 9, 12).cuts().is_empty());
        assert!(thinned(&crowd, 3, 12).cuts().is_empty());
        assert!(thinned(&crowd, 8, 0).cuts().is_empty());
        let whole = [[(10, 0), (10, 16)], [(0, 8), (21, 8)]];
        assert_eq!(thinned(&crowd, 8, 12).cuts(), whole);
        // a first quarter of four is cut again
        let first = [[(5, 0), (5, 8)], [(0, 4), (10, 4)]];
        let both = [whole, first].concat();
        assert_eq!(thinned(&[(0.5, 0.5); 14], 13, 12).cuts(), both);
        assert_eq!(thinned(&[(0.5, 0.5); 14], 13, 1).cuts(), whole);
    }

    #[test]
    fn fields_are_eighths() {
        let t = thinned(
            &[(0.0, 0.0), (2.6, 1.9), (2.7, 0.0), (20.9, 15.9), (0.1, 2.0)],
            2,
            12,
        );
        let tally = Tally {
            found: 5,
            kept: 2,
            before: 4,
            after: 1,
        };
        assert_eq!((t.tally(), t.kept.as_slice()), (tally, &[0, 1][..]));
        assert_eq!(t.dropped().collect::<Vec<_>>(), [2, 3, 4]);
        assert_eq!(
            tally.to_string(),
            "kept 2 of 5 keypoints; of 8 x 8 fields of the frame 4 have a keypoint before and 1 after"
        );
    }
}
