//! Which Gaussian cells are read, and by what; and bad samples in cells of either kind.

use super::{Case, Made};
use crate::picture::Picture;
use crate::{Rng, descriptor, orientation};

/// What reads a Gaussian cell: the window of a keypoint, or patches alone, or nothing.
#[derive(Clone, Copy, Debug, PartialEq, Eq)]
pub enum Reader {
    Window,
    Patch,
    Nothing,
}

/// The reader of each Gaussian cell.
pub struct Reads(Vec<Reader>);

impl Reads {
    /// The four neighbours of cells of a plane.
    fn mark(&mut self, plane: &Picture, number: usize, cells: &[(usize, usize)], by: Reader) {
        let first = number * plane.width * plane.height;
        for &(y, x) in cells {
            for (y, x) in [(y - 1, x), (y + 1, x), (y, x - 1), (y, x + 1)] {
                let at = &mut self.0[first + y * plane.width + x];
                if *at != Reader::Window {
                    *at = by;
                }
            }
        }
    }

    pub fn new(c: &Case, made: &Made) -> Reads {
        let mut all = Reads(vec![Reader::Nothing; c.gauss.len()]);
        for k in &made.keypoints {
            let number = k[5] as usize;
            let here = orientation::Case {
                picture: c.plane(number),
                keypoint: k.to_vec(),
            };
            let cells = orientation::cells(&here);
            all.mark(&here.picture, number, &cells, Reader::Window);
        }
        for e in &made.records {
            let number = made.keypoints[e.keypoint][5] as usize;
            let [x, y, scale, angle] = e.at;
            let here = descriptor::Case {
                picture: c.plane(number),
                x,
                y,
                scale,
                angle,
            };
            let cells = descriptor::cells(&here);
            all.mark(&here.picture, number, &cells, Reader::Patch);
        }
        all
    }

    /// The place of any cell that has this reader; none where there is none.
    fn place(&self, r: &mut Rng, by: Reader) -> Option<usize> {
        let from = r.below(self.0.len());
        let places = (from..self.0.len()).chain(0..from);
        let mut places = places.filter(|&k| self.0[k] == by);
        places.next()
    }
}

/// Just beyond the limit, far beyond it, infinite, or no number.
pub(super) fn bad(r: &mut Rng) -> f32 {
    r.pick(&[
        f32::NAN,
        -f32::NAN,
        f32::from_bits(0x7f80_0001),
        f32::INFINITY,
        f32::NEG_INFINITY,
        1048576f32.next_up(),
        (-1048576f32).next_down(),
        f32::MAX,
    ])
}

/// A bad sample in a Gaussian cell that has this reader; none where no cell has.
pub fn spoil(r: &mut Rng, c: &mut Case, reads: &Reads, by: Reader) -> Option<()> {
    let at = reads.place(r, by)?;
    *c.gauss.get_mut(at)? = bad(r);
    Some(())
}

/// Every Gaussian cell that nothing reads gets a bad sample.
pub fn spoil_unread(r: &mut Rng, c: &mut Case, reads: &Reads) {
    for (x, by) in c.gauss.iter_mut().zip(&reads.0) {
        if *by == Reader::Nothing {
            *x = bad(r);
        }
    }
}
