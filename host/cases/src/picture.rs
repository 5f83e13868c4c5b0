//! Gaussian planes of every kind for orientation and descriptor, keypoints in them, and which cells those two read.

use crate::{Rng, table};

#[derive(Clone, Debug)]
pub struct Picture {
    pub samples: Vec<f32>,
    pub width: usize,
    pub height: usize,
}

impl Picture {
    fn fill(&mut self, mut f: impl FnMut(f64, f64) -> f64) {
        for r in 0..self.height {
            for c in 0..self.width {
                self.samples[r * self.width + c] = f(r as f64, c as f64) as f32;
            }
        }
    }
}

/// A picture of some kind: level, a ramp, noise, blobs, few levels, or stripes; from the least numbers to the largest.
pub fn picture(r: &mut Rng) -> Picture {
    let side = |r: &mut Rng| match r.below(10) {
        0 => r.from_to(1, 4),
        1 => r.from_to(60, 120),
        _ => r.from_to(5, 48),
    };
    let (width, height) = (side(r), side(r));
    let mut p = Picture {
        samples: vec![0.0; width * height],
        width,
        height,
    };
    match r.below(7) {
        0 => {
            let level = 255.0 * r.unit();
            p.fill(|_, _| level);
        }
        1 => {
            let (a, b) = (10.0 * r.signed(), 10.0 * r.signed());
            p.fill(|y, x| a * x + b * y);
        }
        2 => {
            let levels = r.from_to(2, 5);
            p.fill(|_, _| r.below(levels) as f64 * 40.0);
        }
        3 => {
            let (turn, apart) = (r.unit() * 6.3, 2.0 + 6.0 * r.unit());
            let (sin, cos) = turn.sin_cos();
            p.fill(|y, x| 100.0 * ((x * cos + y * sin) / apart).sin());
        }
        4 => {
            let blobs: Vec<[f64; 4]> = (0..r.from_to(1, 6))
                .map(|_| {
                    [
                        r.unit() * width as f64,
                        r.unit() * height as f64,
                        1.0 + 6.0 * r.unit(),
                        250.0 * r.signed(),
                    ]
                })
                .collect();
            let grain = r.unit();
            p.fill(|y, x| {
                let sum: f64 = blobs
                    .iter()
                    .map(|[u, v, w, a]| {
                        a * (-((x - u).powi(2) + (y - v).powi(2)) / (2.0 * w * w)).exp()
                    })
                    .sum();
                sum + grain * r.signed()
            });
        }
        _ => p.fill(|_, _| 255.0 * r.signed()),
    }
    let largest = p.samples.iter().fold(0.0f32, |a, x| a.max(x.abs()));
    match r.below(6) {
        0 if largest > 0.0 => {
            let most = (1048576.0 / f64::from(largest)).log2() as i32 - 1;
            let by = 2f64.powi((r.below(180) as i32 - 160).min(most));
            for x in &mut p.samples {
                *x = (f64::from(*x) * by) as f32;
            }
        }
        1 => p.samples.iter_mut().for_each(|x| *x = x.round()),
        _ => {}
    }
    p
}

/// A scale in 0.125 to 64, mostly small, and sometimes at an end.
pub fn scale(r: &mut Rng) -> f32 {
    match r.below(16) {
        0 => 0.125,
        1 => r.pick(&[64.0, 30.0, 12.0]),
        2 => 0.125f32.next_up(),
        _ => (0.125 * 2f64.powf(6.0 * r.unit())) as f32,
    }
}

const BAD: [f32; 6] = [
    f32::NAN,
    f32::INFINITY,
    f32::NEG_INFINITY,
    1048576.1,
    -1048577.0,
    f32::MAX,
];

/// A bad sample somewhere, more often near the cell.
pub fn spoil(r: &mut Rng, p: &mut Picture, row: usize, column: usize) {
    let near = |r: &mut Rng, at: usize, side: usize| {
        if r.one_in(3) {
            r.below(side)
        } else {
            (at + r.below(25)).saturating_sub(12).min(side - 1)
        }
    };
    let (y, x) = (near(r, row, p.height), near(r, column, p.width));
    p.samples[y * p.width + x] = r.pick(&BAD);
}

/// The shape or the length is changed; it may still be accepted.
pub fn misshape(r: &mut Rng, p: &mut Picture) {
    match r.below(4) {
        0 => p.width = r.pick(&[0, 8192, 8193, usize::MAX]),
        1 => p.height = r.pick(&[0, 8192, 8193, usize::MAX]),
        2 => {
            p.samples.pop();
        }
        _ => p.samples.push(0.0),
    }
}

/// The number that an entry of a picture gives before it looks at its room: 5 where the keypoint or place is wrong, 6 where one of
/// the four neighbours of a cell that it reads is a bad sample.
pub fn fault(
    p: &Picture,
    wrong: impl FnOnce() -> bool,
    cells: impl FnOnce() -> Vec<(usize, usize)>,
) -> u32 {
    let shape = table::picture(p.width, p.height, p.samples.len());
    if shape != 0 {
        return shape;
    }
    if wrong() {
        return 5;
    }
    let bad = |y: usize, x: usize| table::sample(p.samples[y * p.width + x]);
    let beside =
        |(y, x): (usize, usize)| bad(y, x + 1) || bad(y, x - 1) || bad(y + 1, x) || bad(y - 1, x);
    if cells().into_iter().any(beside) {
        6
    } else {
        0
    }
}
