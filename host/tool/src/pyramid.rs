//! The Gaussian planes and their differences, octave by octave. Nothing here is proved: the library is proved for whatever planes
//! it is handed, and these are made as the source makes them where its text says how (`params.rs` and `pipeline.rs`: the blurs, the
//! kernels, which plane the next octave starts from, when the octaves end). Its blur functions were not published: here a blur is
//! two passes, rows then columns, each a sum of products from the first tap to the last, mirrored at the edge without repeating it.

use bargeclover::{Picture, Settings, Stack};

/// The blur that a frame is taken to have.
const FRAME_BLUR: f32 = 0.5;

/// An octave smaller than this on a side is not built.
const LEAST_SIDE: usize = 16;

/// The planes of one octave.
pub struct Octave {
    /// 0 is the first that is built.
    pub number: u32,
    pub width: usize,
    pub height: usize,
    /// How many differences there are: layers + 2.
    pub planes: usize,
    /// One Gaussian plane more, plane after plane, of which only 1 to layers, those that are read, are kept; the others are zeros.
    pub gaussian: Vec<f32>,
    /// The differences, plane after plane.
    pub differences: Vec<f32>,
}

impl Octave {
    pub fn stack(&self) -> Stack<'_> {
        Stack {
            samples: &self.differences,
            width: self.width,
            height: self.height,
            planes: self.planes,
        }
    }

    /// The Gaussian plane in which a layer's keypoints are given their directions and descriptors.
    pub fn picture(&self, layer: usize) -> Picture<'_> {
        let cells = self.width * self.height;
        Picture {
            samples: &self.gaussian[layer * cells..][..cells],
            width: self.width,
            height: self.height,
        }
    }
}

/// Taps of a kernel: `cvRound(sigma * 8 + 1) | 1`.
fn taps(sigma: f64) -> usize {
    (sigma * 4.0 * 2.0 + 1.0).round_ties_even() as usize | 1
}

/// Half of a Gaussian kernel, from the middle outwards; the other half is its mirror.
fn kernel(sigma: f64) -> Vec<f32> {
    let n = taps(sigma);
    let scale = -0.125 / (sigma * sigma);
    let outer: Vec<f64> = (1..=n / 2)
        .rev()
        .map(|k| ((4 * k * k) as f64 * scale).exp())
        .collect();
    let sum = outer.iter().sum::<f64>() * 2.0 + 1.0;
    let mul = 1.0 / sum;
    let mut half = vec![mul as f32];
    half.extend(outer.iter().rev().map(|v| (v * mul) as f32));
    half
}

/// The index that a place outside a side of n cells stands for: mirrored, the edge not repeated.
fn mirrored(i: isize, n: usize) -> usize {
    let n = n as isize;
    if n == 1 {
        return 0;
    }
    let mut i = i;
    while i < 0 || i >= n {
        i = if i < 0 { -i } else { 2 * n - i - 2 };
    }
    i as usize
}

/// A plane blurred by a kernel, along its rows and then along its columns.
fn blurred(plane: &[f32], width: usize, height: usize, half: &[f32]) -> Vec<f32> {
    let reach = half.len() - 1;
    let taps = || (0..=2 * reach).map(|k| half[reach.abs_diff(k)]);
    let mut across = Vec::with_capacity(plane.len());
    let mut wide = vec![0.0; width + 2 * reach];
    for row in plane.chunks_exact(width) {
        for (k, w) in wide.iter_mut().enumerate() {
            *w = row[mirrored(k as isize - reach as isize, width)];
        }
        let start = across.len();
        across.resize(start + width, 0.0);
        let out = &mut across[start..];
        for (k, t) in taps().enumerate() {
            for (o, w) in out.iter_mut().zip(&wide[k..]) {
                *o += t * w;
            }
        }
    }
    let mut down = vec![0.0; plane.len()];
    for (y, out) in down.chunks_exact_mut(width).enumerate() {
        for (k, t) in taps().enumerate() {
            let r = mirrored((y + k) as isize - reach as isize, height);
            for (o, a) in out.iter_mut().zip(&across[r * width..]) {
                *o += t * a;
            }
        }
    }
    down
}

/// A plane of twice the width and height, between whose samples there are straight lines.
fn doubled(plane: &[f32], width: usize, height: usize) -> Vec<f32> {
    // the sample before the place, and the share of the one after it
    let tap = |d: usize, n: usize| match d {
        0 => (0, 0, 0.0),
        _ if d / 2 + d % 2 > n - 1 => (n - 1, n - 1, 0.0),
        _ if d % 2 == 1 => (d / 2, d / 2 + 1, 0.25f32),
        _ => (d / 2 - 1, d / 2, 0.75f32),
    };
    let mut across = Vec::with_capacity(2 * plane.len());
    for row in plane.chunks_exact(width) {
        across.extend((0..2 * width).map(|x| {
            let (a, b, t) = tap(x, width);
            row[a] * (1.0 - t) + row[b] * t
        }));
    }
    let row = |y: usize| &across[y * 2 * width..(y + 1) * 2 * width];
    let mut all = Vec::with_capacity(4 * plane.len());
    for y in 0..2 * height {
        let (a, b, t) = tap(y, height);
        all.extend(
            row(a)
                .iter()
                .zip(row(b))
                .map(|(p, q)| p * (1.0 - t) + q * t),
        );
    }
    all
}

/// Every second sample of every second row.
fn halved(plane: &[f32], width: usize, height: usize) -> Vec<f32> {
    let rows = plane.chunks_exact(width).step_by(2).take(height / 2);
    rows.flat_map(|r| r.iter().step_by(2).take(width / 2).copied())
        .collect()
}

/// Width and height of each octave of a frame, which may be doubled first.
pub fn sides(width: usize, height: usize, double: bool) -> Vec<(usize, usize)> {
    let times = if double { 2 } else { 1 };
    let (mut w, mut h) = (times * width, times * height);
    let least = w.min(h) as f64;
    let many = (least.log2() - 2.0).round_ties_even() as i32 + i32::from(double);
    let mut all = Vec::new();
    while w.min(h) >= LEAST_SIDE && all.len() < many.max(1) as usize {
        all.push((w, h));
        (w, h) = (w / 2, h / 2);
    }
    all
}

/// The octaves of a frame, made one after the other: the one before is let go when the next is asked for.
pub struct Pyramid {
    kernels: Vec<Vec<f32>>,
    layers: usize,
    /// The first plane of the next octave.
    next: Vec<f32>,
    number: u32,
    sides: Vec<(usize, usize)>,
}

impl Pyramid {
    /// Settings are accepted ones. With `double` the frame is first made twice as wide and high, and octave 0 is that of the
    /// doubled frame.
    pub fn new(
        samples: &[f32],
        width: usize,
        height: usize,
        s: &Settings,
        double: bool,
    ) -> Pyramid {
        let sigma = s.sigma as f32;
        let before = FRAME_BLUR * FRAME_BLUR * if double { 4.0 } else { 1.0 };
        let first = f64::from((sigma * sigma - before).max(0.01).sqrt());
        let k = 2f64.powf(1.0 / s.layers as f64);
        let step = |i: usize| {
            let less = k.powf(i as f64 - 1.0) * s.sigma;
            let more = less * k;
            (more * more - less * less).sqrt()
        };
        let large;
        let (base, w, h) = if double {
            large = doubled(samples, width, height);
            (large.as_slice(), 2 * width, 2 * height)
        } else {
            (samples, width, height)
        };
        Pyramid {
            kernels: (1..s.layers + 3).map(|i| kernel(step(i))).collect(),
            layers: s.layers,
            next: blurred(base, w, h, &kernel(first)),
            number: 0,
            sides: sides(width, height, double),
        }
    }

    /// How many octaves there are.
    pub fn octaves(&self) -> usize {
        self.sides.len()
    }
}

impl Iterator for Pyramid {
    type Item = Octave;

    fn next(&mut self) -> Option<Octave> {
        let (width, height) = *self.sides.get(self.number as usize)?;
        let (planes, cells) = (self.kernels.len(), width * height);
        // a plane that is never written takes no memory
        let mut gaussian = vec![0.0; (planes + 1) * cells];
        let mut differences = Vec::with_capacity(planes * cells);
        let mut below = std::mem::take(&mut self.next);
        for (i, k) in (1..).zip(&self.kernels) {
            let above = blurred(&below, width, height, k);
            differences.extend(above.iter().zip(&below).map(|(a, b)| a - b));
            if i <= self.layers {
                gaussian[i * cells..][..cells].copy_from_slice(&above);
            }
            below = above;
        }
        self.next = halved(&gaussian[self.layers * cells..], width, height);
        let number = self.number;
        self.number += 1;
        Some(Octave {
            number,
            width,
            height,
            planes,
            gaussian,
            differences,
        })
    }
}

#[cfg(test)]
mod tests {
    use super::*;

    #[test]
    fn a_kernel_sums_to_one_and_falls() {
        for sigma in [0.1, 0.5, 1.2, 1.6, 3.0, 20.0] {
            let half = kernel(sigma);
            assert_eq!(half.len(), taps(sigma) / 2 + 1);
            let sum: f64 =
                half.iter().map(|v| f64::from(*v)).sum::<f64>() * 2.0 - f64::from(half[0]);
            assert!((sum - 1.0).abs() < 1e-6, "{sigma}: {sum}");
            assert!(half.windows(2).all(|p| p[1] <= p[0]));
        }
        assert_eq!(taps(1.6), 15);
        assert_eq!(taps(1.5198684), 13);
    }

    #[test]
    fn a_flat_plane_stays_flat() {
        let flat = vec![64.0; 20 * 9];
        for v in blurred(&flat, 20, 9, &kernel(1.6)) {
            assert!((v - 64.0).abs() < 1e-4);
        }
        assert!(doubled(&flat, 20, 9).iter().all(|v| *v == 64.0));
    }

    #[test]
    fn a_point_spreads_as_the_kernel_says() {
        let mut plane = vec![0.0; 31 * 31];
        plane[15 * 31 + 15] = 1.0;
        let half = kernel(1.6);
        let b = blurred(&plane, 31, 31, &half);
        for (dy, dx) in [(0, 0), (0, 3), (4, 0), (2, 5), (7, 7)] {
            assert_eq!(b[(15 + dy) * 31 + 15 - dx], half[dy] * half[dx]);
        }
        assert_eq!(b[15 * 31 + 15 + 8], 0.0);
    }

    #[test]
    fn a_narrow_plane_is_mirrored_again_and_again() {
        assert_eq!(
            (-4..6).map(|i| mirrored(i, 3)).collect::<Vec<_>>(),
            [0, 1, 2, 1, 0, 1, 2, 1, 0, 1]
        );
        assert_eq!(mirrored(-9, 1), 0);
        assert_eq!(blurred(&[1.0, 2.0], 1, 2, &kernel(1.6)).len(), 2);
    }

    #[test]
    fn doubling_and_halving() {
        assert_eq!(
            doubled(&[0.0, 4.0], 2, 1),
            [0.0, 1.0, 3.0, 4.0, 0.0, 1.0, 3.0, 4.0]
        );
        let plane: Vec<f32> = (0..15).map(|v| v as f32).collect();
        assert_eq!(halved(&plane, 5, 3), [0.0, 2.0]);
    }

    #[test]
    fn octaves_end_as_in_the_source() {
        let sides = |w: usize, h: usize, double| {
            let s = Settings::default();
            let p = Pyramid::new(&vec![0.0; w * h], w, h, &s, double);
            p.map(|o| {
                assert_eq!(o.gaussian.len(), 6 * o.width * o.height);
                (o.width, o.height)
            })
            .collect::<Vec<_>>()
        };
        // round(log2(240) - 2) is 6, and the fifth octave would be 20 x 15
        assert_eq!(
            sides(320, 240, false),
            [(320, 240), (160, 120), (80, 60), (40, 30)]
        );
        assert_eq!(sides(33, 17, false), [(33, 17)]);
        assert_eq!(sides(15, 400, false), []);
        assert_eq!(sides(17, 17, true), [(34, 34), (17, 17)]);
    }
}
