//! Stacks of difference planes of every kind that detection treats in its own way, whole and damaged.

use crate::Rng;
use crate::table;
use bargeclover::{Settings, Stack};

/// What `find_extrema` is handed. A damaged case may have any number anywhere.
#[derive(Clone, Debug)]
pub struct Case {
    pub samples: Vec<f32>,
    pub width: usize,
    pub height: usize,
    pub planes: usize,
    pub layer: usize,
    pub octave: u32,
    pub settings: Settings,
}

impl Case {
    pub fn stack(&self) -> Stack<'_> {
        Stack {
            samples: &self.samples,
            width: self.width,
            height: self.height,
            planes: self.planes,
        }
    }

    /// The case with every sample's sign turned.
    pub fn turned(&self) -> Case {
        Case {
            samples: self.samples.iter().map(|x| -x).collect(),
            ..self.clone()
        }
    }

    fn put(&mut self, plane: usize, row: usize, column: usize, x: f32) {
        self.samples[(plane * self.height + row) * self.width + column] = x;
    }

    /// Calls f with plane, row and column of every sample, for its value.
    fn fill(&mut self, mut f: impl FnMut(usize, usize, usize) -> f64) {
        let mut at = 0;
        for p in 0..self.planes {
            for r in 0..self.height {
                for c in 0..self.width {
                    self.samples[at] = f(p, r, c) as f32;
                    at += 1;
                }
            }
        }
    }
}

/// How the samples of a stack are made.
#[derive(Clone, Copy, Debug, PartialEq, Eq)]
pub enum Kind {
    /// Round and long blobs between the cells, over all planes.
    Blobs,
    /// A bowl whose axes are turned: the lowest cell lies off the bowl's own foot, so candidates move.
    Bowls,
    Noise,
    /// Noise smoothed over its neighbours.
    Waves,
    /// Few levels, so that neighbours tie.
    Plateaus,
    /// Zeros with single cells set.
    Spikes,
    /// Long ridges, which the edge test drops.
    Ridges,
    /// Noise in some directions alone, so that the determinant is 0 or nearly.
    Flat,
    /// The zeros of both signs among the least numbers.
    Least,
}

impl Kind {
    pub const ALL: [Kind; 9] = [
        Kind::Blobs,
        Kind::Bowls,
        Kind::Noise,
        Kind::Waves,
        Kind::Plateaus,
        Kind::Spikes,
        Kind::Ridges,
        Kind::Flat,
        Kind::Least,
    ];
}

fn side(r: &mut Rng) -> usize {
    match r.below(12) {
        0 => r.from_to(1, 10),
        1 => 11,
        2 => r.from_to(25, 60),
        _ => r.from_to(12, 24),
    }
}

fn settings(r: &mut Rng, layers: usize) -> Settings {
    Settings {
        contrast: match r.below(8) {
            0 => 0.04,
            1 => 1.0,
            2 => -0.0,
            3 => r.unit(),
            4 => f64::MIN_POSITIVE * r.unit(),
            _ => 0.02 * r.unit(),
        },
        edge: match r.below(4) {
            0 => 1.0,
            1 => 1000.0,
            2 => 1.0 + r.unit() * 30.0,
            _ => 10.0,
        },
        sigma: match r.below(4) {
            0 => 0.5,
            1 => 16.0,
            2 => 0.5 + r.unit() * 15.5,
            _ => 1.6,
        },
        layers,
    }
}

/// An accepted case of the kind.
pub fn accepted(r: &mut Rng, kind: Kind) -> Case {
    let (width, height) = (side(r), side(r));
    let planes = if r.one_in(8) {
        r.from_to(3, 17)
    } else {
        r.from_to(3, 5)
    };
    let layers = r.from_to(1, planes - 2);
    let octave = if r.one_in(2) { 0 } else { r.below(16) as u32 };
    let mut c = Case {
        samples: vec![0.0; planes * height * width],
        width,
        height,
        planes,
        layer: r.from_to(1, layers),
        octave,
        settings: settings(r, layers),
    };
    fill(r, &mut c, kind);
    c
}

/// Makes the samples of a stack, of the kind.
pub fn fill(r: &mut Rng, c: &mut Case, kind: Kind) {
    let (width, height, planes) = (c.width, c.height, c.planes);
    match kind {
        Kind::Blobs => blobs(r, c),
        Kind::Bowls => bowls(r, c),
        Kind::Noise => c.fill(|_, _, _| 255.0 * r.signed()),
        Kind::Waves => waves(r, c),
        Kind::Plateaus => {
            let levels = r.from_to(1, 6);
            c.fill(|_, _, _| (r.below(2 * levels + 1) as f64 - levels as f64) * 10.0);
        }
        Kind::Spikes => {
            for _ in 0..r.from_to(1, 12) {
                let (p, row, col) = (r.below(planes), r.below(height), r.below(width));
                c.put(p, row, col, (300.0 * r.signed()) as f32);
            }
        }
        Kind::Ridges => ridges(r, c),
        Kind::Flat => flat(r, c),
        Kind::Least => c.fill(|_, _, _| {
            let least = f64::from(f32::from_bits(r.below(4) as u32));
            if r.one_in(2) { -least } else { least }
        }),
    }
    scale(r, c);
}

/// A square stack of zeros, its second layer searched with the settings that are usual.
fn square(side: usize) -> Case {
    let settings = Settings::default();
    let planes = settings.layers + 2;
    Case {
        samples: vec![0.0; planes * side * side],
        width: side,
        height: side,
        planes,
        layer: 2,
        octave: 0,
        settings,
    }
}

/// A square of noise at the settings that the source starts with: some 65 of a thousand cells are keypoints.
pub fn dense(r: &mut Rng, side: usize) -> Case {
    let mut c = square(side);
    c.fill(|_, _, _| 255.0 * r.signed());
    c
}

/// So many lone bright cells, four apart, in a square with room for them: as many keypoints.
pub fn spikes(many: usize) -> Case {
    let row = many.isqrt() + 1;
    let mut c = square(4 * row + 10);
    for k in 0..many {
        c.put(2, 6 + 4 * (k / row), 6 + 4 * (k % row), 100.0);
    }
    c
}

fn blobs(r: &mut Rng, c: &mut Case) {
    let many = r.from_to(1, 8);
    let all: Vec<[f64; 7]> = (0..many)
        .map(|_| {
            let wide = 0.5 + 2.5 * r.unit();
            [
                r.unit() * c.width as f64,
                r.unit() * c.height as f64,
                r.unit() * c.planes as f64,
                250.0 * r.signed(),
                wide,
                wide * (0.6 + 0.8 * r.unit()),
                0.5 + r.unit(),
            ]
        })
        .collect();
    let grain = if r.one_in(2) { 0.0 } else { r.unit() };
    c.fill(|p, row, col| {
        let sum: f64 = all
            .iter()
            .map(|[x, y, s, a, wx, wy, ws]| {
                let u = (col as f64 - x) / wx;
                let v = (row as f64 - y) / wy;
                let w = (p as f64 - s) / ws;
                a * (-0.5 * (u * u + v * v + w * w)).exp()
            })
            .sum();
        sum + grain * r.signed()
    });
}

/// Three axes of any turn and length; the bowl repeats, so that there are many feet.
fn bowls(r: &mut Rng, c: &mut Case) {
    let axes = [(); 3].map(|()| {
        let long = 0.02f64.powf(r.unit());
        [r.signed() * long, r.signed() * long, r.signed() * long]
    });
    let period = r.from_to(5, 14) as f64;
    let foot = [
        r.unit() * period,
        r.unit() * period,
        r.unit() * c.planes as f64,
    ];
    let high = if r.one_in(2) { 200.0 } else { -200.0 };
    let grain = if r.one_in(3) { 0.5 * r.unit() } else { 0.0 };
    c.fill(|p, row, col| {
        let d = [
            (col as f64 - foot[0] + period / 2.0).rem_euclid(period) - period / 2.0,
            (row as f64 - foot[1] + period / 2.0).rem_euclid(period) - period / 2.0,
            p as f64 - foot[2],
        ];
        let q: f64 = axes
            .iter()
            .map(|a| {
                let along = a[0] * d[0] + a[1] * d[1] + a[2] * d[2];
                along * along
            })
            .sum();
        high * (1.0 - q) + grain * r.signed()
    });
}

fn waves(r: &mut Rng, c: &mut Case) {
    let rough: Vec<f64> = c.samples.iter().map(|_| 400.0 * r.signed()).collect();
    let (w, h, n) = (c.width, c.height, c.planes);
    let reach = r.from_to(1, 2);
    let near = |k: usize, top: usize| k.saturating_sub(reach)..(k + reach + 1).min(top);
    c.fill(|p, row, col| {
        let (mut sum, mut many) = (0.0, 0.0);
        for q in near(p, n) {
            for y in near(row, h) {
                for x in near(col, w) {
                    sum += rough[(q * h + y) * w + x];
                    many += 1.0;
                }
            }
        }
        sum / many
    });
}

fn ridges(r: &mut Rng, c: &mut Case) {
    let turn = r.unit() * std::f64::consts::TAU;
    let (sin, cos) = turn.sin_cos();
    let apart = 4.0 + 6.0 * r.unit();
    let (sway, grain) = (20.0 * r.unit(), 3.0 * r.unit());
    let middle = r.unit() * c.planes as f64;
    c.fill(|p, row, col| {
        let across = (col as f64 * cos + row as f64 * sin) / apart;
        let along = (row as f64 * cos - col as f64 * sin) / (apart * 2.0);
        let off = p as f64 - middle;
        100.0 * across.sin() - off * off + sway * along.sin() + grain * r.signed()
    });
}

fn flat(r: &mut Rng, c: &mut Case) {
    // which of plane, row and column the value depends on
    let uses = [r.one_in(2), r.one_in(2), r.one_in(2)];
    let table: Vec<f64> = (0..64).map(|_| 200.0 * r.signed()).collect();
    let grain = r.pick(&[0.0, 1e-30, 1e-6, 1e-3]);
    c.fill(|p, row, col| {
        let pick = |k: usize, on: bool, step: usize| if on { k * step } else { 0 };
        let at = pick(p, uses[0], 7) + pick(row, uses[1], 13) + pick(col, uses[2], 29);
        table[at % 64] * (1.0 + grain * r.signed())
    });
}

/// As it is; or by a power of two, down to where all is subnormal and up to the largest sample; or cut to whole numbers.
fn scale(r: &mut Rng, c: &mut Case) {
    let largest = c.samples.iter().fold(0.0f32, |a, x| a.max(x.abs()));
    let times = |c: &mut Case, by: i32| {
        for x in &mut c.samples {
            *x = (f64::from(*x) * 2f64.powi(by)) as f32;
        }
    };
    match r.below(7) {
        0 if largest > 0.0 => {
            let most = (1048576.0 / f64::from(largest)).log2() as i32 - 1;
            times(c, (r.below(180) as i32 - 160).min(most));
        }
        // about where the determinant is a number and its reciprocal is not
        1 => times(c, r.below(28) as i32 - 62),
        2 => {
            for x in &mut c.samples {
                *x = x.round();
            }
        }
        3 if largest > 0.0 => {
            // the largest sample is exactly 2^20
            let by = 1048576.0 / f64::from(largest);
            for x in &mut c.samples {
                *x = (f64::from(*x) * by).clamp(-1048576.0, 1048576.0) as f32;
            }
        }
        _ => {}
    }
}

/// Numbers about a limit and far from it.
fn about(r: &mut Rng, limit: usize) -> usize {
    match r.below(6) {
        0 => 0,
        1 => limit - 1,
        2 => limit,
        3 => limit + 1,
        4 => usize::MAX - r.below(3),
        _ => r.word() as usize >> r.below(64),
    }
}

/// A setting just inside, just outside or far outside of lo to hi.
fn beyond(r: &mut Rng, lo: f64, hi: f64) -> f64 {
    match r.below(10) {
        0 => lo.next_down(),
        1 => hi.next_up(),
        2 => lo,
        3 => hi,
        4 => f64::NAN,
        5 => f64::INFINITY,
        6 => f64::NEG_INFINITY,
        7 => -hi,
        8 => -f64::NAN,
        _ => f64::from_bits(r.word()),
    }
}

/// One thing about the case is changed; it may still be accepted.
pub fn damage(r: &mut Rng, c: &mut Case) {
    match r.below(11) {
        0 => c.width = about(r, 8192),
        1 => c.height = about(r, 8192),
        2 => c.planes = about(r, 17),
        3 => c.layer = about(r, c.settings.layers),
        4 => c.settings.layers = about(r, 15),
        5 => match r.below(4) {
            0 => {
                c.samples.pop();
            }
            1 => c.samples.push(0.0),
            2 => c.samples.clear(),
            _ => c.samples.truncate(c.width.min(c.samples.len())),
        },
        6 => c.settings.contrast = beyond(r, 0.0, 1.0),
        7 => c.settings.edge = beyond(r, 1.0, 1000.0),
        8 => c.settings.sigma = beyond(r, 0.5, 16.0),
        9 => c.octave = about(r, 15) as u32,
        _ => {
            let bad = [
                f32::NAN,
                -f32::NAN,
                f32::INFINITY,
                f32::NEG_INFINITY,
                1048576.0f32.next_up(),
                (-1048576.0f32).next_down(),
                1048576.0,
                -1048576.0,
                f32::MAX,
                -0.0,
                f32::from_bits(1),
            ];
            if !c.samples.is_empty() {
                // any place, and often the first or the last
                let last = c.samples.len() - 1;
                let at = match r.below(4) {
                    0 => 0,
                    1 => last,
                    _ => r.below(last + 1),
                };
                c.samples[at] = r.pick(&bad);
            }
        }
    }
}

/// What stands in the lent words before a call, so that a word that is written or not shows.
pub const BEFORE: u32 = 0xa5a5_a5a5;

/// The answer that is right for so many words lent: the number, the count, and all the lent words afterwards. The table decides on
/// refusals; of a case that it accepts, `find` gives the keypoints.
pub fn expected(
    c: &Case,
    room: usize,
    find: impl FnOnce(&Case) -> Vec<[u32; 10]>,
) -> (u32, usize, Vec<u32>) {
    let mut out = vec![BEFORE; room];
    let fault = table::detection(c);
    if fault != 0 {
        return (fault, 0, out);
    }
    let found = find(c);
    let words = found.as_flattened();
    if words.len() > room {
        return (7, found.len(), out);
    }
    out[..words.len()].copy_from_slice(words);
    (0, found.len(), out)
}
