//! Small octaves to check sheets against: difference planes of every kind, and Gaussian ones that belong to them or do not.

use super::{Case, Made, Stages, made};
use crate::{Rng, detection};
use bargeclover::Settings;

/// How the planes of an octave are made.
#[derive(Clone, Copy, Debug, PartialEq, Eq)]
pub enum Kind {
    /// A picture that is blurred more and more, and the differences of neighbours.
    Blurred,
    /// The same, but for Gaussian planes that are so faint that all values are zero.
    Faint,
    /// A stack of noise, and Gaussian planes of other noise.
    Noise,
    /// A stack as detection is tried with, and Gaussian planes of noise, of few levels or of slopes.
    Apart,
    /// Gaussian planes that are level, so that no keypoint has a direction.
    Level,
}

impl Kind {
    pub const ALL: [Kind; 5] = [
        Kind::Blurred,
        Kind::Faint,
        Kind::Noise,
        Kind::Apart,
        Kind::Level,
    ];

    /// One of them, level planes seldom.
    fn any(r: &mut Rng) -> Kind {
        match r.below(16) {
            0 => Kind::Level,
            1 | 2 => Kind::Faint,
            3..=6 => Kind::Noise,
            7..=10 => Kind::Apart,
            _ => Kind::Blurred,
        }
    }
}

/// Mostly such that something is found.
fn settings(r: &mut Rng, layers: usize) -> Settings {
    Settings {
        contrast: match r.below(12) {
            0 => r.pick(&[1.0, -0.0, f64::MIN_POSITIVE]),
            1 => r.unit(),
            2..=4 => 0.0,
            5..=7 => 0.03 * r.unit(),
            _ => 0.04,
        },
        edge: match r.below(8) {
            0 => 1.0,
            1 | 2 => 1000.0,
            3 | 4 => 1.0 + 30.0 * r.unit(),
            _ => 10.0,
        },
        sigma: match r.below(8) {
            0 => 16.0,
            1 => 0.5,
            2 | 3 => 0.5 + 4.0 * r.unit(),
            _ => 1.6,
        },
        layers,
    }
}

/// A side of 11 cells has one row or column that is searched, and one of 10 none.
fn side(r: &mut Rng) -> usize {
    match r.below(24) {
        0 => r.from_to(1, 10),
        1 | 2 => 11,
        3 | 4 => r.from_to(12, 14),
        _ => r.from_to(15, 24),
    }
}

/// The size of octave 0: most often as many times the octave's as there are halvings, and sometimes smaller than the octave.
fn base(r: &mut Rng, octave: u32, sides: [usize; 2]) -> (usize, usize) {
    let [w, h] = sides.map(|side| match r.below(64) {
        0 => r.from_to(1, side),
        1 => 8192,
        2..=7 => r.from_to(side, 8192),
        _ => ((side << octave) + r.below(1 << octave)).min(8192),
    });
    (w, h)
}

/// From this width on a row has more than 64 cells that are searched: the library goes over a row by so many.
pub const WIDE: usize = 5 + 64 + 5 + 1;

/// Planes of zeros.
fn empty(r: &mut Rng) -> Case {
    let (width, height) = match r.below(16) {
        0 => (r.pick(&[WIDE - 1, WIDE, 2 * WIDE, 150]), r.from_to(11, 13)),
        _ => (side(r), side(r)),
    };
    let layers = if r.one_in(12) {
        r.from_to(1, 15)
    } else {
        r.from_to(1, 3)
    };
    let planes = match r.below(8) {
        0 => r.from_to(layers + 2, 17),
        _ => layers + 2,
    };
    let octave = match r.below(4) {
        0 => r.below(16) as u32,
        1 => r.below(4) as u32,
        _ => 0,
    };
    Case {
        dog: vec![0.0; planes * height * width],
        gauss: vec![0.0; (planes + 1) * height * width],
        width,
        height,
        planes,
        octave,
        settings: settings(r, layers),
        base: base(r, octave, [width, height]),
        sheet: Vec::new(),
    }
}

/// Half of a cell, and a quarter of each cell beside it, along rows and then along columns; the edge stands for what is beyond it.
fn blurred(from: &[f64], width: usize, height: usize) -> Vec<f64> {
    let pass = |from: &[f64], [down, across]: [usize; 2]| -> Vec<f64> {
        let cell = |k: usize| {
            let (y, x) = (k / width, k % width);
            let after = (y + down).min(height - 1) * width + (x + across).min(width - 1);
            let before = y.saturating_sub(down) * width + x.saturating_sub(across);
            0.5 * from[k] + 0.25 * (from[before] + from[after])
        };
        (0..from.len()).map(cell).collect()
    };
    pass(&pass(from, [0, 1]), [1, 0])
}

/// Grain, few levels, or dots on a level ground.
fn picture(r: &mut Rng, cells: usize) -> Vec<f64> {
    let kind = r.below(4);
    let ground = 200.0 * r.unit();
    let cell = |r: &mut Rng| match kind {
        0 => 60.0 * r.below(4) as f64,
        1 if r.one_in(12) => 255.0 * r.unit(),
        1 => ground,
        _ => 255.0 * r.unit(),
    };
    (0..cells).map(|_| cell(r)).collect()
}

/// Gaussian planes, each a blur of the one before, so that a picture's blur doubles over the layers; and their differences.
fn blurs(r: &mut Rng, c: &mut Case) {
    let strong = 2f64.powi(r.below(4) as i32);
    let mut now = picture(r, c.width * c.height);
    now.iter_mut().for_each(|x| *x *= strong);
    let step = 2.0 / c.settings.layers as f64;
    let (mut all, mut times) = (Vec::new(), 0);
    for plane in 0..=c.planes {
        // a blur's square grows with the times; above the layers there may be many planes
        let most = 4.0 * 2f64.powf(step * plane as f64);
        while times < most.round().min(100.0) as usize {
            now = blurred(&now, c.width, c.height);
            times += 1;
        }
        all.push(now.iter().map(|&x| x as f32).collect::<Vec<f32>>());
    }
    let differences = all.windows(2).map(|p| {
        let both = p[1].iter().zip(&p[0]);
        both.map(|(a, b)| a - b).collect::<Vec<f32>>()
    });
    c.dog = differences.collect::<Vec<_>>().concat();
    c.gauss = all.concat();
}

/// Gaussian planes that have nothing to do with the stack.
fn others(r: &mut Rng, c: &mut Case) {
    let (width, kind) = (c.width, r.below(3));
    let [across, down] = [(); 2].map(|()| 9.0 * r.signed());
    for (k, x) in c.gauss.iter_mut().enumerate() {
        let at = [k % width, k / width].map(|v| v as f64);
        *x = match kind {
            0 => 40.0 * r.below(3) as f64,
            1 => across * at[0] + down * at[1] + r.unit(),
            _ => 255.0 * r.signed(),
        } as f32;
    }
}

/// The stack is one that detection is tried with.
fn tried(r: &mut Rng, c: &mut Case) {
    let mut stack = detection::Case {
        samples: std::mem::take(&mut c.dog),
        width: c.width,
        height: c.height,
        planes: c.planes,
        layer: 1,
        octave: c.octave,
        settings: c.settings,
    };
    let kind = r.pick(&detection::Kind::ALL);
    detection::fill(r, &mut stack, kind);
    c.dog = stack.samples;
}

/// An octave of some kind with what the stages make of it, mostly one that has records.
pub fn any(r: &mut Rng, s: &Stages) -> (Kind, Case, Made) {
    let kind = Kind::any(r);
    let least = usize::from(kind != Kind::Level && !r.one_in(8));
    loop {
        let c = octave(r, kind);
        let made = made(&c, s).expect("good samples are not refused");
        if made.records.len() >= least {
            return (kind, c, made);
        }
    }
}

/// An octave of the kind, which is not refused; its sheet is yet to be made.
fn octave(r: &mut Rng, kind: Kind) -> Case {
    let mut c = empty(r);
    let noise = |r: &mut Rng, list: &mut [f32]| {
        list.fill_with(|| (255.0 * r.signed()) as f32);
    };
    match kind {
        Kind::Blurred => blurs(r, &mut c),
        Kind::Faint => {
            blurs(r, &mut c);
            let by = 2f32.powi(-(r.from_to(44, 64) as i32));
            c.gauss.iter_mut().for_each(|x| *x *= by);
        }
        Kind::Noise => {
            noise(r, &mut c.dog);
            noise(r, &mut c.gauss);
        }
        Kind::Apart => {
            tried(r, &mut c);
            others(r, &mut c);
        }
        Kind::Level => {
            noise(r, &mut c.dog);
            let level = (255.0 * r.signed()) as f32;
            c.gauss.fill(level);
        }
    }
    c
}
