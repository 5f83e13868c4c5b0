//! A made-up coast as an aerial frame: fields with furrows, a road, a village, scrub, surf, an open sea that is flat to the
//! last bit, and in one corner the mark of the camera. Sums, products and hashes alone, no routine of a C library, so that
//! a seed gives the same bytes on every machine.

/// A frame, row after row, a byte a sample.
#[derive(Clone, Debug, PartialEq)]
pub struct Frame {
    pub width: usize,
    pub height: usize,
    pub samples: Vec<u8>,
}

impl Frame {
    /// The bytes of a PGM file, binary.
    pub fn to_pgm(&self) -> Vec<u8> {
        let mut bytes = format!("P5\n{} {}\n255\n", self.width, self.height).into_bytes();
        bytes.extend(&self.samples);
        bytes
    }
}

/// The shipped frame, `frames/coast.pgm`.
pub fn shipped() -> Frame {
    frame(320, 240, 7)
}

/// splitmix64's last step.
fn mixed(z: u64) -> u64 {
    let z = (z ^ (z >> 30)).wrapping_mul(0xbf58_476d_1ce4_e5b9);
    let z = (z ^ (z >> 27)).wrapping_mul(0x94d0_49bb_1331_11eb);
    z ^ (z >> 31)
}

/// From 0 to below 1, by place.
fn hashed(seed: u64, x: i64, y: i64) -> f64 {
    let z = mixed(seed ^ mixed(x as u64 ^ mixed(y as u64)));
    (z >> 11) as f64 / (1u64 << 53) as f64
}

fn smooth(t: f64) -> f64 {
    let t = t.clamp(0.0, 1.0);
    t * t * (3.0 - 2.0 * t)
}

fn between(a: f64, b: f64, t: f64) -> f64 {
    a + (b - a) * t
}

/// Soft noise from 0 to 1 whose waves are one unit wide.
fn noise(seed: u64, x: f64, y: f64) -> f64 {
    let (x0, y0) = (x.floor(), y.floor());
    let (tx, ty) = (smooth(x - x0), smooth(y - y0));
    let at = |i: i64, j: i64| hashed(seed, x0 as i64 + i, y0 as i64 + j);
    between(
        between(at(0, 0), at(1, 0), tx),
        between(at(0, 1), at(1, 1), tx),
        ty,
    )
}

/// Four waves of soft noise, each half as wide and half as strong as the one before; from 0 to 1.
fn rough(seed: u64, x: f64, y: f64) -> f64 {
    let (mut sum, mut weight, mut total, mut step) = (0.0, 1.0, 0.0, 1.0);
    for k in 0..4 {
        sum += weight * noise(seed + k, x * step, y * step);
        total += weight;
        weight *= 0.5;
        step *= 2.0;
    }
    sum / total
}

/// How far a number is from the nearest multiple of a step.
fn off_grid(v: f64, step: f64) -> f64 {
    let t = v / step;
    (t - (t + 0.5).floor()).abs() * step
}

/// What a place on land shows, before grain: parcels of a grid that lies askew, each with its own tone and furrows.
fn land(seed: u64, x: f64, y: f64) -> f64 {
    let (u, v) = (0.94 * x + 0.34 * y, 0.94 * y - 0.34 * x);
    let bend = 6.0 * rough(seed + 40, u / 60.0, v / 60.0);
    let (wide, high) = (46.0, 33.0);
    let (i, j) = (
        ((u + bend) / wide).floor() as i64,
        ((v - bend) / high).floor() as i64,
    );
    let parcel = |k: u64| hashed(seed + 50 + k, i, j);
    let mut tone = 78.0 + 92.0 * parcel(0);
    if parcel(1) < 0.55 {
        // furrows along or across
        let along = if parcel(2) < 0.5 {
            u
        } else {
            0.6 * v + 0.8 * u
        };
        let step = 4.0 + 3.0 * parcel(3);
        tone += 16.0 * (off_grid(along, step) / step * 4.0 - 1.0);
    } else if parcel(1) < 0.75 {
        // an orchard
        let near = off_grid(u, 7.0).max(off_grid(v, 7.0));
        if near < 2.1 {
            tone -= 38.0;
        }
    } else {
        // scrub
        tone += 70.0 * (rough(seed + 60, x / 9.0, y / 9.0) - 0.5);
    }
    // hedges between the parcels
    let hedge = off_grid(u + bend, wide).min(off_grid(v - bend, high));
    if hedge < 1.0 {
        tone = between(44.0, tone, smooth(hedge));
    }
    tone + 24.0 * (rough(seed + 70, x / 38.0, y / 38.0) - 0.5)
}

/// Trees that stand alone: a dark crown, lit from the upper left, and its shadow.
fn tree(seed: u64, x: f64, y: f64, under: f64) -> f64 {
    const STEP: f64 = 12.0;
    let (i, j) = ((x / STEP).floor(), (y / STEP).floor());
    let own = |k: u64| hashed(seed + 100 + k, i as i64, j as i64);
    if own(0) > 0.4 {
        return under;
    }
    let size = 1.7 + 1.5 * own(1);
    let (u, v) = (
        x - STEP * (i + 0.35 + 0.3 * own(2)),
        y - STEP * (j + 0.35 + 0.3 * own(3)),
    );
    if (u * u + v * v).sqrt() < size {
        return 46.0 - 9.0 * (u + v);
    }
    let (u, v) = (u - 1.6, v - 1.6);
    if (u * u + v * v).sqrt() < size {
        return under * 0.6;
    }
    under
}

/// A village: houses on a small grid inside a disc, thinning out towards its rim.
fn village(seed: u64, x: f64, y: f64, at: (f64, f64), size: f64, under: f64) -> f64 {
    let (u, v) = (x - at.0, y - at.1);
    let away = (u * u + v * v).sqrt() / size;
    if away > 1.0 {
        return under;
    }
    let (u, v) = (0.88 * u + 0.47 * v, 0.88 * v - 0.47 * u);
    let (i, j) = ((u / 10.0).floor(), (v / 9.0).floor());
    let house = |k: u64| hashed(seed + 80 + k, i as i64, j as i64);
    if house(0) < away * 0.9 {
        return between(112.0, under, 0.4);
    }
    let (du, dv) = (u - 10.0 * i - 5.0, v - 9.0 * j - 4.5);
    let (wide, deep) = (1.8 + 2.0 * house(1), 1.5 + 1.8 * house(2));
    if du.abs() < wide && dv.abs() < deep {
        // a roof of two slopes
        let roof = 186.0 + 60.0 * house(3);
        return if dv < 0.0 { roof } else { roof - 46.0 };
    }
    if du.abs() < wide + 1.2 && (dv - 1.4).abs() < deep {
        // its shadow
        return 40.0;
    }
    between(112.0, under, 0.4)
}

/// How far a place lies inland from the shore, where a frame is 180 high; below 0 at sea.
fn inland(seed: u64, x: f64, y: f64) -> f64 {
    let line = 158.0 - 0.3 * y + 44.0 * (rough(seed + 10, y / 70.0, 3.5) - 0.5);
    let bay = 30.0 * (rough(seed + 20, x / 40.0, y / 40.0) - 0.5);
    line + bay - x
}

/// The open sea, everywhere the same.
pub const SEA: u8 = 52;

fn tone(seed: u64, x: f64, y: f64) -> (f64, bool) {
    let far = inland(seed, x, y);
    if far < -15.0 {
        return (f64::from(SEA), false);
    }
    if far < 0.0 {
        // surf: stripes of foam that fade into the sea
        let wave = off_grid(far + 4.0 * rough(seed + 30, x / 12.0, y / 12.0), 6.0) / 3.0;
        let fade = smooth((far + 15.0) / 15.0);
        return (f64::from(SEA) + fade * (30.0 + 80.0 * wave), false);
    }
    if far < 7.0 {
        // the beach
        return (
            205.0 + 26.0 * (rough(seed + 35, x / 7.0, y / 7.0) - 0.5),
            true,
        );
    }
    let mut t = land(seed, x, y);
    t = tree(seed, x, y, t);
    // the road along the coast
    let road = (far - 22.0).abs();
    if road < 3.0 {
        t = between(216.0, t, smooth((road - 1.4) / 1.6));
    }
    t = village(seed, x, y, (84.0, 68.0), 38.0, t);
    t = village(seed, x, y, (30.0, 150.0), 24.0, t);
    (t, true)
}

/// The camera's mark: a dark corner with a white cross, as wide as it is high.
fn mark(x: usize, y: usize, width: usize, height: usize) -> Option<f64> {
    const SIDE: usize = 26;
    let (u, v) = ((width - x).min(SIDE + 1), (height - y).min(SIDE + 1));
    if u > SIDE || v > SIDE {
        return None;
    }
    let (u, v) = (u as f64 - 13.5, v as f64 - 13.5);
    let away = (u * u + v * v).sqrt();
    let cross = u.abs().min(v.abs()) < 1.0 && away < 9.0;
    let ring = (away - 5.5).abs() < 0.8;
    Some(if cross || ring { 235.0 } else { 18.0 })
}

/// A frame of a coast. Sides below 40 cells are cut from it as larger ones are.
pub fn frame(width: usize, height: usize, seed: u64) -> Frame {
    let seed = mixed(seed);
    let step = 180.0 / height.max(1) as f64;
    let (mut tones, mut grainy) = (
        Vec::with_capacity(width * height),
        Vec::with_capacity(width * height),
    );
    for y in 0..height {
        for x in 0..width {
            // four points a cell, so that edges are not stairs
            let (mut sum, mut grain) = (0.0, true);
            for (dx, dy) in [(0.25, 0.25), (0.75, 0.25), (0.25, 0.75), (0.75, 0.75)] {
                let (t, g) = tone(seed, (x as f64 + dx) * step, (y as f64 + dy) * step);
                sum += t / 4.0;
                grain &= g;
            }
            let marked = mark(x, y, width, height);
            tones.push(marked.unwrap_or(sum));
            grainy.push(grain && marked.is_none());
        }
    }
    let samples = tones
        .iter()
        .zip(&grainy)
        .enumerate()
        .map(|(k, (t, g))| {
            let (x, y) = (k % width, k / width);
            let grain = if *g {
                7.0 * (hashed(seed + 90, x as i64, y as i64) - 0.5)
            } else {
                0.0
            };
            (t + grain + 0.5).floor().clamp(0.0, 255.0) as u8
        })
        .collect();
    Frame {
        width,
        height,
        samples,
    }
}

#[cfg(test)]
mod tests {
    use super::*;
    use std::path::Path;

    #[test]
    fn the_shipped_frame_is_this_program_s() {
        let path = Path::new(env!("CARGO_MANIFEST_DIR")).join("../../frames/coast.pgm");
        let there = std::fs::read(path).unwrap();
        assert!(
            there == shipped().to_pgm(),
            "make it again: cargo run -p coast -- ../frames/coast.pgm"
        );
    }

    #[test]
    fn the_open_sea_is_flat() {
        let f = shipped();
        let at = |x: usize, y: usize| f.samples[y * f.width + x];
        assert!((60..200).all(|y| (270..319).all(|x| at(x, y) == SEA)));
    }

    #[test]
    fn every_shape_is_made() {
        for (w, h) in [(1, 1), (1, 40), (27, 26), (300, 3)] {
            assert_eq!(frame(w, h, 1).samples.len(), w * h);
        }
    }
}
