//! What `compute_descriptor` and `descriptor_inputs` are handed, and the table of refusals for them (rules A3, A10 and A11).

use crate::Rng;
use crate::detection::BEFORE;
use crate::orientation::Expected;
use crate::picture::{self, Picture, misshape, scale, spoil};
use bargeclover::bits;

#[derive(Clone, Debug)]
pub struct Case {
    pub picture: Picture,
    pub x: f32,
    pub y: f32,
    pub scale: f32,
    /// In degrees.
    pub angle: f32,
}

pub fn accepted(r: &mut Rng) -> Case {
    let picture = picture::picture(r);
    let place = |r: &mut Rng, side: usize| match r.below(6) {
        0 => -0.5,
        1 => side as f32 - 1.0,
        2 => r.below(side) as f32 + 0.5,
        _ => (r.unit() * side as f64) as f32 - 0.5,
    };
    let inside = |v: f32, side: usize| {
        let at = v.round_ties_even();
        0.0 <= at && at < side as f32
    };
    let mut at = |side: usize| {
        loop {
            let v = place(r, side);
            if inside(v, side) {
                return v;
            }
        }
    };
    let (x, y) = (at(picture.width), at(picture.height));
    Case {
        picture,
        x,
        y,
        scale: scale(r),
        angle: match r.below(4) {
            0 => r.pick(&[0.0, 90.0, 180.0, 270.0, 360.0, -0.0]),
            1 => r.below(361) as f32,
            _ => (360.0 * r.unit()) as f32,
        },
    }
}

/// One thing about the case is changed; it may still be accepted.
pub fn damage(r: &mut Rng, c: &mut Case) {
    let odd = r.pick(&[f32::NAN, f32::INFINITY, f32::NEG_INFINITY, -1.0, 1e30]);
    let p = &mut c.picture;
    match r.below(9) {
        0..3 => misshape(r, p),
        3 => c.x = r.pick(&[p.width as f32 - 0.5, -0.5f32.next_up(), odd]),
        4 => c.y = r.pick(&[p.height as f32 - 0.5, -0.5f32.next_up(), odd]),
        5 => c.scale = r.pick(&[0.125f32.next_down(), 64.0f32.next_up(), odd]),
        6 => c.angle = r.pick(&[360.0f32.next_up(), -f32::from_bits(1), odd]),
        _ => {
            let at = |v: f32, side: usize| (v.max(0.0) as usize).min(side - 1);
            if p.width * p.height == p.samples.len() {
                let (row, column) = (at(c.y, p.height), at(c.x, p.width));
                spoil(r, p, row, column);
            }
        }
    }
}

/// The cells that the descriptor uses, row by row, with the row clipping of the source.
pub fn cells(c: &Case) -> Vec<(usize, usize)> {
    let (w, h) = (c.picture.width as i64, c.picture.height as i64);
    let [px, py] = [c.x, c.y].map(|v| v.round_ties_even() as i64);
    let wide = 3.0 * c.scale;
    let turn = |f: extern "C" fn(u32) -> u32| f32::from_bits(f(c.angle.to_bits())) / wide;
    let (cos, sin) = (turn(bits::cos), turn(bits::sin));
    let reach = (wide * std::f32::consts::SQRT_2 * 5.0 * 0.5).round_ties_even() as i64;
    let diagonal = ((w as f32) * (w as f32) + (h as f32) * (h as f32)).sqrt() as i64;
    let reach = reach.min(diagonal);
    let mut all = Vec::new();
    for i in (-reach).max(1 - py)..=reach.min(h - 2 - py) {
        let (isin, icos) = (i as f32 * sin, i as f32 * cos);
        // the run of the row: where both bins lie between -1 and 4
        let (mut lo, mut hi) = (-(reach as f32), reach as f32);
        for (slope, at) in [(sin, icos + 1.5), (cos, -(i as f32) * sin + 1.5)] {
            if slope == 0.0 {
                if !(at > -1.0 && at < 4.0) {
                    (lo, hi) = (1.0, 0.0);
                }
                continue;
            }
            let ends = [(-1.0 - at) / slope, (4.0 - at) / slope];
            let (first, last) = if slope > 0.0 {
                (ends[0], ends[1])
            } else {
                (ends[1], ends[0])
            };
            (lo, hi) = (lo.max(first), hi.min(last));
        }
        if lo > hi {
            continue;
        }
        let first = (lo.floor() as i64 - 1).max(-reach).max(1 - px);
        let last = (hi.ceil() as i64 + 1).min(reach).min(w - 2 - px);
        for j in first..=last {
            let column = j as f32 * cos - isin;
            let row = j as f32 * sin + icos;
            let bin = |v: f32| v + 2.0 - 0.5;
            if [row, column].iter().all(|&v| bin(v) > -1.0 && bin(v) < 4.0) {
                all.push(((py + i) as usize, (px + j) as usize));
            }
        }
    }
    all
}

fn place_wrong(c: &Case) -> bool {
    let outside = |v: f32, side: usize| {
        let at = f64::from(v.round_ties_even());
        !(v.is_finite() && 0.0 <= at && at <= side as f64 - 1.0)
    };
    outside(c.x, c.picture.width)
        || outside(c.y, c.picture.height)
        || !(0.125..=64.0).contains(&c.scale)
        || !(0.0..=360.0).contains(&c.angle)
}

/// The number that `compute_descriptor` gives before it looks at its room.
pub fn fault(c: &Case) -> u32 {
    picture::fault(&c.picture, || place_wrong(c), || cells(c))
}

/// The values of a descriptor.
pub const VALUES: usize = 128;

/// The table decides on refusals; of a case that it accepts, `describe` gives the values by their bits and the samples used. `out` is
/// what the lent values are afterwards, by their bits.
pub fn expected(
    c: &Case,
    room: usize,
    describe: impl FnOnce(&Picture, [f32; 4]) -> ([u32; VALUES], usize),
) -> Expected {
    let refused = |number, count| Expected {
        number,
        count,
        samples: 0,
        out: vec![BEFORE; room],
    };
    let fault = fault(c);
    if fault != 0 {
        return refused(fault, 0);
    }
    if room != VALUES {
        return refused(7, VALUES);
    }
    let (values, samples) = describe(&c.picture, [c.x, c.y, c.scale, c.angle]);
    Expected {
        number: 0,
        count: VALUES,
        samples,
        out: values.to_vec(),
    }
}

/// The number that `descriptor_inputs` gives before it looks at its room.
pub fn inputs_fault(oriented: &[u32], octave: i32) -> u32 {
    if !(0..=15).contains(&octave) {
        return 4;
    }
    let Ok(&[x, y, size, response, _, angle]) = <&[u32; 6]>::try_from(oriented) else {
        return 5;
    };
    let [x, y, size, response, angle] = [x, y, size, response, angle].map(f32::from_bits);
    let right = x.is_finite()
        && y.is_finite()
        && size.is_finite()
        && size >= 0.0
        && !response.is_nan()
        && (0.0..=360.0).contains(&angle);
    if right { 0 } else { 5 }
}
