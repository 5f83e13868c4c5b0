//! What `assign_orientations` is handed, and the table of refusals for it (rules A3 and A9).

use crate::Rng;
use crate::detection::BEFORE;
use crate::picture::{self, Picture, misshape, scale, spoil};

/// The keypoint has ten words where it is whole.
#[derive(Clone, Debug)]
pub struct Case {
    pub picture: Picture,
    pub keypoint: Vec<u32>,
}

fn float(w: u32) -> f32 {
    f32::from_bits(w)
}

pub fn accepted(r: &mut Rng) -> Case {
    let picture = picture::picture(r);
    let (row, column) = (r.below(picture.height), r.below(picture.width));
    let octave = if r.one_in(2) { 0 } else { r.below(16) as u32 };
    let times = (1u32 << octave) as f32;
    let (layer, code) = (r.from_to(1, 15) as u32, r.below(256) as u32);
    let off = |r: &mut Rng, at: usize| (at as f32 + 0.49 * r.signed() as f32) * times;
    let keypoint = vec![
        off(r, column).to_bits(),
        off(r, row).to_bits(),
        (scale(r) * 2.0 * times).to_bits(),
        (r.unit() as f32).to_bits(),
        octave | layer << 8 | code << 16,
        // layer and moves are free
        if r.one_in(4) { r.word() as u32 } else { layer },
        (0.5 * r.signed() as f32).to_bits(),
        column as u32,
        row as u32,
        if r.one_in(4) {
            r.word() as u32
        } else {
            r.below(5) as u32
        },
    ];
    Case { picture, keypoint }
}

/// One thing about the case is changed; it may still be accepted.
pub fn damage(r: &mut Rng, c: &mut Case) {
    let p = &mut c.picture;
    match r.below(9) {
        0..4 => misshape(r, p),
        4 => {
            if r.one_in(2) {
                c.keypoint.pop();
            } else {
                c.keypoint.push(0);
            }
        }
        5 | 6 => {
            let k = r.pick(&[0, 1, 2, 3, 4, 6, 7, 8]);
            let octave = c.keypoint[4] & 0xff;
            let times = 2.0 * (1u32 << (octave & 15)) as f32;
            c.keypoint[k] = match k {
                2 => {
                    let at = r.pick(&[
                        0.125,
                        0.125f32.next_down(),
                        64.0,
                        64.0f32.next_up(),
                        0.0,
                        -1.0,
                        f32::NAN,
                        f32::INFINITY,
                    ]);
                    (at * times).to_bits()
                }
                4 => r.pick(&[
                    0x0000_0110,
                    0x0000_0000,
                    0x0000_1000,
                    0x0100_0100,
                    0x00ff_0f0f,
                ]),
                7 => r.pick(&[p.width as u32, u32::MAX, 0]),
                8 => r.pick(&[p.height as u32, u32::MAX, 0]),
                _ => r.pick(&[
                    0x7f80_0000,
                    0xff80_0000,
                    0x7fc0_0000,
                    0x7f80_0001,
                    0xffff_ffff,
                ]),
            };
        }
        _ => {
            let (row, column) = (c.keypoint[8] as usize, c.keypoint[7] as usize);
            if p.width * p.height == p.samples.len() {
                spoil(r, p, row.min(p.height - 1), column.min(p.width - 1));
            }
        }
    }
}

/// size × 0.5 / 2^octave
pub fn scale_of(keypoint: &[u32]) -> f32 {
    float(keypoint[2]) * 0.5 / (1u64 << (keypoint[4] & 0xff)) as f32
}

/// The cells of the window that are not on the picture's edge, row by row.
pub fn cells(c: &Case) -> Vec<(usize, usize)> {
    let k = &c.keypoint;
    let radius = (4.5 * scale_of(k)).round_ties_even() as i64;
    let about = |at: u32, side: usize| {
        let at = i64::from(at);
        (at - radius..=at + radius).filter(move |&v| 0 < v && v < side as i64 - 1)
    };
    about(k[8], c.picture.height)
        .flat_map(|y| about(k[7], c.picture.width).map(move |x| (y as usize, x as usize)))
        .collect()
}

fn keypoint_wrong(c: &Case) -> bool {
    let k = &c.keypoint;
    if k.len() != 10 {
        return true;
    }
    let floats = [k[0], k[1], k[2], k[3], k[6]];
    let [octave, layer, _, above] = k[4].to_le_bytes();
    floats.iter().any(|&w| !float(w).is_finite())
        || octave > 15
        || !(1..=15).contains(&layer)
        || above != 0
        || k[7] as usize >= c.picture.width
        || k[8] as usize >= c.picture.height
        || !(0.125..=64.0).contains(&scale_of(k))
}

/// The number that `assign_orientations` gives before it looks at its room.
pub fn fault(c: &Case) -> u32 {
    picture::fault(&c.picture, || keypoint_wrong(c), || cells(c))
}

/// The answer that is right for so many words lent.
#[derive(Debug, PartialEq)]
pub struct Expected {
    pub number: u32,
    pub count: usize,
    /// The cells read.
    pub samples: usize,
    /// All the lent words afterwards.
    pub out: Vec<u32>,
}

/// The table decides on refusals; of a case that it accepts, `assign` gives the oriented keypoints and the cells read.
pub fn expected(
    c: &Case,
    room: usize,
    assign: impl FnOnce(&Picture, &[u32; 10]) -> (Vec<[u32; 6]>, usize),
) -> Expected {
    let mut out = vec![BEFORE; room];
    let refused = |number, count, out| Expected {
        number,
        count,
        samples: 0,
        out,
    };
    let fault = fault(c);
    if fault != 0 {
        return refused(fault, 0, out);
    }
    let (found, samples) = assign(&c.picture, c.keypoint.as_slice().try_into().unwrap());
    let (count, words) = (found.len(), found.as_flattened());
    if words.len() > room {
        return refused(7, count, out);
    }
    out[..words.len()].copy_from_slice(words);
    Expected {
        number: 0,
        count,
        samples,
        out,
    }
}
