//! The record of a keypoint, a direction and a descriptor a second time, with its refusals, and inputs that try it, whole and damaged.
//! The published Rust has no record.

use crate::Rng;
use crate::sheet::float;

pub const WORDS: usize = 139;

/// What the library is handed. A damaged case may have any number anywhere.
#[derive(Clone, Debug)]
pub struct Case {
    pub keypoint: Vec<u32>,
    pub oriented: Vec<u32>,
    pub values: Vec<f32>,
    pub samples: usize,
}

/// Why a case is refused before its room is looked at; where several hold, the first.
#[derive(Clone, Copy, Debug, PartialEq, Eq)]
pub enum Reason {
    /// The keypoint, the oriented one and the values are not as many words as they have to be.
    KeypointLength,
    OrientedLength,
    ValuesLength,
    /// A float of the keypoint or of the oriented one is a not-a-number.
    KeypointNan,
    OrientedNan,
    /// The two are not of one keypoint: their octave words, or their floats.
    OtherOctave,
    OtherX,
    OtherY,
    OtherSize,
    OtherResponse,
    /// The fields of the record.
    Row,
    Column,
    Octave,
    Layer,
    Code,
    X,
    Y,
    Size,
    Response,
    Angle,
    /// Of the values: below 0, above 255, a fraction, or no number.
    Negative,
    Large,
    Fraction,
    ValueNan,
    /// No samples, and a value that is not 0.
    Unread,
}

impl Reason {
    pub const ALL: [Reason; 25] = [
        Reason::KeypointLength,
        Reason::OrientedLength,
        Reason::ValuesLength,
        Reason::KeypointNan,
        Reason::OrientedNan,
        Reason::OtherOctave,
        Reason::OtherX,
        Reason::OtherY,
        Reason::OtherSize,
        Reason::OtherResponse,
        Reason::Row,
        Reason::Column,
        Reason::Octave,
        Reason::Layer,
        Reason::Code,
        Reason::X,
        Reason::Y,
        Reason::Size,
        Reason::Response,
        Reason::Angle,
        Reason::Negative,
        Reason::Large,
        Reason::Fraction,
        Reason::ValueNan,
        Reason::Unread,
    ];
}

/// None where the case is accepted. All of them are number 5.
pub fn reason(c: &Case) -> Option<Reason> {
    let [x, y, size, response, octave, _, xi, column, row, _] = c.keypoint[..] else {
        return Some(Reason::KeypointLength);
    };
    let [ox, oy, osize, oresponse, ooctave, angle] = c.oriented[..] else {
        return Some(Reason::OrientedLength);
    };
    let float = |b: u32| f32::from_bits(b);
    let nan = |all: &[u32]| all.iter().any(|&b| float(b).is_nan());
    let positive = |b: u32| float(b).is_finite() && float(b).is_sign_positive();
    let [low, second, _, top] = octave.to_le_bytes();
    let value = |wrong: fn(f32) -> bool| c.values.iter().any(|&v| wrong(v));
    let lines = [
        (Reason::ValuesLength, c.values.len() != 128),
        (Reason::KeypointNan, nan(&[x, y, size, response, xi])),
        (Reason::OrientedNan, nan(&[ox, oy, osize, oresponse, angle])),
        (Reason::OtherOctave, octave != ooctave),
        (Reason::OtherX, x != ox),
        (Reason::OtherY, y != oy),
        (Reason::OtherSize, size != osize),
        (Reason::OtherResponse, response != oresponse),
        (Reason::Row, row >= 8192),
        (Reason::Column, column >= 8192),
        (Reason::Octave, low >= 16),
        (Reason::Layer, second == 0 || second >= 16),
        // the code is the third byte where the fourth is 0, and else more than a byte
        (Reason::Code, top != 0),
        (Reason::X, !positive(ox)),
        (Reason::Y, !positive(oy)),
        (Reason::Size, !positive(osize) || float(osize) <= 0.0),
        (Reason::Response, !positive(oresponse)),
        (Reason::Angle, !positive(angle) || float(angle) >= 360.0),
        (Reason::Negative, value(|v| v < 0.0)),
        (Reason::Large, value(|v| v > 255.0)),
        (
            Reason::Fraction,
            value(|v| (0.0..=255.0).contains(&v) && v.fract() != 0.0),
        ),
        (Reason::ValueNan, value(f32::is_nan)),
        (Reason::Unread, c.samples == 0 && value(|v| v != 0.0)),
    ];
    lines.iter().find(|l| l.1).map(|l| l.0)
}

/// The words of an accepted case.
pub fn made(c: &Case) -> [u32; WORDS] {
    let (k, o) = (&c.keypoint, &c.oriented);
    let bytes = k[4].to_le_bytes().map(u32::from);
    let mut all = vec![k[8], k[7], bytes[0], bytes[1], bytes[2]];
    all.extend([o[0], o[1], o[2], o[3], o[5]]);
    all.extend(c.values.iter().map(|v| *v as u32));
    all.push(u32::from(c.samples == 0));
    all.try_into().unwrap()
}

/// The answer that is right for so many words lent: the number, and all the lent words afterwards.
pub fn expected(c: &Case, before: u32, room: usize) -> (u32, Vec<u32>) {
    if reason(c).is_some() {
        (5, vec![before; room])
    } else if room != WORDS {
        (7, vec![before; room])
    } else {
        (0, made(c).to_vec())
    }
}

/// The least, the largest, or any between them.
fn edge(r: &mut Rng, least: usize, largest: usize) -> u32 {
    match r.below(4) {
        0 => least as u32,
        1 => largest as u32,
        _ => r.from_to(least, largest) as u32,
    }
}

/// A case that is accepted: read and not, level and not, with zeros of both signs.
pub fn accepted(r: &mut Rng) -> Case {
    let octave = edge(r, 0, 15) | edge(r, 1, 15) << 8 | edge(r, 0, 255) << 16;
    let [x, y, response] = [(); 3].map(|()| float(r));
    let size = float(r).max(1);
    let xi = match r.below(5) {
        0 => r.pick(&[0x7f80_0000, 0xff80_0000]),
        1 => 0x8000_0000,
        _ => (r.signed() as f32).to_bits(),
    };
    let free = |r: &mut Rng| match r.below(3) {
        0 => r.word() as u32,
        _ => r.below(5) as u32,
    };
    let keypoint = vec![
        x,
        y,
        size,
        response,
        octave,
        free(r),
        xi,
        edge(r, 0, 8191),
        edge(r, 0, 8191),
        free(r),
    ];
    let angle = match r.below(4) {
        0 => 0,
        1 => 360f32.next_down().to_bits(),
        _ => ((r.unit() * 359.9) as f32).to_bits(),
    };
    let oriented = vec![x, y, size, response, octave, angle];
    let mut values = vec![0.0; 128];
    match r.below(4) {
        0 => {}
        1 => values[r.below(128)] = r.below(2) as f32,
        _ => values.iter_mut().for_each(|v| *v = edge(r, 0, 255) as f32),
    }
    let level = values.iter().all(|&v| v == 0.0);
    if r.one_in(2) {
        for v in values.iter_mut().filter(|v| **v == 0.0) {
            *v = r.pick(&[0.0, -0.0]);
        }
    }
    let samples = match r.below(4) {
        0 | 1 if level => 0,
        2 => r.pick(&[1, 1 << 32, usize::MAX]),
        _ => r.from_to(1, 2000),
    };
    Case {
        keypoint,
        oriented,
        values,
        samples,
    }
}

/// A not-a-number: quiet or signalling, of either sign.
fn nan(r: &mut Rng) -> u32 {
    r.pick(&[0x7fc0_0000, 0x7f80_0001, 0xffc0_0000, 0xff80_0001, u32::MAX])
}

/// A list is made one longer or one shorter, or emptied, or cut anywhere.
fn another_length<T: Copy>(r: &mut Rng, list: &mut Vec<T>) {
    match r.below(4) {
        0 => list.clear(),
        1 => list.truncate(r.below(list.len() + 1)),
        2 => list.extend(list.first().copied()),
        _ => _ = list.pop(),
    }
}

/// One thing is changed, in the keypoint and the oriented one alike where both have it; it may still be accepted.
pub fn damage(r: &mut Rng, c: &mut Case) {
    let kind = r.below(11);
    if kind == 0 {
        match r.below(3) {
            0 => another_length(r, &mut c.keypoint),
            1 => another_length(r, &mut c.oriented),
            _ => another_length(r, &mut c.values),
        }
        return;
    }
    let (k, o) = (&mut c.keypoint[..], &mut c.oriented[..]);
    if k.len() < 10 || o.len() < 6 || c.values.is_empty() {
        return;
    }
    match kind {
        1 => k[r.pick(&[0, 1, 2, 3, 6])] = nan(r),
        2 => o[r.pick(&[0, 1, 2, 3, 5])] = nan(r),
        // the two are a bit apart
        3 => o[r.below(5)] ^= 1 << r.below(32),
        4 => k[r.below(5)] ^= 1 << r.below(32),
        5 => k[r.pick(&[7, 8])] = r.pick(&[8191, 8192, 1 << 16, 1 << 31, u32::MAX]),
        6 => {
            let word = match r.below(5) {
                // octave, layer, and code
                0 => k[4] & !0xff | r.from_to(15, 255) as u32,
                1 => k[4] & !0xff00 | r.pick(&[0, 15, 16, 17, 255]) << 8,
                2 => k[4] | edge(r, 1, 255) << 24,
                3 => 1 << r.below(32),
                _ => r.word() as u32,
            };
            (k[4], o[4]) = (word, word);
        }
        7 => {
            let at = r.below(4);
            let word = r.pick(&[0, 0x8000_0000, 0x7f80_0000, 0xff80_0000, 0xbf80_0000]);
            (k[at], o[at]) = (word, word);
        }
        8 => {
            let at = [360.0, f32::INFINITY, -0.0, -1.0, f32::MAX];
            let angle = if r.one_in(5) {
                360f32.next_up()
            } else {
                r.pick(&at)
            };
            o[5] = angle.to_bits();
        }
        9 => {
            let at = r.below(c.values.len());
            c.values[at] = match r.below(6) {
                0 => f32::from_bits(nan(r)),
                1 => r.pick(&[0.5, 254.5, 1e-30, f32::from_bits(1), 1f32.next_down()]),
                2 => r.pick(&[-1.0, -0.5, -f32::from_bits(1), f32::NEG_INFINITY]),
                3 => r.pick(&[256.0, 255.5, 255f32.next_up(), 1e30, f32::INFINITY]),
                4 => r.pick(&[255.0, 1.0, 0.0, -0.0]),
                _ => (300.0 * r.signed()) as f32,
            };
        }
        _ => c.samples = 0,
    }
}
