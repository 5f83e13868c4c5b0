//! The list of `run_orient`, little-endian, all words u32: the mark 0x42434C32 and the number of cases; then each case: width and
//! height; the keypoint's ten words; the words lent, the number, the count and the cells read; the height × width samples as f32; and
//! the lent words as they stand after the call, each 0xA5A5A5A5 before it. A case whose samples are not as many as its shape says, or
//! whose keypoint has not ten words, can't be told in this form, so number 3 is not in the list.

use crate::list::List;
use crate::pictures;
use cases::Rng;
use cases::orientation::{self, Case, Expected, accepted, damage, scale_of};
use cases::picture::Picture;
use std::path::Path;

const MARK: u32 = 0x4243_4c32;
/// Of each reason at least so many cases, and of all at least so many.
const EACH: usize = 10;
const LEAST: u32 = 260;
/// Of the cases drawn at random; a side of 8,193 is beyond this.
const MOST_SAMPLES: usize = 1_000;

fn answer(c: &Case, room: usize) -> Expected {
    orientation::expected(c, room, |p, keypoint| {
        oracle::assign_orientations(&p.samples, p.width, p.height, keypoint)
    })
}

fn case(list: &mut List, c: &Case, room: usize) {
    let asked = c.keypoint.iter().copied();
    list.case(&c.picture, asked, room, answer(c, room));
}

/// How many cells lie between the keypoint's and the nearest edge, up to 6.
fn inset(c: &Case) -> usize {
    let (p, column, row) = (&c.picture, c.keypoint[7] as usize, c.keypoint[8] as usize);
    let all = [column, p.width - 1 - column, row, p.height - 1 - row, 6];
    *all.iter().min().unwrap()
}

/// How large the picture's samples are.
fn size(p: &Picture) -> &'static str {
    match p.samples.iter().fold(0.0f32, |a, x| a.max(x.abs())) {
        x if x < f32::MIN_POSITIVE => "subnormal",
        x if x < 1e-20 => "below 1e-20",
        x if x < 1.0 => "below 1",
        x if x < 1000.0 => "below 1000",
        _ => "up to 2^20",
    }
}

const SIZES: [&str; 5] = [
    "subnormal",
    "below 1e-20",
    "below 1",
    "below 1000",
    "up to 2^20",
];

/// What a case is in the list for.
fn reasons(c: &Case, room: usize) -> Vec<String> {
    let a = answer(c, room);
    let p = &c.picture;
    let mut all = vec![format!("number {}", a.number)];
    if orientation::fault(c) != 0 {
        return all;
    }
    let (peaks, n) = oracle::assign_orientations(
        &p.samples,
        p.width,
        p.height,
        c.keypoint.as_slice().try_into().unwrap(),
    );
    let least = scale_of(&c.keypoint).log2().floor() as i32;
    let shortest = p.width.min(p.height);
    all.push(format!("peaks {}", peaks.len()));
    all.push(format!("octave {}", c.keypoint[4] & 0xff));
    all.push(format!("scale from 2^{least}"));
    all.push(format!("cells from the edge {}", inset(c)));
    all.push(format!("samples {}", size(p)));
    all.push(format!("cells read, mod 4: {}", n % 4));
    if n == 0 {
        all.push("no cell read".into());
    }
    if shortest <= 4 {
        all.push(format!("shortest side {shortest}"));
    }
    if p.samples.iter().all(|x| *x == p.samples[0]) {
        all.push("a level picture".into());
    }
    if p.samples.iter().any(|&x| cases::table::sample(x)) {
        all.push("a bad sample that no cell read has beside it".into());
    }
    for k in &peaks {
        if f32::from_bits(k[5]) == 0.0 {
            all.push("an angle of 0".into());
        }
    }
    all
}

/// Whether the form can tell the case, and whether it is short.
fn tellable(c: &Case) -> bool {
    pictures::tellable(&c.picture, MOST_SAMPLES) && c.keypoint.len() == 10
}

fn next(r: &mut Rng) -> (Case, usize) {
    let mut c = accepted(r);
    if r.one_in(4) {
        // Scales of every size: the usual ones are small.
        let scale = 0.125 * 2f64.powf(9.0 * r.unit());
        let times = 2.0 * f64::from(1u32 << (c.keypoint[4] & 0xff));
        c.keypoint[2] = ((scale * times) as f32).to_bits();
    } else if r.one_in(3) {
        damage(r, &mut c);
    }
    (c, r.pick(&[0, 5, 6, 11, 12, 24, 108]))
}

/// A keypoint in the middle of a picture.
fn middle(width: usize, height: usize, size: f32, sample: impl Fn(usize, usize) -> f32) -> Case {
    let (column, row) = (width / 2, height / 2);
    let floats = [column as f32, row as f32, size, 1.0].map(f32::to_bits);
    let mut keypoint = floats.to_vec();
    keypoint.extend([0x100, 1, 0, column as u32, row as u32, 0]);
    Case {
        picture: pictures::made(width, height, sample),
        keypoint,
    }
}

/// Slopes along the axes and between them, pictures of a few cells, and shapes that are refused.
fn drawn() -> Vec<Case> {
    let slope = |(dx, dy)| middle(9, 9, 2.0, move |y, x| dx * x as f32 - dy * y as f32);
    let mut all: Vec<Case> = pictures::slopes().into_iter().map(slope).collect();
    all.extend([1, 2, 3, 4].map(|n| middle(n, n, 4.0, |y, x| (y * 7 + x * 3) as f32)));
    all.extend(pictures::refused().map(|picture| Case {
        picture,
        ..middle(1, 1, 2.0, |_, _| 0.0)
    }));
    all
}

pub fn write(folder: &Path, seed: u64) {
    let mut r = Rng::new(seed);
    let named = |what: &str, which: &[&str]| -> Vec<String> {
        which.iter().map(|w| format!("{what} {w}")).collect()
    };
    let counted = |what: &str, which: Vec<i32>| -> Vec<String> {
        which.iter().map(|w| format!("{what}{w}")).collect()
    };
    let wanted = [
        counted("number ", vec![0, 5, 6, 7]),
        counted("peaks ", (0..7).collect()),
        counted("octave ", (0..16).collect()),
        counted("scale from 2^", (-3..7).collect()),
        counted("cells from the edge ", (0..7).collect()),
        counted("cells read, mod 4: ", (0..4).collect()),
        counted("shortest side ", (1..5).collect()),
        named("samples", &SIZES),
        named("a", &["level picture"]),
        named("a bad", &["sample that no cell read has beside it"]),
        named("no", &["cell read"]),
    ];
    let mut list = List::new(wanted.concat(), EACH);
    for c in drawn() {
        case(&mut list, &c, 30);
    }
    while !list.whole() || list.cases < LEAST {
        let (c, room) = next(&mut r);
        if tellable(&c) && list.takes(reasons(&c, room)) {
            case(&mut list, &c, room);
        }
    }
    let cases = list.cases;
    let note = format!(
        "`cases.bin`: {cases} keypoints, each in a picture, with the answers of the published Rust (kornia-rs at 285a3cc7f0; our\n\
         routines in place of its own), and of the table of refusals (rule A2); `host/record/src/orientation.rs` has its form. First\n\
         slopes along the axes and between them, pictures of a few cells, and shapes that are refused; then what is drawn at random.\n\
         Made in `host/` by\n\n    \
         cargo run --release -p record -- orientation {seed}\n\n\
         Those drawn at random, by what they are in the list for:\n\n"
    );
    list.write(folder, MARK, &note);
}
