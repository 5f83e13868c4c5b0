//! The list of `run_descriptor`, little-endian, all words u32: the mark 0x42434C33 and the number of cases; then each case: width
//! and height; x, y, scale and angle by their bits; the values lent, the number, the count and the samples used; the height × width
//! samples as f32; and the lent values as they stand after the call, by their bits, each 0xA5A5A5A5 before it. A case whose samples
//! are not as many as its shape says, or a not-a-number among its places, can't be told in this form, so number 3 is not in the list.

use crate::list::List;
use crate::pictures;
use cases::Rng;
use cases::descriptor::{self, Case, VALUES, accepted, damage};
use cases::orientation::Expected;
use cases::picture::Picture;
use std::path::Path;

const MARK: u32 = 0x4243_4c33;
/// Of each reason at least so many cases, and of all at least so many.
const EACH: usize = 10;
const LEAST: u32 = 260;
/// Of the cases drawn at random; a side of 8,193 is beyond this.
const MOST_SAMPLES: usize = 1_000;

fn answer(c: &Case, room: usize) -> Expected {
    descriptor::expected(c, room, |p, at| {
        oracle::compute_descriptor(&p.samples, p.width, p.height, at)
    })
}

fn case(list: &mut List, c: &Case, room: usize) {
    let asked = [c.x, c.y, c.scale, c.angle].map(f32::to_bits);
    list.case(&c.picture, asked, room, answer(c, room));
}

/// What a case is in the list for.
fn reasons(c: &Case, room: usize) -> Vec<String> {
    let a = answer(c, room);
    let p = &c.picture;
    let mut all = vec![format!("number {}", a.number)];
    if a.number != 0 {
        return all;
    }
    all.push(format!("scale from 2^{}", c.scale.log2().floor()));
    all.push(if c.angle % 90.0 == 0.0 {
        format!("angle {}", c.angle.abs())
    } else {
        format!("quarter {}", (c.angle / 90.0).floor())
    });
    let zero = a.out.iter().all(|&v| v == 0);
    all.push(match (zero, a.samples) {
        (true, 0) => "no sample".into(),
        (true, _) => "a flat patch".into(),
        _ => format!("samples from 2^{}", a.samples.ilog2()),
    });
    if a.out.contains(&255f32.to_bits()) {
        all.push("a value held at 255".into());
    }
    if p.samples.iter().any(|&x| cases::table::sample(x)) {
        all.push("a bad sample that no cell used has beside it".into());
    }
    let shortest = p.width.min(p.height);
    if shortest <= 4 {
        all.push(format!("shortest side {shortest}"));
    }
    all
}

/// Whether the form can tell the case, and whether it is short.
fn tellable(c: &Case) -> bool {
    let at = [c.x, c.y, c.scale, c.angle];
    pictures::tellable(&c.picture, MOST_SAMPLES) && !at.iter().any(|v| v.is_nan())
}

fn next(r: &mut Rng) -> (Case, usize) {
    let mut c = accepted(r);
    if r.one_in(3) {
        damage(r, &mut c);
    }
    let room = if r.one_in(8) {
        r.pick(&[0, 1, 127, 129, 256])
    } else {
        VALUES
    };
    (c, room)
}

/// A place in the middle of a picture.
fn middle(picture: Picture, scale: f32) -> Case {
    Case {
        x: (picture.width / 2) as f32,
        y: (picture.height / 2) as f32,
        picture,
        scale,
        angle: 0.0,
    }
}

/// The picture of 2 × 2 of rule E10, pictures of a few cells, slopes along the axes and between them, and shapes that are refused.
fn drawn() -> Vec<Case> {
    let few = [2, 1, 3, 4].map(|n| pictures::made(n, n, |y, x| (y * 7 + x * 3) as f32));
    let slope = |(dx, dy)| pictures::made(25, 25, move |y, x| dx * x as f32 - dy * y as f32);
    let all = few.into_iter();
    let all = all.chain(pictures::slopes().into_iter().map(slope));
    let all = all.chain(pictures::refused());
    all.map(|p| middle(p, 1.6)).collect()
}

pub fn write(folder: &Path, seed: u64) {
    let mut r = Rng::new(seed);
    let counted = |what: &str, which: Vec<i32>| -> Vec<String> {
        which.iter().map(|w| format!("{what}{w}")).collect()
    };
    let named = [
        "no sample",
        "a flat patch",
        "a value held at 255",
        "a bad sample that no cell used has beside it",
    ];
    let wanted = [
        counted("number ", vec![0, 5, 6, 7]),
        counted("scale from 2^", (-3..3).collect()),
        counted("angle ", vec![0, 90, 180, 270, 360]),
        counted("quarter ", (0..4).collect()),
        counted("samples from 2^", (0..10).collect()),
        counted("shortest side ", (1..5).collect()),
        named.map(String::from).to_vec(),
    ];
    let mut list = List::new(wanted.concat(), EACH);
    for c in drawn() {
        case(&mut list, &c, VALUES);
    }
    while !list.whole() || list.cases < LEAST {
        let (c, room) = next(&mut r);
        if tellable(&c) && list.takes(reasons(&c, room)) {
            case(&mut list, &c, room);
        }
    }
    let cases = list.cases;
    let note = format!(
        "`cases.bin`: {cases} places of pictures with the answers of the published Rust (kornia-rs at 285a3cc7f0; our routines in place\n\
         of its own), and of the table of refusals (rule A2); `host/record/src/descriptor.rs` has its form. First the picture of\n\
         2 × 2 of rule E10, pictures of a few cells, slopes along the axes and between them, and shapes that are refused; then what is drawn at\n\
         random. Made in `host/` by\n\n    \
         cargo run --release -p record -- descriptor {seed}\n\n\
         Those drawn at random, by what they are in the list for:\n\n"
    );
    list.write(folder, MARK, &note);
}
