//! Stacks: the library's answer against the published Rust's where the stack is accepted, and against the table where it is not.

use crate::report::Report;
use bargeclover::entries;
use cases::detection::{self, BEFORE, Case, Kind, accepted, damage, dense, spikes};
use cases::fate::{Fate, fates};
use cases::{Rng, table};

fn told(c: &Case) -> String {
    let head = format!(
        "{} x {} x {}, layer {}, octave {}, {:?}",
        c.width, c.height, c.planes, c.layer, c.octave, c.settings
    );
    if c.samples.len() > 11 * 11 * 3 {
        return format!("{head}, {} samples", c.samples.len());
    }
    let words: Vec<String> = c
        .samples
        .iter()
        .map(|x| format!("{:x}", x.to_bits()))
        .collect();
    format!("{head}, samples {}", words.join(" "))
}

/// The answer that is right, for so many words lent: the number, the count, and all the lent words afterwards.
fn expected(c: &Case, room: usize) -> (u32, usize, Vec<u32>) {
    detection::expected(c, room, |c| {
        oracle::find_extrema(&c.stack(), c.layer, c.octave, &c.settings)
    })
}

fn answer(c: &Case, room: usize) -> (u32, usize, Vec<u32>) {
    let mut out = vec![BEFORE; room];
    let (number, count) =
        entries::find_extrema(&c.stack(), c.layer, c.octave, &c.settings, &mut out);
    (number, count, out)
}

/// The words of a keypoint of every cell that is searched.
fn every_cell(c: &Case) -> usize {
    let inner = |side: usize| side.saturating_sub(10);
    10 * inner(c.width) * inner(c.height)
}

/// The cells of so many keypoints are held.
const HELD: usize = 2048;

/// The ways that detection goes, by the room and the number of keypoints.
pub const WAYS: [&str; 7] = [
    "detection: room for every cell",
    "detection: no more keypoints than are held",
    "detection: as many keypoints as are held",
    "detection: one more than are held",
    "detection: more than are held, and too little room",
    "detection: more than are held, and exactly the room",
    "detection: more than are held, and room to spare",
];

fn way(c: &Case, room: usize, found: usize) -> &'static str {
    if room >= every_cell(c) {
        WAYS[0]
    } else if found < HELD {
        WAYS[1]
    } else if found == HELD {
        WAYS[2]
    } else if found == HELD + 1 {
        WAYS[3]
    } else if room < 10 * found {
        WAYS[4]
    } else if room == 10 * found {
        WAYS[5]
    } else {
        WAYS[6]
    }
}

/// Of the lent words the first that differs is told.
fn hold(r: &mut Report, c: &Case, room: usize) -> (u32, usize, Vec<u32>) {
    let (ours, theirs) = (answer(c, room), expected(c, room));
    let (here, there) = ((ours.0, ours.1), (theirs.0, theirs.1));
    r.same("find_extrema", &here, &there, || told(c));
    if let Some(k) = (0..room).find(|&k| ours.2[k] != theirs.2[k]) {
        let what = format!("word {k} of find_extrema");
        r.same(&what, &ours.2[k], &theirs.2[k], || told(c));
    }
    r.tried(format!("find_extrema answered {}", theirs.0));
    if matches!(theirs.0, 0 | 7) && every_cell(c) > 0 {
        r.tried(way(c, room, theirs.1));
    }
    ours
}

/// A keypoint's fields as numbers: zeros of both signs are one.
fn numbers(w: &[u32; 10]) -> [f64; 10] {
    let mut n = w.map(f64::from);
    for k in [0, 1, 2, 3, 6] {
        n[k] = f64::from(f32::from_bits(w[k]));
    }
    n
}

/// Demand 3: the stack and the turned stack have equally many keypoints in the same order, each field equal as a number.
fn turned_alike(r: &mut Report, c: &Case, a: &(u32, usize, Vec<u32>), b: &(u32, usize, Vec<u32>)) {
    let list = |(_, count, out): &(u32, usize, Vec<u32>)| -> Vec<[f64; 10]> {
        let (keypoints, _) = out.as_chunks();
        keypoints[..*count].iter().map(numbers).collect()
    };
    r.same("numbers of both signs", &a.0, &b.0, || told(c));
    if a.0 == 0 && b.0 == 0 {
        r.same("keypoints of both signs", &list(a), &list(b), || told(c));
    }
}

/// An accepted stack and its turned twin, with room, with room to spare or with too little.
fn stack(rng: &mut Rng, r: &mut Report, kind: Kind) {
    let c = accepted(rng, kind);
    let found = oracle::find_extrema(&c.stack(), c.layer, c.octave, &c.settings);
    let need = found.len() * 10;
    let told_fates = fates(&c.stack(), c.layer, &c.settings);
    for f in &told_fates {
        r.tried(format!("candidate: {f:?}"));
    }
    // The teller of fates is held to the Rust too: the kept ones, by their moves.
    let kept = told_fates.iter().filter_map(|f| match f {
        Fate::Kept(moves) => Some(*moves),
        _ => None,
    });
    let moves: Vec<u32> = found.iter().map(|k| k[9]).collect();
    r.same("fates", &kept.collect(), &moves, || told(&c));
    r.add("keypoints of accepted stacks", found.len() as u64);
    r.tried(format!("stack: {kind:?}"));
    let turned = c.turned();
    let spare = rng.below(25);
    let (a, b) = (hold(r, &c, need + spare), hold(r, &turned, need + spare));
    turned_alike(r, &c, &a, &b);
    if need > 0 && rng.one_in(4) {
        let short = rng.pick(&[0, 1, need / 2, need - 1, need - need.min(10)]);
        hold(r, &c, short);
    }
}

/// A stack and its turned twin: with exactly the room, with a word less, with room for twice as many, for every cell, and with a
/// word less than that.
fn by_room(r: &mut Report, c: &Case) {
    let turned = c.turned();
    let found = oracle::find_extrema(&c.stack(), c.layer, c.octave, &c.settings).len();
    let all = every_cell(c);
    for room in [10 * found, 10 * found - 1, 20 * found, all, all - 1] {
        let (a, b) = (hold(r, c, room), hold(r, &turned, room));
        turned_alike(r, c, &a, &b);
    }
    r.add("keypoints of dense stacks", found as u64);
}

/// Squares of noise, the larger with more keypoints than are held, and stacks with about as many as are held; a sample that is bad
/// only in the last row of such a stack is found too.
pub fn dense_stacks(rng: &mut Rng, r: &mut Report) {
    for side in [120, 300] {
        by_room(r, &dense(rng, side));
    }
    for many in [HELD - 1, HELD, HELD + 1, HELD + 46] {
        let mut c = spikes(many);
        let found = oracle::find_extrema(&c.stack(), c.layer, c.octave, &c.settings);
        r.same("lone bright cells", &found.len(), &many, || told(&c));
        by_room(r, &c);
        let last = c.samples.len() - 1;
        c.samples[last] = f32::NAN;
        hold(r, &c, 20 * many);
    }
}

fn damaged(rng: &mut Rng, r: &mut Report, kind: Kind) {
    let mut c = accepted(rng, kind);
    damage(rng, &mut c);
    if rng.one_in(3) {
        damage(rng, &mut c);
    }
    // Room is made for what the Rust finds only where the table lets it run.
    let room = rng.pick(&[0, 7, 40, 4096]);
    hold(r, &c, room);
    r.tried("damaged stack");
}

/// `many` accepted stacks, each with its turned twin, and half as many damaged ones.
pub fn stacks(rng: &mut Rng, many: u64, r: &mut Report) {
    for k in 0..many {
        let kind = Kind::ALL[(k % Kind::ALL.len() as u64) as usize];
        stack(rng, r, kind);
        if k % 2 == 0 {
            damaged(rng, r, kind);
        }
    }
}

pub fn thresholds(rng: &mut Rng, many: u64, r: &mut Report) {
    for _ in 0..many {
        let layers = match rng.below(4) {
            0 => rng.pick(&[0, 16, 17, usize::MAX, 1 << 32]),
            _ => rng.from_to(1, 15),
        };
        let contrast = match rng.below(4) {
            0 => f64::from_bits(rng.word()),
            1 => rng.pick(&[
                0.0,
                -0.0,
                1.0,
                1.0f64.next_up(),
                -f64::MIN_POSITIVE,
                f64::NAN,
            ]),
            // about a contrast where the floor steps
            2 => {
                let step = rng.below(128) as f64 / 255.0 * 2.0 * layers as f64;
                [step, step.next_up(), step.next_down()][rng.below(3)]
            }
            _ => rng.unit(),
        };
        let theirs = match table::threshold(contrast, layers) {
            0 => (0, oracle::threshold(contrast, layers).to_bits()),
            fault => (fault, 0),
        };
        let ours = entries::threshold(contrast, layers);
        r.same("threshold", &ours, &theirs, || {
            format!("of {contrast} and {layers}")
        });
    }
    r.add("threshold", many);
}
