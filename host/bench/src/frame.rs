//! The three stages on the planes of a frame, beside the published Rust with its own routines: what whoever takes the Rust gets.
//! Built for the processor at hand by `host/bench/here`, the Rust has the processor's fused operations.

use crate::timing::bests;
use bargeclover::{Aim, Oriented, Settings, entries};
use oracle::own;
use tool::pyramid::{Octave, Pyramid};

/// A tile that lies in the nearest caches, and a frame that does not.
pub const SIDES: [usize; 2] = [256, 1024];
pub const SEED: u64 = 7;
const ROUNDS: usize = 15;

/// A keypoint with the layer where it settled, and a direction's aim there.
struct Found {
    keypoints: Vec<(usize, [u32; 10])>,
    aims: Vec<(usize, Aim)>,
}

fn line(stage: &str, things: u64, what: &str, [ours, theirs]: [f64; 2]) {
    println!(
        "| {stage} | {things} {what} | {:.1} | {:.1} | {:.2} |",
        ours / things as f64,
        theirs / things as f64,
        ours / theirs
    );
}

/// The cells that are searched, of all layers.
fn cells(octave: &Octave, s: &Settings) -> u64 {
    (s.layers * (octave.width - 10) * (octave.height - 10)) as u64
}

/// Every layer of the octave: what the library finds, with room for exactly so many and with room to spare.
fn detection(octave: &Octave, s: &Settings) -> Vec<[u32; 10]> {
    let stack = octave.stack();
    let mut all = vec![0; 1 << 20];
    let counts: Vec<usize> = (1..=s.layers)
        .map(|l| entries::find_extrema(&stack, l, octave.number, s, &mut all).1)
        .collect();
    let mut words = Vec::new();
    for (i, count) in counts.iter().enumerate() {
        let mut exact = vec![0; 10 * count];
        entries::find_extrema(&stack, i + 1, octave.number, s, &mut exact);
        words.extend(exact);
    }
    let cells = cells(octave, s);
    let mut search = own::Search::default();
    for (room, lent) in [("room to spare", None), ("exact room", Some(&counts))] {
        let mut ours = || {
            let layer = |i: usize| {
                let end = lent.map_or(all.len(), |c| 10 * c[i]);
                let (_, n) =
                    entries::find_extrema(&stack, i + 1, octave.number, s, &mut all[..end]);
                n as u64
            };
            (0..s.layers).map(layer).sum()
        };
        let mut theirs = || {
            let layer = |l| search.run(&stack, l, octave.number, s) as u64;
            (1..=s.layers).map(layer).sum()
        };
        let times = bests(ROUNDS, [&mut ours, &mut theirs]);
        line(&format!("detection, {room}"), cells, "cells", times);
    }
    words
        .chunks_exact(10)
        .map(|k| k.try_into().unwrap())
        .collect()
}

/// The directions of keypoints, and how many cells were read for them.
fn found(octave: &Octave, keypoints: Vec<[u32; 10]>) -> (Found, usize) {
    let keypoints: Vec<_> = keypoints.into_iter().map(|k| (k[5] as usize, k)).collect();
    let mut aims = Vec::new();
    let mut read = 0;
    let mut words = [0; Oriented::MOST * Oriented::WORDS];
    for (layer, k) in &keypoints {
        let (_, count, samples) =
            entries::assign_orientations(&octave.picture(*layer), k, &mut words);
        read += samples;
        for o in words.chunks_exact(Oriented::WORDS).take(count) {
            let mut out = [0; 4];
            entries::descriptor_inputs(o, octave.number as i32, &mut out);
            let [x, y, scale, angle] = out.map(f32::from_bits);
            aims.push((*layer, Aim { x, y, scale, angle }));
        }
    }
    (Found { keypoints, aims }, read)
}

fn orientation(octave: &Octave, found: &Found) {
    let mut words = [0; Oriented::MOST * Oriented::WORDS];
    let mut ours = || {
        let each = found.keypoints.iter();
        each.map(|(l, k)| entries::assign_orientations(&octave.picture(*l), k, &mut words).2 as u64)
            .sum()
    };
    let mut orientation = own::Orientation::default();
    let mut theirs = || {
        let each = found.keypoints.iter();
        each.map(|(l, k)| {
            let p = octave.picture(*l);
            orientation.run(p.samples, p.width, p.height, k) as u64
        })
        .sum()
    };
    let cells = ours();
    line(
        "orientation",
        cells,
        "cells read",
        bests(ROUNDS, [&mut ours, &mut theirs]),
    );
}

fn descriptor(octave: &Octave, found: &Found) {
    let mut values = [0.0; 128];
    let mut ours = || {
        let each = found.aims.iter();
        each.map(|(l, a)| entries::compute_descriptor(&octave.picture(*l), a, &mut values).2 as u64)
            .sum()
    };
    let mut out = [0.0; 128];
    let mut describe = own::Describe::default();
    let mut theirs = || {
        let each = found.aims.iter();
        each.map(|(l, a)| {
            let p = octave.picture(*l);
            let at = [a.x, a.y, a.scale, a.angle];
            describe.run(p.samples, p.width, p.height, at, &mut out) as u64
        })
        .sum()
    };
    let used = ours();
    line(
        "descriptor",
        used,
        "samples used",
        bests(ROUNDS, [&mut ours, &mut theirs]),
    );
}

/// Octave 0 of a coast.
pub fn octave(side: usize, s: &Settings) -> Octave {
    let frame = coast::frame(side, side, SEED);
    let samples: Vec<f32> = frame.samples.iter().map(|&x| f32::from(x)).collect();
    Pyramid::new(&samples, side, side, s, false).next().unwrap()
}

/// Each stage of the library once, and what it was asked: for a program that counts instructions.
pub fn once() {
    let s = Settings::default();
    let octave = octave(SIDES[0], &s);
    let stack = octave.stack();
    let mut all = vec![0; 1 << 20];
    let mut keypoints = Vec::new();
    for l in 1..=s.layers {
        let (_, n) = entries::find_extrema(&stack, l, octave.number, &s, &mut all);
        keypoints.extend(
            all.chunks_exact(10)
                .take(n)
                .map(|k| <[u32; 10]>::try_from(k).unwrap()),
        );
    }
    let (found, read) = found(&octave, keypoints);
    let mut values = [0.0; 128];
    let each = found.aims.iter();
    let used: usize = each
        .map(|(l, a)| entries::compute_descriptor(&octave.picture(*l), a, &mut values).2)
        .sum();
    println!("find_extrema {} cells", cells(&octave, &s));
    println!("assign_orientations {read} cells read");
    println!("compute_descriptor {used} samples used");
}

fn frame(side: usize) {
    let settings = Settings::default();
    let octave = octave(side, &settings);
    println!("A coast of {side} x {side}:\n");
    println!("| stage | of | library | published Rust | ratio |");
    println!("|---|---|---|---|---|");
    let (found, _) = found(&octave, detection(&octave, &settings));
    orientation(&octave, &found);
    descriptor(&octave, &found);
    println!();
}

pub fn print() {
    println!("### The stages on a frame\n");
    println!(
        "Octave 0 of a coast, seed {SEED}, all layers; nanoseconds for each cell or sample, the best of {ROUNDS} rounds. The Rust calls its own routines.\n"
    );
    SIDES.into_iter().for_each(frame);
}
