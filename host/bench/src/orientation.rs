//! `assign_orientations` by keypoint, beside the published Rust with its own routines.

use crate::timing::medians;
use bargeclover::{Oriented, Picture, entries};
use cases::Rng;
use oracle::own::Orientation;

const WIDTH: usize = 640;
const HEIGHT: usize = 480;
const ROUNDS: usize = 201;
/// Cells of a turn: short turns are seldom broken off where other work runs on the machine.
const CELLS: usize = 10_000;
const SCALES: [f32; 4] = [1.0, 1.6, 3.2, 12.0];

/// Keypoints of one scale, away from the edges by their radius.
fn keypoints(r: &mut Rng, scale: f32) -> Vec<[u32; 10]> {
    let inset = (4.5 * scale).ceil() as usize + 1;
    let window = (2 * inset - 1).pow(2);
    (0..CELLS.div_ceil(window))
        .map(|_| {
            let column = r.from_to(inset, WIDTH - 1 - inset);
            let row = r.from_to(inset, HEIGHT - 1 - inset);
            let [x, y, size, response] =
                [column as f32, row as f32, 2.0 * scale, 0.1].map(f32::to_bits);
            let places = [column as u32, row as u32];
            [x, y, size, response, 0x100, 1, 0, places[0], places[1], 0]
        })
        .collect()
}

/// Waves, and noise.
fn pictures(r: &mut Rng) -> [(&'static str, Vec<f32>); 2] {
    let smooth = |y: usize, x: usize| {
        let (x, y) = (x as f64, y as f64);
        (60.0 * (x / 7.0).sin() * (y / 9.0).cos() + 40.0 * ((x + 2.0 * y) / 23.0).sin()) as f32
    };
    let cells = (0..WIDTH * HEIGHT).map(|k| (k / WIDTH, k % WIDTH));
    [
        ("waves", cells.map(|(y, x)| smooth(y, x)).collect()),
        (
            "noise",
            (0..WIDTH * HEIGHT)
                .map(|_| (255.0 * r.unit()) as f32)
                .collect(),
        ),
    ]
}

pub fn print() {
    let mut r = Rng::new(9);
    println!("### Orientation\n");
    println!(
        "`assign_orientations`, a picture of {WIDTH} x {HEIGHT}; nanoseconds for each cell read.\n"
    );
    println!(
        "| picture | scale | keypoints | cells of each | peaks | library | published Rust | ratio |"
    );
    println!("|---|---|---|---|---|---|---|---|");
    for (name, samples) in &pictures(&mut r) {
        for scale in SCALES {
            let picture = Picture {
                samples,
                width: WIDTH,
                height: HEIGHT,
            };
            let all = keypoints(&mut r, scale);
            let mut words = [0; Oriented::MOST * Oriented::WORDS];
            let mut cells = 0;
            let mut ours = || {
                cells = 0;
                let mut peaks = 0;
                for k in &all {
                    let (_, count, read) = entries::assign_orientations(&picture, k, &mut words);
                    peaks += count as u64;
                    cells += read;
                }
                peaks
            };
            let mut orientation = Orientation::default();
            let mut theirs = || {
                let each = all.iter();
                each.map(|k| orientation.run(samples, WIDTH, HEIGHT, k) as u64)
                    .sum()
            };
            let peaks = ours();
            let [a, b] = medians(ROUNDS, [&mut ours, &mut theirs]);
            println!(
                "| {name} | {scale} | {} | {} | {peaks} | {:.1} | {:.1} | {:.2} |",
                all.len(),
                cells / all.len(),
                a / cells as f64,
                b / cells as f64,
                a / b
            );
        }
    }
    println!();
}
