//! `compute_descriptor` by keypoint, beside the published Rust with its own routines.

use crate::timing::medians;
use bargeclover::{Aim, Picture, entries};
use cases::Rng;
use oracle::own::Describe;

const WIDTH: usize = 640;
const HEIGHT: usize = 480;
const ROUNDS: usize = 201;
/// Samples of a turn: short turns are seldom broken off where other work runs on the machine.
const SAMPLES: usize = 10_000;
const SCALES: [f32; 5] = [1.0, 1.6, 2.0, 3.2, 6.4];

pub fn print() {
    let mut r = Rng::new(9);
    let grain: Vec<f32> = (0..WIDTH * HEIGHT)
        .map(|_| (255.0 * r.unit()) as f32)
        .collect();
    let picture = Picture {
        samples: &grain,
        width: WIDTH,
        height: HEIGHT,
    };
    println!("### Descriptor\n");
    println!(
        "`compute_descriptor`, a picture of noise of {WIDTH} x {HEIGHT}, turned by any angle; nanoseconds for each sample used.\n"
    );
    println!("| scale | places | samples of each | library | published Rust | ratio |");
    println!("|---|---|---|---|---|---|");
    for scale in SCALES {
        // the patch is a square of 15 scales
        let places = SAMPLES.div_ceil((225.0 * scale * scale) as usize);
        let aims: Vec<Aim> = (0..places)
            .map(|_| Aim {
                x: (WIDTH as f64 * (0.2 + 0.6 * r.unit())) as f32,
                y: (HEIGHT as f64 * (0.2 + 0.6 * r.unit())) as f32,
                scale,
                angle: (360.0 * r.unit()) as f32,
            })
            .collect();
        let mut values = [0.0; 128];
        let mut ours = || {
            let each = aims.iter();
            each.map(|a| entries::compute_descriptor(&picture, a, &mut values).2 as u64)
                .sum()
        };
        let mut out = [0.0; 128];
        let mut describe = Describe::default();
        let mut theirs = || {
            let each = aims.iter();
            each.map(|a| {
                let at = [a.x, a.y, a.scale, a.angle];
                describe.run(&grain, WIDTH, HEIGHT, at, &mut out) as u64
            })
            .sum()
        };
        let used: u64 = ours();
        let [a, b] = medians(ROUNDS, [&mut ours, &mut theirs]);
        println!(
            "| {scale} | {places} | {} | {:.1} | {:.1} | {:.2} |",
            used as usize / places,
            a / used as f64,
            b / used as f64,
            a / b
        );
    }
    println!();
}
