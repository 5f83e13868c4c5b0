//! `find_extrema` by cell.

use crate::timing::medians;
use bargeclover::{Settings, Stack, entries};
use cases::Rng;
use oracle::Search;

const WIDTH: usize = 640;
const HEIGHT: usize = 480;
const PLANES: usize = 5;
const LAYER: usize = 2;
const ROUNDS: usize = 15;

/// Independent noise in every plane.
fn noise(r: &mut Rng, height: usize, size: f64) -> Vec<f32> {
    (0..WIDTH * height * PLANES)
        .map(|_| (size * r.signed()) as f32)
        .collect()
}

/// A picture, blurred along rows and columns.
fn blurred(picture: &[f64], sigma: f64) -> Vec<f64> {
    let reach = (sigma * 4.0).ceil() as isize;
    let weights: Vec<f64> = (-reach..=reach)
        .map(|d| (-(d * d) as f64 / (2.0 * sigma * sigma)).exp())
        .collect();
    let all: f64 = weights.iter().sum();
    let pass = |from: &[f64], along: bool| -> Vec<f64> {
        let at = |y: usize, x: usize, d: isize| {
            let (side, v) = if along { (WIDTH, x) } else { (HEIGHT, y) };
            let v = v.saturating_add_signed(d).min(side - 1);
            if along { y * WIDTH + v } else { v * WIDTH + x }
        };
        let cell = |k: usize| {
            let (y, x) = (k / WIDTH, k % WIDTH);
            let taps = (-reach..=reach).zip(&weights);
            taps.map(|(d, w)| w * from[at(y, x, d)]).sum::<f64>() / all
        };
        (0..WIDTH * HEIGHT).map(cell).collect()
    };
    pass(&pass(picture, true), false)
}

/// Difference planes as the source's pyramid has them: of blurs by 1.6 * 2^(i / 3).
fn differences(picture: &[f64]) -> Vec<f32> {
    let blurs: Vec<Vec<f64>> = (0..=PLANES)
        .map(|i| blurred(picture, 1.6 * 2f64.powf(i as f64 / 3.0)))
        .collect();
    let planes = blurs.windows(2);
    planes
        .flat_map(|p| p[1].iter().zip(&p[0]).map(|(a, b)| (a - b) as f32))
        .collect()
}

/// Fields: rectangles of 255 grey levels, one over the other.
fn fields(r: &mut Rng) -> Vec<f64> {
    let mut picture = vec![128.0; WIDTH * HEIGHT];
    for _ in 0..400 {
        let (x, y) = (r.below(WIDTH), r.below(HEIGHT));
        let (w, h) = (r.from_to(4, 80), r.from_to(4, 80));
        let grey = 255.0 * r.unit();
        for row in y..(y + h).min(HEIGHT) {
            picture[row * WIDTH + x..row * WIDTH + (x + w).min(WIDTH)].fill(grey);
        }
    }
    picture
}

pub fn print() {
    let mut r = Rng::new(7);
    let grain: Vec<f64> = (0..WIDTH * HEIGHT).map(|_| 255.0 * r.unit()).collect();
    let stacks = [
        (
            "differences of blurs, of a picture of grain",
            differences(&grain),
        ),
        (
            "differences of blurs, of a picture of fields",
            differences(&fields(&mut r)),
        ),
        (
            "noise below the threshold: no cell is a candidate",
            noise(&mut r, HEIGHT, 0.9),
        ),
        (
            "noise, independent in every plane: one cell in 15 is a candidate",
            noise(&mut r, HEIGHT, 200.0),
        ),
        ("the same, 50 rows of it", noise(&mut r, 50, 200.0)),
    ];
    let settings = Settings::default();
    let threshold = f32::from_bits(entries::threshold(settings.contrast, settings.layers).1);
    println!("### Detection\n");
    println!(
        "`find_extrema`, one layer of {WIDTH} x {HEIGHT} x {PLANES}; nanoseconds for each searched cell.\n"
    );
    println!("| stack | above the threshold | keypoints | library | published Rust | ratio |");
    println!("|---|---|---|---|---|---|");
    for (name, samples) in &stacks {
        let size = samples.len() / PLANES;
        let stack = Stack {
            samples,
            width: WIDTH,
            height: size / WIDTH,
            planes: PLANES,
        };
        let cells = ((WIDTH - 10) * (stack.height - 10)) as f64;
        let plane = &samples[LAYER * size..(LAYER + 1) * size];
        let loud = plane.iter().filter(|x| x.abs() > threshold).count();
        let mut words = vec![0u32; 1 << 20];
        let mut search = Search::default();
        let mut ours = || entries::find_extrema(&stack, LAYER, 0, &settings, &mut words).1 as u64;
        let mut theirs = || search.run(&stack, LAYER, 0, &settings) as u64;
        let found = ours();
        assert_eq!(found, theirs());
        let [a, b] = medians(ROUNDS, [&mut ours, &mut theirs]);
        println!(
            "| {name} | {:.0} % | {found} | {:.1} | {:.1} | {:.2} |",
            100.0 * loud as f64 / plane.len() as f64,
            a / cells,
            b / cells,
            a / b
        );
    }
    println!();
    check(&settings);
}

/// The test of the samples alone: a stack 10 wide has no cell to search.
fn check(settings: &Settings) {
    let (width, height) = (10, 8192);
    let mut r = Rng::new(8);
    let samples: Vec<f32> = (0..width * height * PLANES)
        .map(|_| r.signed() as f32)
        .collect();
    let stack = Stack {
        samples: &samples,
        width,
        height,
        planes: PLANES,
    };
    let mut run = || u64::from(entries::find_extrema(&stack, LAYER, 0, settings, &mut []).0);
    let [t] = medians(ROUNDS, [&mut run]);
    println!(
        "Of this the test of the samples takes {:.2} for each cell of {PLANES} planes.\n",
        t / (width * height) as f64
    );
}
