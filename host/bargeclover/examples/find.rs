//! Finds the one keypoint of a small stack: `cargo run --example find` in `host/`.

use bargeclover::{Refusal, Settings, Stack, find_extrema};

fn main() -> Result<(), Refusal> {
    // three planes of 11 x 11 zeros, and 100 in the middle of the middle one
    let mut samples = vec![0.0; 3 * 11 * 11];
    samples[11 * 11 + 5 * 11 + 5] = 100.0;
    let stack = Stack {
        samples: &samples,
        width: 11,
        height: 11,
        planes: 3,
    };
    let settings = Settings {
        layers: 1,
        ..Settings::default()
    };
    for k in find_extrema(&stack, 1, 0, &settings)? {
        println!(
            "x {}, y {}, size {}, response {}, octave word {}, moves {}",
            k.x, k.y, k.size, k.response, k.octave, k.moves
        );
    }
    Ok(())
}
