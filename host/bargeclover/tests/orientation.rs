//! Orientation through the wrapper: a ramp has one direction, a level picture none, and what is refused.

use bargeclover::{Keypoint, Picture, Refusal, assign_orientations};

fn keypoint() -> Keypoint {
    Keypoint {
        x: 10.0,
        y: 10.0,
        size: 3.2,
        response: 0.1,
        octave: 0x0080_0100,
        layer: 1,
        xi: 0.0,
        column: 10,
        row: 10,
        moves: 0,
    }
}

fn picture(samples: &[f32]) -> Picture<'_> {
    Picture {
        samples,
        width: 21,
        height: 21,
    }
}

#[test]
fn one_direction_or_none() {
    let ramp: Vec<f32> = (0..21 * 21).map(|k| (k % 21) as f32).collect();
    let found = assign_orientations(&picture(&ramp), &keypoint()).unwrap();
    assert_eq!(found.list.len(), 1);
    assert_eq!((found.list[0].angle, found.list[0].x), (0.0, 10.0));
    // radius 4.5 * 1.6 rounded is 7
    assert_eq!(found.samples, 15 * 15);
    let level = [5.0; 21 * 21];
    let none = assign_orientations(&picture(&level), &keypoint()).unwrap();
    assert_eq!((none.list.len(), none.samples), (0, 15 * 15));
}

#[test]
fn refusals() {
    let mut samples = [5.0; 21 * 21];
    let outside = Keypoint {
        column: 21,
        ..keypoint()
    };
    let told = assign_orientations(&picture(&samples), &outside);
    assert_eq!(told, Err(Refusal::Field));
    samples[10 * 21 + 10] = f32::NAN;
    let told = assign_orientations(&picture(&samples), &keypoint());
    assert_eq!(told, Err(Refusal::Sample));
    // a corner that no cell of the window has beside it
    samples[10 * 21 + 10] = 5.0;
    samples[0] = f32::NAN;
    assert!(assign_orientations(&picture(&samples), &keypoint()).is_ok());
}
