//! The descriptor through the wrapper: the picture of 2 x 2 (rule E10), a flat patch, a ramp, and what is refused.

use bargeclover::{
    Aim, Oriented, Picture, Refusal, compute_descriptor, descriptor_inputs, entries,
};

fn picture(samples: &[f32], width: usize) -> Picture<'_> {
    Picture {
        samples,
        width,
        height: samples.len() / width,
    }
}

fn aim() -> Aim {
    Aim {
        x: 10.0,
        y: 10.0,
        scale: 1.6,
        angle: 0.0,
    }
}

#[test]
fn nothing_read_and_flat_are_told_apart() {
    let small = [1.0, 2.0, 3.0, 4.0];
    let at = Aim {
        x: 0.0,
        y: 1.0,
        ..aim()
    };
    let none = compute_descriptor(&picture(&small, 2), &at).unwrap();
    assert_eq!((none.samples, none.values), (0, [0.0; 128]));
    // zeros of both signs, in turn, are level too
    let zeros: Vec<f32> = (0..21 * 21)
        .map(|k| if k % 3 == 0 { -0.0 } else { 0.0 })
        .collect();
    for level in [vec![5.0; 21 * 21], zeros] {
        let flat = compute_descriptor(&picture(&level, 21), &aim()).unwrap();
        assert_eq!(flat.values.map(f32::to_bits), [0; 128]);
        assert!(flat.samples > 100);
    }
}

#[test]
fn a_refusal_leaves_every_bit() {
    // not-a-numbers with a sign and a payload
    let before: [u32; 128] = std::array::from_fn(|k| 0xffa0_0001 + k as u32);
    let level = [5.0; 21 * 21];
    let outside = Aim { x: 20.6, ..aim() };
    for (at, room, number) in [(outside, 128, 5), (aim(), 127, 7)] {
        let mut out = before.map(f32::from_bits);
        let told = entries::compute_descriptor(&picture(&level, 21), &at, &mut out[..room]);
        assert_eq!(told.0, number);
        assert_eq!(out.map(f32::to_bits), before);
    }
}

#[test]
fn a_ramp_has_one_direction() {
    let ramp: Vec<f32> = (0..21 * 21).map(|k| (k % 21) as f32).collect();
    let told = compute_descriptor(&picture(&ramp, 21), &aim()).unwrap();
    let whole = |v: &f32| v.fract() == 0.0 && (0.0..=255.0).contains(v);
    assert!(told.values.iter().all(whole));
    // each of the 16 cells has all its weight in the first of its eight slots
    for cell in told.values.chunks(8) {
        assert!(cell[0] > 0.0 && cell[1..].iter().all(|&v| v == 0.0));
    }
}

#[test]
fn inputs_are_halved_and_turned() {
    let o = Oriented {
        x: 20.0,
        y: 12.0,
        size: 8.0,
        response: 0.1,
        octave: 0x0080_0101,
        angle: 90.0,
    };
    let at = descriptor_inputs(&o, 1).unwrap();
    let expected = Aim {
        x: 10.0,
        y: 6.0,
        scale: 2.0,
        angle: 270.0,
    };
    assert_eq!(at, expected);
    let straight = Oriented { angle: 0.0, ..o };
    assert_eq!(descriptor_inputs(&straight, 1).unwrap().angle, 0.0);
    assert_eq!(descriptor_inputs(&o, 16), Err(Refusal::Settings));
    let turned = Oriented { angle: 361.0, ..o };
    assert_eq!(descriptor_inputs(&turned, 1), Err(Refusal::Field));
    assert_eq!(descriptor_inputs(&turned, -1), Err(Refusal::Settings));
    let no_number = Oriented {
        response: f32::NAN,
        ..o
    };
    assert_eq!(descriptor_inputs(&no_number, 1), Err(Refusal::Field));
}

#[test]
fn refusals() {
    let mut samples = [5.0; 21 * 21];
    let outside = Aim { x: 20.6, ..aim() };
    let told = compute_descriptor(&picture(&samples, 21), &outside);
    assert_eq!(told, Err(Refusal::Field));
    samples[10 * 21 + 10] = f32::NAN;
    let told = compute_descriptor(&picture(&samples, 21), &aim());
    assert_eq!(told, Err(Refusal::Sample));
    // a corner that no cell of the patch has beside it
    samples[10 * 21 + 10] = 5.0;
    samples[0] = f32::NAN;
    assert!(compute_descriptor(&picture(&samples, 21), &aim()).is_ok());
}
