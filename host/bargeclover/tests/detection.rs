//! The marked examples of detection (rules E5 to E9), refusals in words, and room.

use bargeclover::{Refusal, Settings, Stack, bits, entries, find_extrema, threshold};

/// Three planes of zeros, 11 rows of `width`, and the middle cell of the middle one.
fn spike(width: usize, middle: f32) -> Vec<f32> {
    let mut samples = vec![0.0; 3 * 11 * width];
    samples[11 * width + 5 * width + 5] = middle;
    samples
}

fn stack(samples: &[f32], width: usize) -> Stack<'_> {
    Stack {
        samples,
        width,
        height: 11,
        planes: 3,
    }
}

fn one_layer() -> Settings {
    Settings {
        layers: 1,
        ..Settings::default()
    }
}

#[test]
fn thresholds() {
    assert_eq!(threshold(1.0, 1), Ok(127.0));
    assert_eq!(threshold(0.0, 1), Ok(0.0));
    assert_eq!(threshold(0.04, 3), Ok(1.0));
    assert_eq!(threshold(0.04, 1), Ok(5.0));
    assert_eq!(threshold(0.04, 0), Err(Refusal::Layers));
    assert_eq!(threshold(f64::NAN, 1), Err(Refusal::Settings));
    assert_eq!(threshold(2.0, 16), Err(Refusal::Layers));
}

#[test]
fn a_single_cell() {
    for (value, found) in [
        (100.0, 1),
        (-100.0, 1),
        (5.0, 0),
        (10.0, 0),
        (11.0, 1),
        (-11.0, 1),
    ] {
        let samples = spike(11, value);
        let list = find_extrema(&stack(&samples, 11), 1, 0, &one_layer()).unwrap();
        assert_eq!(list.len(), found, "{value}");
        for k in list {
            assert_eq!((k.x, k.y, k.moves, k.octave), (5.0, 5.0, 0, 8388864));
        }
    }
}

#[test]
fn small_planes_and_ties() {
    let samples = spike(10, 100.0);
    assert_eq!(
        find_extrema(&stack(&samples, 10), 1, 0, &one_layer()),
        Ok(vec![])
    );
    let tens = [10.0; 3 * 11 * 11];
    assert_eq!(
        find_extrema(&stack(&tens, 11), 1, 0, &one_layer()),
        Ok(vec![])
    );
}

#[test]
fn room_is_counted_first() {
    let samples = spike(11, 100.0);
    let s = stack(&samples, 11);
    for room in [0, 9] {
        let mut out = vec![7; room];
        assert_eq!(
            entries::find_extrema(&s, 1, 0, &one_layer(), &mut out),
            (7, 1)
        );
        assert_eq!(out, vec![7; room]);
    }
    let mut out = [7; 12];
    assert_eq!(
        entries::find_extrema(&s, 1, 0, &one_layer(), &mut out),
        (0, 1)
    );
    assert_eq!(out[10..], [7, 7]);
}

/// More keypoints than are tried for first.
#[test]
fn a_long_list() {
    let (width, height) = (200, 200);
    let mut samples = vec![0.0; 3 * height * width];
    let mut many = 0;
    for r in (6..height - 6).step_by(4) {
        for c in (6..width - 6).step_by(4) {
            samples[(height + r) * width + c] = 100.0;
            many += 1;
        }
    }
    let s = Stack {
        samples: &samples,
        width,
        height,
        planes: 3,
    };
    assert!(many > 1024);
    assert_eq!(
        find_extrema(&s, 1, 0, &one_layer()).map(|l| l.len()),
        Ok(many)
    );
}

#[test]
fn refusals_in_the_table_s_order() {
    let samples = spike(11, 100.0);
    let good = stack(&samples, 11);
    let told = |s: &Stack, layer, octave, settings: &Settings| {
        find_extrema(s, layer, octave, settings).unwrap_err()
    };
    let wide = Stack {
        width: 8193,
        ..good
    };
    assert_eq!(told(&wide, 0, 99, &one_layer()), Refusal::Shape);
    assert_eq!(told(&good, 0, 99, &one_layer()), Refusal::Layers);
    let short = Stack {
        samples: &samples[1..],
        ..good
    };
    assert_eq!(told(&short, 1, 99, &one_layer()), Refusal::Length);
    let mut bad = samples.clone();
    bad[0] = f32::INFINITY;
    let bad = stack(&bad, 11);
    assert_eq!(told(&bad, 1, 16, &one_layer()), Refusal::Settings);
    assert_eq!(told(&bad, 1, 0, &one_layer()), Refusal::Sample);
    let words = told(&bad, 1, 0, &one_layer()).to_string();
    assert_eq!(
        words,
        "refused with number 6: a sample is no number of at most 2^20 in magnitude"
    );
}

#[test]
fn operations_on_bits() {
    let a = (1.0 + 2f32.powi(-12)).to_bits();
    let c = (-(1.0 + 2f32.powi(-11))).to_bits();
    assert_eq!(bits::fma(a, a, c), 2f32.powi(-24).to_bits());
    assert_eq!(bits::floor((-0.5f32).to_bits()), (-1f32).to_bits());
    assert_eq!(bits::round(2.5f32.to_bits()), 2f32.to_bits());
    assert_eq!(bits::to_i32(f32::NAN.to_bits()), 0);
    assert_eq!(bits::sqrt((-1f32).to_bits()), bits::NAN);
    assert_eq!(bits::exp(0.5f32.to_bits()), bits::NAN);
}
