//! The published Rust as patched: the marked examples (rules E5 to E10), the cells that orientation and descriptor read, counted by
//! the Rust and by the rendering that the refusal table uses, and the sheet of a keypoint that the Rust finds, checked by its rendering.

use bargeclover::{Settings, Stack};
use cases::audit::{self, Outcome, Reason, Stages, change};
use cases::{Rng, descriptor, orientation};

fn skipped() -> bool {
    if !oracle::FOUND {
        println!("skipped: the published Rust was not found");
    }
    !oracle::FOUND
}

#[test]
fn marked_examples_of_detection() {
    if skipped() {
        return;
    }
    let settings = Settings {
        layers: 1,
        ..Settings::default()
    };
    let spike = |value| {
        let mut samples = vec![0.0; 3 * 11 * 11];
        samples[11 * 11 + 5 * 11 + 5] = value;
        let stack = Stack {
            samples: &samples,
            width: 11,
            height: 11,
            planes: 3,
        };
        oracle::find_extrema(&stack, 1, 0, &settings)
    };
    for v in [100.0, -100.0] {
        let found = spike(v);
        assert_eq!(found.len(), 1);
        let five = 5f32.to_bits();
        assert_eq!([found[0][0], found[0][1]], [five, five]);
        assert_eq!((found[0][4], found[0][9]), (8388864, 0));
    }
    assert_eq!([5.0, 10.0, 11.0].map(|v| spike(v).len()), [0, 0, 1]);
    assert_eq!(oracle::threshold(1.0, 1), 127.0);
    assert_eq!(oracle::threshold(0.04, 3), 1.0);
}

#[test]
fn a_small_picture_has_no_sample() {
    if skipped() {
        return;
    }
    let (values, n) = oracle::compute_descriptor(&[1.0; 4], 2, 2, [0.0, 0.0, 1.0, 0.0]);
    assert_eq!((values, n), ([0; 128], 0));
}

#[test]
fn cells_read() {
    if skipped() {
        return;
    }
    let mut r = Rng::new(5);
    for _ in 0..3000 {
        let c = orientation::accepted(&mut r);
        assert_eq!(orientation::fault(&c), 0, "{c:?}");
        let p = &c.picture;
        let keypoint = c.keypoint.as_slice().try_into().unwrap();
        let (_, n) = oracle::assign_orientations(&p.samples, p.width, p.height, keypoint);
        assert_eq!(n, orientation::cells(&c).len(), "{c:?}");

        let c = descriptor::accepted(&mut r);
        assert_eq!(descriptor::fault(&c), 0, "{c:?}");
        let p = &c.picture;
        let at = [c.x, c.y, c.scale, c.angle];
        let (_, n) = oracle::compute_descriptor(&p.samples, p.width, p.height, at);
        assert_eq!(n, descriptor::cells(&c).len(), "{c:?}");
    }
}

/// The sheet of one bright cell, on a plane that rises to the right, in both editions, and changed by hand.
#[test]
fn a_sheet_of_one_record() {
    if skipped() {
        return;
    }
    const SIDE: usize = 11;
    const PLANE: usize = SIDE * SIDE;
    let rust = Stages {
        find: oracle::find_extrema,
        assign: oracle::assign_orientations,
        inputs: oracle::descriptor_inputs,
        describe: oracle::compute_descriptor,
    };
    let mut c = audit::Case {
        dog: vec![0.0; 3 * PLANE],
        gauss: (0..4 * PLANE).map(|k| (k % SIDE) as f32).collect(),
        width: SIDE,
        height: SIDE,
        planes: 3,
        octave: 0,
        settings: Settings {
            layers: 1,
            ..Settings::default()
        },
        base: (SIDE, SIDE),
        sheet: Vec::new(),
    };
    c.dog[PLANE + PLANE / 2] = 100.0;
    let made = audit::made(&c, &rust).unwrap();
    assert_eq!((made.keypoints.len(), made.records.len()), (1, 1));
    for edition in [1, 2] {
        let whole = change::whole(&c, &made, edition);
        // the byte and the bits that are turned in it, and what comes of it
        let at = |byte: usize| 8 + byte;
        for (byte, bits, outcome) in [
            (0, 0, Outcome::Accepted),
            (1, 0x80, Outcome::Header(2)),
            (3, 0x80, Outcome::Header(3)),
            (4, 0x80, Outcome::Header(4)),
            (at(1), 0x08, Outcome::Record(0, 1)),
            (at(3), 0x40, Outcome::Record(0, 2)),
            (at(3), 0x04, Outcome::Refused(Reason::OtherOctave)),
            (at(5), 0x40, Outcome::Record(0, 5)),
            (at(9), 0x01, Outcome::Record(0, 8)),
            (at(13), 0x01, Outcome::Record(0, 9)),
            (at(17), 0x01, Outcome::Record(0, 10)),
            (at(21), 0x01, Outcome::Record(0, 11)),
            (at(25), 0x01, Outcome::Record(0, 12)),
            (at(26), 0x01, Outcome::Record(0, 13)),
            (at(153), 0x01, Outcome::Record(0, 140)),
        ] {
            c.sheet = whole.clone();
            c.sheet[byte] ^= bits;
            assert_eq!(audit::outcome(&c, &rust), outcome, "{byte}, {bits}");
        }
        c.sheet = whole[..8].to_vec();
        c.sheet[6] &= 3;
        assert_eq!(audit::outcome(&c, &rust), Outcome::Missing(0));
        c.sheet = [&whole[..], &whole[8..]].concat();
        c.sheet[6] = c.sheet[6] & 3 | 2 << 2;
        assert_eq!(audit::outcome(&c, &rust), Outcome::LeftOver(1));
    }
}
