//! Records made of a keypoint, a direction and a descriptor: blank exactly where no cell was read, and what is refused.

use bargeclover::{
    Aim, Blank, Descriptor, Keypoint, Oriented, Picture, Record, Refusal, Sheet,
    assign_orientations, compute_descriptor, descriptor_inputs, entries, make_record, read_sheet,
    write_sheet,
};

fn keypoint() -> Keypoint {
    Keypoint {
        x: 10.25,
        y: 9.75,
        size: 3.2,
        response: 0.1,
        octave: 0x0080_0100,
        layer: 1,
        xi: 0.5,
        column: 10,
        row: 11,
        moves: 2,
    }
}

fn oriented() -> Oriented {
    let k = keypoint();
    Oriented {
        x: k.x,
        y: k.y,
        size: k.size,
        response: k.response,
        octave: k.octave,
        angle: 90.0,
    }
}

fn descriptor() -> Descriptor {
    Descriptor {
        values: std::array::from_fn(|k| k as f32),
        samples: 5,
    }
}

fn of_zeros(samples: usize) -> Descriptor {
    Descriptor {
        values: [0.0; 128],
        samples,
    }
}

#[test]
fn every_word_has_its_place() {
    let expected = Record {
        row: 11,
        column: 10,
        octave: 0,
        layer: 1,
        code: 128,
        x: 10.25,
        y: 9.75,
        size: 3.2,
        response: 0.1,
        angle: 90.0,
        values: std::array::from_fn(|k| k as u8),
        blank: Blank::No,
    };
    let made = make_record(&keypoint(), &oriented(), &descriptor());
    assert_eq!(made, Ok(expected));
    let mut words = [0; 139];
    let (k, o, d) = (keypoint(), oriented(), descriptor());
    let number = entries::make_record(&k.to_words(), &o.to_words(), &d.values, 5, &mut words);
    assert_eq!((number, words), (0, expected.to_words()));
}

#[test]
fn blank_where_no_cell_was_read() {
    for (samples, blank) in [(0, Blank::Yes), (1, Blank::No), (usize::MAX, Blank::No)] {
        let made = make_record(&keypoint(), &oriented(), &of_zeros(samples)).unwrap();
        assert_eq!((made.values, made.blank), ([0; 128], blank));
    }
}

#[test]
fn level_and_unread_patches_on_a_sheet() {
    let (k, o) = (keypoint(), oriented());
    let of = |samples: &[f32], width: usize, at: Aim| {
        let picture = Picture {
            samples,
            width,
            height: samples.len() / width,
        };
        make_record(&k, &o, &compute_descriptor(&picture, &at).unwrap()).unwrap()
    };
    let at = descriptor_inputs(&o, 0).unwrap();
    let level = of(&[5.0; 21 * 21], 21, at);
    let corner = Aim {
        x: 0.0,
        y: 1.0,
        ..at
    };
    let unread = of(&[1.0, 2.0, 3.0, 4.0], 2, corner);
    assert_eq!((level.values, unread.values), ([0; 128], [0; 128]));
    assert_eq!((level.blank, unread.blank), (Blank::No, Blank::Yes));
    let sheet = Sheet {
        edition: 2,
        width: 21,
        height: 21,
        layers: 3,
        records: vec![level, unread],
    };
    let bytes = write_sheet(&sheet).unwrap();
    assert_eq!(read_sheet(&bytes), Ok(sheet));
}

#[test]
fn of_every_direction() {
    let ramp: Vec<f32> = (0..21 * 21).map(|k| (k % 21) as f32).collect();
    let picture = Picture {
        samples: &ramp,
        width: 21,
        height: 21,
    };
    let k = keypoint();
    let directions = assign_orientations(&picture, &k).unwrap().list;
    assert!(!directions.is_empty());
    for o in &directions {
        let at = descriptor_inputs(o, 0).unwrap();
        let d = compute_descriptor(&picture, &at).unwrap();
        let made = make_record(&k, o, &d).unwrap();
        assert_eq!((made.angle, made.blank), (o.angle, Blank::No));
        assert_eq!(made.values.map(f32::from), d.values);
    }
}

#[test]
fn refusals() {
    let made = |k: &Keypoint, o: &Oriented, d: &Descriptor| make_record(k, o, d).unwrap_err();
    let (k, o, d) = (keypoint(), oriented(), descriptor());
    let unread = Descriptor {
        samples: 0,
        ..descriptor()
    };
    assert_eq!(made(&k, &o, &unread), Refusal::Field);
    for value in [0.5, -1.0, 256.0, f32::NAN, f32::INFINITY] {
        let mut d = descriptor();
        d.values[127] = value;
        assert_eq!(made(&k, &o, &d), Refusal::Field);
    }
    // a keypoint's direction is its own
    let other = Oriented {
        x: 10.5,
        ..oriented()
    };
    assert_eq!(made(&k, &other, &d), Refusal::Field);
    let far = Keypoint {
        column: 8192,
        ..keypoint()
    };
    assert_eq!(made(&far, &o, &d), Refusal::Field);
    let unsure = Keypoint {
        xi: f32::NAN,
        ..keypoint()
    };
    assert_eq!(made(&unsure, &o, &d), Refusal::Field);
    let turned = Oriented {
        angle: 360.0,
        ..oriented()
    };
    assert_eq!(made(&k, &turned, &d), Refusal::Field);
    // what is free
    let free = Keypoint {
        layer: 77,
        xi: f32::INFINITY,
        moves: u32::MAX,
        ..keypoint()
    };
    assert_eq!(make_record(&free, &o, &d), make_record(&k, &o, &d));
}

#[test]
fn a_refusal_writes_nothing() {
    let (k, o) = (keypoint().to_words(), oriented().to_words());
    let d = descriptor();
    for (k, o, values, room, number) in [
        (&k[..9], &o[..], &d.values[..], 139, 5),
        (&k[..], &o[..5], &d.values[..], 139, 5),
        (&k[..], &o[..], &d.values[..127], 139, 5),
        (&k[..], &o[..], &d.values[..127], 138, 5),
        (&k[..], &o[..], &d.values[..], 138, 7),
        (&k[..], &o[..], &d.values[..], 140, 7),
        (&k[..], &o[..], &d.values[..], 0, 7),
    ] {
        let mut out = [7; 140];
        let told = entries::make_record(k, o, values, 5, &mut out[..room]);
        assert_eq!((told, out), (number, [7; 140]));
    }
    // -0 is 0
    let mut out = [7; 139];
    let told = entries::make_record(&k, &o, &[-0.0; 128], 0, &mut out);
    assert_eq!((told, &out[10..138], out[138]), (0, &[0; 128][..], 1));
}
