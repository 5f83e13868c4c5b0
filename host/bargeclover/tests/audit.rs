//! Sheets held to an octave through the wrapper: the library's own is accepted, the first difference is named, and what is refused.

use bargeclover::{
    Blank, Field, HeaderField, Picture, Record, Refusal, Settings, Sheet, Stack, Verdict,
    assign_orientations, check_sheet, compute_descriptor, descriptor_inputs, ffi, find_extrema,
    make_record, write_sheet,
};

const WIDTH: usize = 40;
const HEIGHT: usize = 24;
const PLANE: usize = WIDTH * HEIGHT;
const BASE: (usize, usize) = (81, 48);
const OCTAVE: u32 = 1;

/// Bright and dark cells in the two layers, on Gaussian planes that rise one way in the first and another way in the second.
struct Planes {
    dog: Vec<f32>,
    gauss: Vec<f32>,
    settings: Settings,
}

impl Planes {
    fn new() -> Planes {
        let mut dog = vec![0.0; 4 * PLANE];
        for (layer, row, column, value) in [
            (1, 8, 9, 100.0),
            (1, 15, 30, -80.0),
            (2, 9, 20, 120.0),
            (2, 14, 12, 90.0),
        ] {
            dog[layer * PLANE + row * WIDTH + column] = value;
        }
        let cell = |k: usize| {
            let [row, column] = [k % PLANE / WIDTH, k % WIDTH].map(|v| v as f32);
            match k / PLANE {
                1 => 3.0 * row,
                2 => 2.0 * column - row,
                _ => 0.0,
            }
        };
        let settings = Settings {
            layers: 2,
            ..Settings::default()
        };
        Planes {
            dog,
            gauss: (0..5 * PLANE).map(cell).collect(),
            settings,
        }
    }

    fn stack(&self) -> Stack<'_> {
        Stack {
            samples: &self.dog,
            width: WIDTH,
            height: HEIGHT,
            planes: 4,
        }
    }

    /// The sheet that the entries make, stage after stage.
    fn sheet(&self, edition: u32) -> Sheet {
        let mut records = Vec::new();
        for layer in 1..=self.settings.layers {
            for k in find_extrema(&self.stack(), layer, OCTAVE, &self.settings).unwrap() {
                let picture = Picture {
                    samples: &self.gauss[k.layer as usize * PLANE..][..PLANE],
                    width: WIDTH,
                    height: HEIGHT,
                };
                for o in assign_orientations(&picture, &k).unwrap().list {
                    let at = descriptor_inputs(&o, OCTAVE as i32).unwrap();
                    let d = compute_descriptor(&picture, &at).unwrap();
                    records.push(make_record(&k, &o, &d).unwrap());
                }
            }
        }
        Sheet {
            edition,
            width: BASE.0,
            height: BASE.1,
            layers: self.settings.layers,
            records,
        }
    }

    fn check(&self, sheet: &[u8]) -> Result<Verdict, Refusal> {
        let (s, settings) = (self.stack(), &self.settings);
        check_sheet(&s, &self.gauss, OCTAVE, settings, BASE, sheet)
    }

    fn told(&self, sheet: &Sheet) -> Verdict {
        self.check(&write_sheet(sheet).unwrap()).unwrap()
    }
}

#[test]
fn the_library_s_own_sheet_is_accepted() {
    let p = Planes::new();
    for edition in [1, 2] {
        let sheet = p.sheet(edition);
        let layers: Vec<u32> = sheet.records.iter().map(|r| r.layer).collect();
        assert_eq!(layers, [1, 1, 2, 2]);
        assert_eq!(p.told(&sheet), Verdict::Accepted);
    }
}

#[test]
fn a_field_that_differs_is_named() {
    let p = Planes::new();
    type Change = fn(&mut Record);
    let changes: [(Field, Change); 13] = [
        (Field::Row, |r| r.row += 1),
        (Field::Column, |r| r.column -= 1),
        (Field::Layer, |r| r.layer = 3 - r.layer),
        (Field::Code, |r| r.code ^= 1),
        (Field::X, |r| r.x = r.x.next_up()),
        (Field::Y, |r| r.y = 0.0),
        (Field::Size, |r| r.size = r.size.next_down()),
        (Field::Response, |r| r.response *= 2.0),
        (Field::Angle, |r| r.angle = (r.angle + 1.0) % 360.0),
        (Field::Value(0), |r| r.values[0] ^= 1),
        (Field::Value(17), |r| r.values[17..].fill(255)),
        (Field::Value(127), |r| r.values[127] ^= 128),
        // the angle lies before the values
        (Field::Angle, |r| {
            r.values = [1; 128];
            r.angle = 359.0;
        }),
    ];
    for edition in [1, 2] {
        for record in 0..4 {
            for (field, change) in changes {
                let mut sheet = p.sheet(edition);
                change(&mut sheet.records[record]);
                let told = p.told(&sheet);
                assert_eq!(told, Verdict::Record { record, field }, "{told}");
            }
        }
    }
}

#[test]
fn the_blank_bit_is_compared_in_edition_2() {
    let mut p = Planes::new();
    // so faint that the values are all zero, and read all the same
    p.gauss.iter_mut().for_each(|x| *x *= 2f32.powi(-50));
    let mut two = p.sheet(2);
    let zeros = |r: &Record| r.values == [0; 128] && r.blank == Blank::No;
    assert!(two.records.len() == 4 && two.records.iter().all(zeros));
    assert_eq!(p.told(&two), Verdict::Accepted);
    two.records[2].blank = Blank::Yes;
    let (record, field) = (2, Field::Blank);
    assert_eq!(p.told(&two), Verdict::Record { record, field });
    let one = Sheet { edition: 1, ..two };
    assert_eq!(p.told(&one), Verdict::Accepted);
}

#[test]
fn records_that_are_missing_left_over_or_in_another_order() {
    let p = Planes::new();
    let sheet = p.sheet(2);
    let with = |change: fn(&mut Vec<Record>)| {
        let mut sheet = sheet.clone();
        change(&mut sheet.records);
        p.told(&sheet)
    };
    let differs = |record, field| Verdict::Record { record, field };
    assert_eq!(with(Vec::clear), Verdict::Missing { from: 0 });
    assert_eq!(with(|r| _ = r.pop()), Verdict::Missing { from: 3 });
    assert_eq!(with(|r| r.push(r[3])), Verdict::LeftOver { from: 4 });
    assert_eq!(
        with(|r| r.extend_from_within(..)),
        Verdict::LeftOver { from: 4 }
    );
    // a thinned sheet
    assert_eq!(with(|r| _ = r.remove(1)), differs(1, Field::Row));
    assert_eq!(with(|r| r.swap(0, 1)), differs(0, Field::Row));
    assert_eq!(with(|r| r.rotate_left(2)), differs(0, Field::Row));
}

#[test]
fn the_header_comes_first() {
    let p = Planes::new();
    let mut sheet = p.sheet(1);
    sheet.records[0].code ^= 1;
    sheet.layers = 3;
    assert_eq!(p.told(&sheet), Verdict::Header(HeaderField::Layers));
    sheet.height = 47;
    assert_eq!(p.told(&sheet), Verdict::Header(HeaderField::Height));
    sheet.width = 8192;
    assert_eq!(p.told(&sheet), Verdict::Header(HeaderField::Width));
    sheet.records.clear();
    assert_eq!(p.told(&sheet), Verdict::Header(HeaderField::Width));
}

#[test]
fn refusals_in_their_order() {
    let p = Planes::new();
    let mut sheet = p.sheet(2);
    // a record of another octave, and a header that differs: of the refusals the last
    (sheet.records[3].octave, sheet.width) = (0, 80);
    let other = write_sheet(&sheet).unwrap();
    assert_eq!(p.check(&other), Err(Refusal::Field));
    let mut bytes = other;
    bytes.pop();
    assert_eq!(p.check(&bytes), Err(Refusal::Sheet));
    let mut p = p;
    // the last keypoint's cell, on the plane of layer 2
    p.gauss[2 * PLANE + 14 * WIDTH + 13] = f32::NAN;
    assert_eq!(p.check(&bytes), Err(Refusal::Sample));
    p.dog[4 * PLANE - 1] = f32::INFINITY;
    assert_eq!(p.check(&bytes), Err(Refusal::Sample));
    let told = |stack: &Stack, gauss: &[f32], octave, settings: &Settings, base| {
        check_sheet(stack, gauss, octave, settings, base, &bytes).unwrap_err()
    };
    let (stack, settings) = (p.stack(), p.settings);
    let bad = Settings {
        sigma: 0.25,
        ..settings
    };
    assert_eq!(told(&stack, &p.gauss, 1, &bad, BASE), Refusal::Settings);
    assert_eq!(
        told(&stack, &p.gauss, 16, &settings, BASE),
        Refusal::Settings
    );
    // as many Gaussian planes as differences are one too few
    let few = &p.gauss[..4 * PLANE];
    assert_eq!(told(&stack, few, 16, &settings, BASE), Refusal::Length);
    let many = Settings { layers: 3, ..bad };
    assert_eq!(told(&stack, few, 16, &many, BASE), Refusal::Layers);
    assert_eq!(told(&stack, few, 16, &many, (0, 48)), Refusal::Shape);
    assert_eq!(told(&stack, few, 16, &many, (81, 8193)), Refusal::Shape);
}

#[test]
fn gaussian_cells_that_nobody_reads_may_be_anything() {
    let mut p = Planes::new();
    let bytes = write_sheet(&p.sheet(2)).unwrap();
    for plane in [0, 3, 4] {
        p.gauss[plane * PLANE..(plane + 1) * PLANE].fill(f32::NAN);
    }
    // the corners of the planes that are read
    for corner in [0, WIDTH - 1, PLANE - WIDTH, PLANE - 1] {
        p.gauss[PLANE + corner] = f32::INFINITY;
        p.gauss[2 * PLANE + corner] = f32::NEG_INFINITY;
    }
    assert_eq!(p.check(&bytes), Ok(Verdict::Accepted));
}

/// Whatever stood in the out-parameters before.
#[test]
fn each_out_parameter_is_written() {
    let p = Planes::new();
    let call = |sheet: &[u8]| {
        let (mut verdict, mut record, mut field) = (7, 7, 7);
        let s = &p.settings;
        // SAFETY: each pointer is good for its length, and nothing overlaps what is written.
        let number = unsafe {
            ffi::bargeclover_check_sheet(
                p.dog.as_ptr(),
                p.dog.len(),
                p.gauss.as_ptr(),
                p.gauss.len(),
                WIDTH,
                HEIGHT,
                4,
                OCTAVE,
                s.layers,
                s.contrast,
                s.edge,
                s.sigma,
                BASE.0,
                BASE.1,
                sheet.as_ptr(),
                sheet.len(),
                &mut verdict,
                &mut record,
                &mut field,
            )
        };
        (number, verdict, record, field)
    };
    let bytes = write_sheet(&p.sheet(2)).unwrap();
    assert_eq!(call(&bytes), (0, 0, 0, 0));
    assert_eq!(call(&bytes[1..]), (8, 0, 0, 0));
    assert_eq!(call(&[]), (8, 0, 0, 0));
    let mut sheet = p.sheet(2);
    sheet.records[3].angle = 1.0;
    assert_eq!(call(&write_sheet(&sheet).unwrap()), (0, 2, 3, 12));
    sheet.records.truncate(3);
    assert_eq!(call(&write_sheet(&sheet).unwrap()), (0, 3, 3, 0));
    sheet.layers = 4;
    assert_eq!(call(&write_sheet(&sheet).unwrap()), (0, 1, 0, 4));
}

/// The header names the verdicts and the fields by the numbers that they have here.
#[test]
fn the_header_has_the_same_numbers() {
    let header = concat!(env!("CARGO_MANIFEST_DIR"), "/../../include/bargeclover.h");
    let header = std::fs::read_to_string(header).unwrap();
    let of = |name: &str| -> u32 {
        let start = format!("#define BARGECLOVER_{name} ");
        let line = header.lines().find_map(|l| l.strip_prefix(&start)).unwrap();
        let (number, _) = line.split_once('u').unwrap();
        number.parse().unwrap()
    };
    let verdicts = ["ACCEPTED", "HEADER", "RECORD", "MISSING", "LEFT_OVER"];
    let verdicts = verdicts.map(|v| of(&format!("VERDICT_{v}")));
    assert_eq!(verdicts, [0, 1, 2, 3, 4]);
    for (name, field) in [
        ("WIDTH", HeaderField::Width),
        ("HEIGHT", HeaderField::Height),
        ("LAYERS", HeaderField::Layers),
    ] {
        assert_eq!(of(&format!("HEADER_{name}")), field.number());
    }
    for (name, field) in [
        ("ROW", Field::Row),
        ("COLUMN", Field::Column),
        ("LAYER", Field::Layer),
        ("CODE", Field::Code),
        ("BLANK", Field::Blank),
        ("X", Field::X),
        ("Y", Field::Y),
        ("SIZE", Field::Size),
        ("RESPONSE", Field::Response),
        ("ANGLE", Field::Angle),
        ("VALUES", Field::Value(0)),
    ] {
        assert_eq!(of(&format!("FIELD_{name}")), field.number());
    }
}
