//! The planes that `crates/run_extract` reads, and what it is to print: both are made here, the planes by the tool from a small coast
//! (land, shore, open sea and the mark in its corner), the text by the published Rust on these planes and by the sheet's second
//! rendering. With DEMO_WRITE=1 the files are written, and else they are held to what is made.

use bargeclover::Settings;
use std::fmt::Write;
use std::fs;
use std::path::Path;
use tool::pyramid::{Octave, Pyramid};

const WIDTH: usize = 56;
const HEIGHT: usize = 44;
/// The coast: one with keypoints on land, on the shore and in the corner.
const SEED: u64 = 3064;

fn octave() -> Octave {
    let frame = coast::frame(WIDTH, HEIGHT, SEED);
    let samples: Vec<f32> = frame.samples.iter().map(|v| f32::from(*v)).collect();
    let mut pyramid = Pyramid::new(&samples, WIDTH, HEIGHT, &Settings::default(), false);
    pyramid.next().unwrap()
}

/// Difference planes, then the Gaussian planes of the layers, by their bits, least significant byte first.
fn planes(o: &Octave) -> Vec<u8> {
    let layers = (1..=3).flat_map(|l| o.picture(l).samples);
    o.differences
        .iter()
        .chain(layers)
        .flat_map(|v| v.to_bits().to_le_bytes())
        .collect()
}

/// The records by the published Rust, 139 words each, by the layer searched; a keypoint's picture is that of the layer where it
/// settled. The last word is 1 where no sample was used.
fn records(o: &Octave) -> Vec<[u32; 139]> {
    let s = Settings::default();
    let mut all = Vec::new();
    for layer in 1..=3 {
        for k in oracle::find_extrema(&o.stack(), layer, 0, &s) {
            let plane = o.picture(k[5] as usize).samples;
            for d in oracle::assign_orientations(plane, WIDTH, HEIGHT, &k).0 {
                let at = oracle::descriptor_inputs(&d, 0).map(f32::from_bits);
                let (values, samples) = oracle::compute_descriptor(plane, WIDTH, HEIGHT, at);
                let mut w = [0; 139];
                let head = [k[8], k[7], d[4] & 255, d[4] >> 8 & 255, d[4] >> 16];
                w[..5].copy_from_slice(&head);
                w[5..10].copy_from_slice(&[d[0], d[1], d[2], d[3], d[5]]);
                for (w, v) in w[10..].iter_mut().zip(values) {
                    *w = f32::from_bits(v) as u32;
                }
                w[138] = u32::from(samples == 0);
                all.push(w);
            }
        }
    }
    all
}

fn text(records: &[[u32; 139]]) -> String {
    let mut s = String::from(
        "row\tcolumn\toctave\tlayer\tcode\tx\ty\tsize\tresponse x 100000\tangle\tlargest value\tblank\n",
    );
    for r in records {
        for v in &r[..5] {
            let _ = write!(s, "{v}\t");
        }
        let whole = |bits: u32, by: f32| (f32::from_bits(bits) * by).round_ties_even() as u32;
        let hundredths = |bits: u32| {
            let n = whole(bits, 100.0);
            format!("{}.{:02}\t", n / 100, n % 100)
        };
        for bits in &r[5..8] {
            s += &hundredths(*bits);
        }
        let _ = write!(s, "{}\t{}", whole(r[8], 100000.0), hundredths(r[9]));
        let largest = r[10..138].iter().max().unwrap();
        let _ = writeln!(s, "{largest}\t{}", r[138]);
    }
    let sheet = cases::sheet::written(&cases::sheet::Case {
        edition: 2,
        width: WIDTH,
        height: HEIGHT,
        layers: 3,
        words: records.as_flattened().to_vec(),
    });
    let (head, rest) = sheet.split_at(8);
    for part in std::iter::once(head).chain(rest.chunks(154)) {
        for b in part {
            let _ = write!(s, "{b:02x}");
        }
        s.push('\n');
    }
    s
}

#[test]
fn the_demo_s_planes_and_text() {
    let folder = Path::new(env!("CARGO_MANIFEST_DIR")).join("../../crates/run_extract");
    let o = octave();
    let mut made = vec![("data/planes.bin", planes(&o))];
    if oracle::FOUND {
        let records = records(&o);
        assert!((6..=64).contains(&records.len()), "{}", records.len());
        made.push(("stdout", text(&records).into_bytes()));
    }
    for (name, bytes) in made {
        let file = folder.join(name);
        if std::env::var("DEMO_WRITE").is_ok_and(|v| v == "1") {
            fs::write(&file, &bytes).unwrap();
        }
        assert!(fs::read(&file).unwrap() == bytes, "{name} is another");
    }
}
